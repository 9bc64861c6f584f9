//! "Cleanup takes t and hands out id, UUID high and UUID low, three words, of each scheduled record
//! with schedule_start < t, in table order, and removes it. Neither makes a snapshot."

use crate::commits::change;
use crate::lent::{Counts, Words};
use crate::records::Scheduled;
use crate::refusals::Outcome;

/// A cleanup refused with 3 hands out nothing (R27).
pub fn cleanup(words: &mut Words, counts: &Counts, t: u64, area: &mut [u64]) -> Outcome {
    change(words, counts, area, |catalog| {
        let scheduled = std::mem::take(&mut catalog.scheduled).into_iter();
        let (due, kept): (Vec<_>, Vec<_>) = scheduled.partition(|record| record.schedule_start < t);
        catalog.scheduled = kept;
        let handed_out = |record: &Scheduled| [record.file, record.uuid.0, record.uuid.1];
        Ok(due.iter().flat_map(handed_out).collect())
    })
}
