//! "By time t: the highest retained id whose time ≤ t."

use crate::lent::{Counts, Words};
use crate::readings::reading;
use crate::refusals::{Outcome, Refusal};

/// Of equal times the highest id; 7 comes before 3 (R25).
pub fn snapshot_by_time(words: &Words, counts: &Counts, t: u64, area: &mut [u64]) -> Outcome {
    reading(words, counts, area, |catalog| {
        let mut from_highest = catalog.snapshots.iter().rev();
        let found = from_highest.find(|(_, snapshot)| snapshot.time <= t);
        let (id, _) = found.ok_or(Refusal::NoSnapshotByThen)?;
        Ok(vec![*id])
    })
}
