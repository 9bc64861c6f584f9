//! "Lists are of ids, a word each; a file list has two words a file, the second the delete file's
//! id or ABSENT. A single id is a list of one word. The answer's length in words is returned."

use crate::catalog::Catalog;
use crate::lent::{Counts, Words};
use crate::load::load;
use crate::records::SnapshotId;
use crate::refusals::{accepted, refuse_if, Outcome, Refusal};

pub mod by_time;
pub mod files;
pub mod lists;
pub mod lookup;
pub mod rows;

/// "a reading hands the catalogue record back as it came". Of the area only the answer's words are
/// written: words "past an answer's end, keep their content".
pub(crate) fn reading(
    words: &Words,
    counts: &Counts,
    area: &mut [u64],
    look: impl FnOnce(&Catalog) -> Result<Vec<u64>, Refusal>,
) -> Outcome {
    match answer(words, counts, area.len(), look) {
        Err(refusal) => refusal.outcome(counts),
        Ok(answer) => {
            area[..answer.len()].copy_from_slice(&answer);
            accepted(answer.len(), *counts)
        }
    }
}

fn answer(
    words: &Words,
    counts: &Counts,
    room: usize,
    look: impl FnOnce(&Catalog) -> Result<Vec<u64>, Refusal>,
) -> Result<Vec<u64>, Refusal> {
    let catalog = load(words, counts).map_err(|_| Refusal::NotSound)?;
    let answer = look(&catalog)?;
    refuse_if(answer.len() > room, Refusal::ShortAnswerArea)?;
    Ok(answer)
}

/// 5: "snapshot not retained."
pub(crate) fn retained(catalog: &Catalog, snapshot: SnapshotId) -> Result<(), Refusal> {
    refuse_if(!catalog.snapshots.contains_key(&snapshot), Refusal::NotRetained)
}
