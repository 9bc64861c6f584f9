//! What all commits have in common: "Each commit makes one snapshot, id one above the latest. New
//! ids come from the next ids."

use crate::catalog::Catalog;
use crate::lent::{Counts, Words, NUMBER_LIMIT};
use crate::load::load;
use crate::records::{CatalogId, Snapshot, SnapshotId};
use crate::refusals::{accepted, refuse_if, Outcome, Refusal};
use crate::store::store;

pub mod delete;
pub mod fresh;
pub mod insert;
pub mod schemas;
pub mod tables;

/// "Kinds: 1 created_schema, 2 created_table, 3 inserted_into_table, 4 deleted_from_table,
/// 6 dropped_schema, 7 dropped_table"
pub const CREATED_SCHEMA: u64 = 1;
pub const CREATED_TABLE: u64 = 2;
pub const INSERTED_INTO_TABLE: u64 = 3;
pub const DELETED_FROM_TABLE: u64 = 4;
pub const DROPPED_SCHEMA: u64 = 6;
pub const DROPPED_TABLE: u64 = 7;

pub const CHANGE_KINDS: [u64; 6] = [
    CREATED_SCHEMA,
    CREATED_TABLE,
    INSERTED_INTO_TABLE,
    DELETED_FROM_TABLE,
    DROPPED_SCHEMA,
    DROPPED_TABLE,
];

/// A call that may change the tables. "Order: 1, then 5 to 19 rising, then 4, 2, 3": the edit
/// judges 5 to 19 and then 4, and works on maps, so that a refused call has written nothing.
pub(crate) fn change(
    words: &mut Words,
    counts: &Counts,
    area: &mut [u64],
    edit: impl FnOnce(&mut Catalog) -> Result<Vec<u64>, Refusal>,
) -> Outcome {
    match edited(words, counts, area.len(), edit) {
        Err(refusal) => refusal.outcome(counts),
        Ok((catalog, answer)) => {
            area[..answer.len()].copy_from_slice(&answer);
            accepted(answer.len(), store(&catalog, words, counts))
        }
    }
}

fn edited(
    words: &Words,
    counts: &Counts,
    room: usize,
    edit: impl FnOnce(&mut Catalog) -> Result<Vec<u64>, Refusal>,
) -> Result<(Catalog, Vec<u64>), Refusal> {
    let mut catalog = load(words, counts).map_err(|_| Refusal::NotSound)?;
    let answer = edit(&mut catalog)?;
    let beyond = catalog.counts().first_beyond(&words.places());
    refuse_if(beyond.is_some(), Refusal::NoRoom)?;
    refuse_if(answer.len() > room, Refusal::ShortAnswerArea)?;
    Ok((catalog, answer))
}

/// "commits, expiry and Fresh have length 0"
pub(crate) const NO_ANSWER: Vec<u64> = Vec::new();

/// 8: "time below the latest snapshot's."
pub(crate) fn time_stands(catalog: &Catalog, time: u64) -> Result<(), Refusal> {
    let (_, latest) = catalog.latest();
    refuse_if(time < latest.time, Refusal::TimeFalls)
}

/// What a commit did, and how many ids it took.
pub(crate) struct Change {
    pub kind: u64,
    pub object: CatalogId,
    pub new_catalog_ids: u64,
    pub new_file_ids: u64,
}

/// The commit's snapshot, with its id. 4: "a number would pass 2^62."
pub(crate) fn next_snapshot(
    catalog: &Catalog,
    time: u64,
    change: Change,
) -> Result<(SnapshotId, Snapshot), Refusal> {
    let (latest_id, latest) = catalog.latest();
    let snapshot = Snapshot {
        time,
        schema_version: moved(latest.schema_version, u64::from(raises_version(change.kind)))?,
        next_catalog_id: moved(latest.next_catalog_id, change.new_catalog_ids)?,
        next_file_id: moved(latest.next_file_id, change.new_file_ids)?,
        change_kind: change.kind,
        change_object: change.object,
    };
    Ok((moved(latest_id, 1)?, snapshot))
}

/// "schema_version rises by one for kinds 1, 2, 6, 7 only."
fn raises_version(kind: u64) -> bool {
    [CREATED_SCHEMA, CREATED_TABLE, DROPPED_SCHEMA, DROPPED_TABLE].contains(&kind)
}

/// A number that a commit moves; 2^62 itself passes (R19).
pub(crate) fn moved(number: u64, by: u64) -> Result<u64, Refusal> {
    let sum = number.checked_add(by).filter(|sum| *sum <= NUMBER_LIMIT);
    sum.ok_or(Refusal::NumberTooLarge)
}
