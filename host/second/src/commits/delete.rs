//! "Delete: names a live data file and the newly deleted positions. The old delete file, if any,
//! ends; the new one holds both sets."

use std::collections::BTreeSet;

use crate::commits::{change, next_snapshot, time_stands, Change, DELETED_FROM_TABLE, NO_ANSWER};
use crate::lent::{Counts, Words};
use crate::records::{DeleteFile, FileId, Life, Uuid};
use crate::refusals::{refuse_if, Outcome, Refusal};

pub fn delete(
    words: &mut Words,
    counts: &Counts,
    time: u64,
    data_file: FileId,
    uuid: Uuid,
    positions: &[u64],
    area: &mut [u64],
) -> Outcome {
    change(words, counts, area, |catalog| {
        let (latest_id, latest) = catalog.latest();
        let file = catalog.data_file_at(latest_id, data_file).ok_or(Refusal::NotLive)?;
        time_stands(catalog, time)?;
        refuse_if(catalog.has_uuid(uuid), Refusal::UuidTaken)?;
        refuse_if(!are_of_file(positions, file.record_count), Refusal::BadPositions)?;
        // "already deleted" is by the delete file live at the latest snapshot (R23).
        let old_id = catalog.delete_files_at(latest_id).get(&data_file).copied();
        let old = old_id.and_then(|id| catalog.delete_files.get(&id));
        let mut deleted = old.map_or_else(BTreeSet::new, |old| old.positions.clone());
        if let Some(index) = positions.iter().position(|position| deleted.contains(position)) {
            return Err(Refusal::AlreadyDeleted(index as u64));
        }

        let (id, table) = (latest.next_file_id, file.table);
        let done =
            Change { kind: DELETED_FROM_TABLE, object: table, new_catalog_ids: 0, new_file_ids: 1 };
        let (now, snapshot) = next_snapshot(catalog, time, done)?;
        catalog.snapshots.insert(now, snapshot);
        if let Some(old) = old_id.and_then(|id| catalog.delete_files.get_mut(&id)) {
            old.life.end = Some(now);
        }
        deleted.extend(positions);
        let life = Life::from(now);
        let new = DeleteFile { table, life, data_file, positions: deleted, uuid };
        catalog.delete_files.insert(id, new);
        Ok(NO_ANSWER)
    })
}

/// 16: "positions empty, not ascending strictly, or past the file."
fn are_of_file(positions: &[u64], record_count: u64) -> bool {
    let ascend = positions.windows(2).all(|pair| pair[0] < pair[1]);
    let inside = positions.iter().all(|position| *position < record_count);
    !positions.is_empty() && ascend && inside
}
