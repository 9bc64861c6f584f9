//! "Rows: row_id_start + p for each position p not deleted, ascending; the rows of each file go
//! straight after those of the file before, in the caller's answer area."

use std::collections::BTreeSet;

use crate::lent::{Counts, Words};
use crate::readings::{reading, retained};
use crate::records::{CatalogId, DataFile, SnapshotId};
use crate::refusals::{refuse_if, Outcome, Refusal};

pub fn list_rows(
    words: &Words,
    counts: &Counts,
    snapshot: SnapshotId,
    table: CatalogId,
    area: &mut [u64],
) -> Outcome {
    let room = area.len();
    reading(words, counts, area, |catalog| {
        retained(catalog, snapshot)?;
        catalog.table_at(snapshot, table).ok_or(Refusal::NotLive)?;
        let delete_files = catalog.delete_files_at(snapshot);
        let mut files: Vec<(&DataFile, Option<&BTreeSet<u64>>)> = Vec::new();
        for (id, file) in catalog.data_files_at(snapshot, table) {
            let delete_file = delete_files.get(&id).and_then(|id| catalog.delete_files.get(id));
            files.push((file, delete_file.map(|delete_file| &delete_file.positions)));
        }

        // The length comes first: up to 2^32 rows are not listed for an area that can't hold them.
        let deleted = |positions: &Option<&BTreeSet<u64>>| positions.map_or(0, BTreeSet::len);
        let left = files.iter().map(|(file, gone)| file.record_count - deleted(gone) as u64);
        refuse_if(left.sum::<u64>() > room as u64, Refusal::ShortAnswerArea)?;

        let mut rows = Vec::new();
        for (file, gone) in files {
            let is_left = |p: &u64| gone.is_none_or(|positions| !positions.contains(p));
            let positions = (0..file.record_count).filter(is_left);
            rows.extend(positions.map(|p| file.row_id_start + p));
        }
        Ok(rows)
    })
}
