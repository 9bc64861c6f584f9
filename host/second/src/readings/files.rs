//! "files of a table, by id, each with its delete file; the file list filtered by
//! `column = scalar` (signed 64-bit)"

use crate::catalog::Catalog;
use crate::lent::{Counts, Words, ABSENT};
use crate::readings::{reading, retained};
use crate::records::{CatalogId, ColumnId, FileId, SnapshotId, Statistics};
use crate::refusals::{refuse_if, Outcome, Refusal};

pub fn list_files(
    words: &Words,
    counts: &Counts,
    snapshot: SnapshotId,
    table: CatalogId,
    area: &mut [u64],
) -> Outcome {
    reading(words, counts, area, |catalog| {
        retained(catalog, snapshot)?;
        catalog.table_at(snapshot, table).ok_or(Refusal::NotLive)?;
        Ok(file_list(catalog, snapshot, table, |_| true))
    })
}

pub fn list_filtered_files(
    words: &Words,
    counts: &Counts,
    snapshot: SnapshotId,
    table: CatalogId,
    column: ColumnId,
    scalar: i64,
    area: &mut [u64],
) -> Outcome {
    reading(words, counts, area, |catalog| {
        retained(catalog, snapshot)?;
        catalog.table_at(snapshot, table).ok_or(Refusal::NotLive)?;
        let has_column = catalog.columns_at(snapshot, table).any(|(id, _)| id == column);
        refuse_if(!has_column, Refusal::NotLive)?;
        let kept = |file| catalog.statistics.get(&(file, column)).is_some_and(|s| may(s, scalar));
        Ok(file_list(catalog, snapshot, table, kept))
    })
}

/// Two words a file that is kept, "the second the delete file's id or ABSENT".
fn file_list(
    catalog: &Catalog,
    snapshot: SnapshotId,
    table: CatalogId,
    kept: impl Fn(FileId) -> bool,
) -> Vec<u64> {
    let delete_files = catalog.delete_files_at(snapshot);
    let files = catalog.data_files_at(snapshot, table).map(|(id, _)| id).filter(|id| kept(*id));
    files.flat_map(|id| [id, delete_files.get(&id).copied().unwrap_or(ABSENT)]).collect()
}

/// "a listed file is kept when its statistics record for that column exists and (min missing or
/// scalar ≥ min) and (max missing or scalar ≤ max)"
fn may(statistics: &Statistics, scalar: i64) -> bool {
    statistics.min.is_none_or(|min| scalar >= min) && statistics.max.is_none_or(|max| scalar <= max)
}
