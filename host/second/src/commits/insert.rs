//! "Insert: row_id_start is next_row_id, which grows by record_count."

use crate::catalog::Catalog;
use crate::commits::{
    change, moved, next_snapshot, time_stands, Change, INSERTED_INTO_TABLE, NO_ANSWER,
};
use crate::lent::{Counts, Words, RECORD_COUNT_LIMIT};
use crate::records::{CatalogId, ColumnId, DataFile, Life, Statistics, Uuid};
use crate::refusals::{refuse_if, Outcome, Refusal};

/// The statistics are six words each: column id, null_count, has_min, has_max, min, max (R17).
#[expect(clippy::too_many_arguments, reason = "the tables, the call's own arguments, the area")]
pub fn insert(
    words: &mut Words,
    counts: &Counts,
    time: u64,
    table: CatalogId,
    record_count: u64,
    uuid: Uuid,
    statistics: &[u64],
    area: &mut [u64],
) -> Outcome {
    change(words, counts, area, |catalog| {
        let (latest_id, latest) = catalog.latest();
        let grown = catalog.table_at(latest_id, table).ok_or(Refusal::NotLive)?;
        time_stands(catalog, time)?;
        let in_range = (1..=RECORD_COUNT_LIMIT).contains(&record_count);
        refuse_if(!in_range, Refusal::BadRecordCount)?;
        refuse_if(catalog.has_uuid(uuid), Refusal::UuidTaken)?;
        let list = new_statistics(statistics).ok_or(Refusal::BadStatistics)?;
        let good = suit_columns(catalog, table, record_count, &list);
        refuse_if(!good, Refusal::BadStatistics)?;

        let id = latest.next_file_id;
        let row_id_start = grown.next_row_id;
        let next_row_id = moved(row_id_start, record_count)?;
        let done = Change {
            kind: INSERTED_INTO_TABLE,
            object: table,
            new_catalog_ids: 0,
            new_file_ids: 1,
        };
        let (now, snapshot) = next_snapshot(catalog, time, done)?;
        catalog.snapshots.insert(now, snapshot);
        let file = DataFile { table, life: Life::from(now), record_count, row_id_start, uuid };
        catalog.data_files.insert(id, file);
        if let Some(table) = catalog.tables.get_mut(&table) {
            table.next_row_id = next_row_id;
        }
        for (column, statistics) in list {
            catalog.statistics.insert((id, column), statistics);
        }
        Ok(NO_ANSWER)
    })
}

/// The call's list; none where it is ragged or a flag or a missing bound is no such (R14, R17).
fn new_statistics(words: &[u64]) -> Option<Vec<(ColumnId, Statistics)>> {
    let (records, no_record) = words.as_chunks::<6>();
    if !no_record.is_empty() {
        return None;
    }
    let record = |[column, null_count, has_min, has_max, min, max]: &[u64; 6]| {
        let words = [*null_count, *has_min, *has_max, *min, *max];
        Some((*column, Statistics::from_words(words)?))
    };
    records.iter().map(record).collect()
}

/// 15: "statistics break the rules above or aren't one for each live column by ascending id."
fn suit_columns(
    catalog: &Catalog,
    table: CatalogId,
    record_count: u64,
    list: &[(ColumnId, Statistics)],
) -> bool {
    let columns: Vec<_> = catalog.columns_at(catalog.latest_id(), table).collect();
    columns.len() == list.len()
        && columns.iter().zip(list).all(|((column_id, column), (id, statistics))| {
            column_id == id && statistics.suit(column, record_count)
        })
}
