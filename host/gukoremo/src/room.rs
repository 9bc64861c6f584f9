//! How many words the answers of a list can have.

use crate::answers::LISTED_SIZE;
use crate::list::CallList;
use crate::number::{CatalogId, SnapshotId, COLUMN_LIMIT, HANDED_SIZE, RECORD_COUNT_LIMIT};
use crate::outcome::Counts;
use crate::reader::Records;
use crate::record::{DataFileRecord, CREATED_SCHEMA, CREATED_TABLE, DELETED_FROM_TABLE, INSERTED_INTO_TABLE};
use crate::session::{
    CallRecord, CLEANED_UP, COPIED_FILE, FOUND_SNAPSHOT_BY_TIME, FOUND_TABLE_BY_NAME, LISTED_COLUMNS, LISTED_FILES, LISTED_FILTERED_FILES,
    LISTED_ROWS, LISTED_SCHEMAS, LISTED_TABLES, MADE_FRESH,
};
use crate::tables::TablesView;

/// What there can be at most, call by call.
pub struct Most {
    pub schemas: usize,
    pub tables: usize,
    pub data_files: usize,
    rows: usize,
    /// Files that no cleanup has had room for yet.
    files: usize,
}

/// Words of an area in which every answer of a list has room. A count that the tables have no room for is refused whatever the area.
pub fn room_for(list: &CallList, view: TablesView<'_>, counts: Counts) -> usize {
    let mut most = Most::of(view, counts);
    list.calls.chunks_exact(CallRecord::SIZE).fold(0, |room: usize, record| room.saturating_add(most.words_of(record)))
}

/// Rows of a table at a snapshot, those that are deleted too: the most words that a list of them can have.
pub fn rows_of(records: Records<'_>, snapshot: SnapshotId, table: CatalogId) -> usize {
    let listed = records.data_files().filter(|file| file.table == table && file.life.is_live_at(snapshot));
    listed.fold(0, |sum: usize, file| sum.saturating_add(rows(file.record_count)))
}

/// A file of more rows is refused.
fn rows(record_count: u64) -> usize {
    record_count.min(RECORD_COUNT_LIMIT) as usize
}

impl Most {
    pub fn of(view: TablesView<'_>, counts: Counts) -> Most {
        let data_files = counts.data_files.min(view.data_files.len());
        let record_counts = view.data_files.chunks_exact(DataFileRecord::SIZE).take(data_files).map(|file| file[DataFileRecord::RECORD_COUNT]);
        Most {
            schemas: counts.schemas.min(view.schemas.len()),
            tables: counts.tables.min(view.tables.len()),
            data_files,
            rows: record_counts.map(rows).sum(),
            files: data_files + counts.delete_files.min(view.delete_files.len()) + counts.scheduled.min(view.scheduled.len()),
        }
    }

    /// Words for a record's answer, and what there can be after it. What a cleanup does not hand out, a later one has that room for.
    fn words_of(&mut self, record: &[u64]) -> usize {
        match record[CallRecord::KIND] {
            MADE_FRESH | CREATED_SCHEMA => self.schemas += 1,
            CREATED_TABLE => self.tables += 1,
            INSERTED_INTO_TABLE => {
                self.data_files += 1;
                self.rows += rows(record[CallRecord::RECORD_COUNT]);
                self.files += 1;
            }
            DELETED_FROM_TABLE => self.files += 1,
            CLEANED_UP => return HANDED_SIZE * std::mem::take(&mut self.files),
            LISTED_SCHEMAS => return self.schemas,
            LISTED_TABLES => return self.tables,
            LISTED_COLUMNS => return COLUMN_LIMIT,
            FOUND_TABLE_BY_NAME | FOUND_SNAPSHOT_BY_TIME => return 1,
            LISTED_FILES | LISTED_FILTERED_FILES => return LISTED_SIZE * self.data_files,
            LISTED_ROWS => return self.rows,
            COPIED_FILE => return DataFileRecord::SIZE,
            _ => {}
        }
        0
    }
}
