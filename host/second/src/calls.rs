//! Calls and readings as values, so that a list of them can be made, played and played again.

use crate::lent::{Counts, Words};
use crate::records::{CatalogId, ColumnId, FileId, SnapshotId, Uuid};
use crate::refusals::Outcome;

#[derive(Clone, Debug, PartialEq, Eq)]
pub enum Call {
    Fresh {
        time: u64,
    },
    CreateSchema {
        time: u64,
        name: Vec<u8>,
    },
    CreateTable {
        time: u64,
        schema: CatalogId,
        name: Vec<u8>,
        columns: Vec<u64>,
        column_names: Vec<u8>,
    },
    Insert {
        time: u64,
        table: CatalogId,
        record_count: u64,
        uuid: Uuid,
        statistics: Vec<u64>,
    },
    Delete {
        time: u64,
        data_file: FileId,
        uuid: Uuid,
        positions: Vec<u64>,
    },
    DropTable {
        time: u64,
        table: CatalogId,
    },
    DropSchema {
        time: u64,
        schema: CatalogId,
    },
    Expire {
        ids: Vec<SnapshotId>,
        time: u64,
    },
    Cleanup {
        t: u64,
    },
}

#[derive(Clone, Debug, PartialEq, Eq)]
pub enum Reading {
    Schemas { snapshot: SnapshotId },
    Tables { snapshot: SnapshotId, schema: CatalogId },
    Columns { snapshot: SnapshotId, table: CatalogId },
    TableByName { snapshot: SnapshotId, schema: CatalogId, name: Vec<u8> },
    Files { snapshot: SnapshotId, table: CatalogId },
    FilteredFiles { snapshot: SnapshotId, table: CatalogId, column: ColumnId, scalar: i64 },
    Rows { snapshot: SnapshotId, table: CatalogId },
    ByTime { t: u64 },
    FindFile { id: FileId },
}

/// Plays a call on the tables.
pub fn perform(words: &mut Words, counts: &Counts, call: &Call, area: &mut [u64]) -> Outcome {
    match call {
        Call::Fresh { time } => crate::fresh(words, counts, *time, area),
        Call::CreateSchema { time, name } => crate::create_schema(words, counts, *time, name, area),
        Call::CreateTable { time, schema, name, columns, column_names } => {
            crate::create_table(words, counts, *time, *schema, name, columns, column_names, area)
        }
        Call::Insert { time, table, record_count, uuid, statistics } => {
            crate::insert(words, counts, *time, *table, *record_count, *uuid, statistics, area)
        }
        Call::Delete { time, data_file, uuid, positions } => {
            crate::delete(words, counts, *time, *data_file, *uuid, positions, area)
        }
        Call::DropTable { time, table } => crate::drop_table(words, counts, *time, *table, area),
        Call::DropSchema { time, schema } => {
            crate::drop_schema(words, counts, *time, *schema, area)
        }
        Call::Expire { ids, time } => crate::expire(words, counts, ids, *time, area),
        Call::Cleanup { t } => crate::cleanup(words, counts, *t, area),
    }
}

/// Asks a reading of the tables.
pub fn read(words: &Words, counts: &Counts, reading: &Reading, area: &mut [u64]) -> Outcome {
    match reading {
        Reading::Schemas { snapshot } => crate::list_schemas(words, counts, *snapshot, area),
        Reading::Tables { snapshot, schema } => {
            crate::list_tables(words, counts, *snapshot, *schema, area)
        }
        Reading::Columns { snapshot, table } => {
            crate::list_columns(words, counts, *snapshot, *table, area)
        }
        Reading::TableByName { snapshot, schema, name } => {
            crate::table_by_name(words, counts, *snapshot, *schema, name, area)
        }
        Reading::Files { snapshot, table } => {
            crate::list_files(words, counts, *snapshot, *table, area)
        }
        Reading::FilteredFiles { snapshot, table, column, scalar } => {
            crate::list_filtered_files(words, counts, *snapshot, *table, *column, *scalar, area)
        }
        Reading::Rows { snapshot, table } => {
            crate::list_rows(words, counts, *snapshot, *table, area)
        }
        Reading::ByTime { t } => crate::snapshot_by_time(words, counts, *t, area),
        Reading::FindFile { id } => crate::find_file(words, counts, *id, area),
    }
}
