//! The twelve runs by name, in the order of the calls' arguments, and the nine counts by name, in the catalogue record's order.

use gukoremo::number::{NAME_SIZE, POSITION_LIMIT, TABLE_LIMIT};
use gukoremo::record::{
    ColumnRecord, DataFileRecord, DeleteFileRecord, ScheduledRecord, SchemaRecord, SnapshotRecord, StatisticsRecord, TableRecord,
};
use gukoremo::{Counts, OwnedTables};

/// A run, to be changed.
pub enum Run<'a> {
    Words(&'a mut Vec<u64>),
    Bytes(&'a mut Vec<u8>),
}

/// A run, to be read.
pub enum RunView<'a> {
    Words(&'a [u64]),
    Bytes(&'a [u8]),
}

pub const COUNT: usize = 12;

pub const NAMES: [&str; COUNT] = [
    "snapshots",
    "schemas",
    "schema_names",
    "tables",
    "table_names",
    "columns",
    "column_names",
    "data_files",
    "delete_files",
    "positions",
    "statistics",
    "scheduled",
];

/// The lengths that the limits can make use of.
pub const LIMITS: [usize; COUNT] = [
    TABLE_LIMIT * SnapshotRecord::SIZE,
    TABLE_LIMIT * SchemaRecord::SIZE,
    TABLE_LIMIT * NAME_SIZE,
    TABLE_LIMIT * TableRecord::SIZE,
    TABLE_LIMIT * NAME_SIZE,
    TABLE_LIMIT * ColumnRecord::SIZE,
    TABLE_LIMIT * NAME_SIZE,
    TABLE_LIMIT * DataFileRecord::SIZE,
    TABLE_LIMIT * DeleteFileRecord::SIZE,
    POSITION_LIMIT,
    TABLE_LIMIT * StatisticsRecord::SIZE,
    TABLE_LIMIT * ScheduledRecord::SIZE,
];

pub fn views(tables: &OwnedTables) -> [RunView<'_>; COUNT] {
    [
        RunView::Words(&tables.snapshots),
        RunView::Words(&tables.schemas),
        RunView::Bytes(&tables.schema_names),
        RunView::Words(&tables.tables),
        RunView::Bytes(&tables.table_names),
        RunView::Words(&tables.columns),
        RunView::Bytes(&tables.column_names),
        RunView::Words(&tables.data_files),
        RunView::Words(&tables.delete_files),
        RunView::Words(&tables.positions),
        RunView::Words(&tables.statistics),
        RunView::Words(&tables.scheduled),
    ]
}

pub fn all(tables: &mut OwnedTables) -> [Run<'_>; COUNT] {
    [
        Run::Words(&mut tables.snapshots),
        Run::Words(&mut tables.schemas),
        Run::Bytes(&mut tables.schema_names),
        Run::Words(&mut tables.tables),
        Run::Bytes(&mut tables.table_names),
        Run::Words(&mut tables.columns),
        Run::Bytes(&mut tables.column_names),
        Run::Words(&mut tables.data_files),
        Run::Words(&mut tables.delete_files),
        Run::Words(&mut tables.positions),
        Run::Words(&mut tables.statistics),
        Run::Words(&mut tables.scheduled),
    ]
}

/// The tables of the catalogue record.
pub const TABLES: [&str; 9] = ["snapshots", "schemas", "tables", "columns", "data_files", "delete_files", "positions", "statistics", "scheduled"];

pub fn counts_of(words: [usize; 9]) -> Counts {
    let [snapshots, schemas, tables, columns, data_files, delete_files, positions, statistics, scheduled] = words;
    Counts { snapshots, schemas, tables, columns, data_files, delete_files, positions, statistics, scheduled }
}

pub fn words_of(counts: Counts) -> [usize; 9] {
    [
        counts.snapshots,
        counts.schemas,
        counts.tables,
        counts.columns,
        counts.data_files,
        counts.delete_files,
        counts.positions,
        counts.statistics,
        counts.scheduled,
    ]
}

/// Room for so many records of each kind, and for 16 positions of each: the limits, 4,096 and 65,536, stand to each other as 1 to 16.
pub fn room(records: usize) -> Counts {
    let positions = records * (POSITION_LIMIT / TABLE_LIMIT);
    Counts { positions, ..counts_of([records; 9]) }
}
