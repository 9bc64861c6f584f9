//! The twelve lent runs by number and name: nine of words, then three of name bytes.

use second::lent::{
    COLUMN_SIZE, DATA_FILE_SIZE, DELETE_FILE_SIZE, NAME_SIZE, SCHEDULED_SIZE, SCHEMA_SIZE, SNAPSHOT_SIZE, STATISTICS_SIZE, TABLE_SIZE,
};
use second::{Counts, Words};

pub const RUNS: [&str; 12] = [
    "snapshots",
    "schemas",
    "tables",
    "columns",
    "data_files",
    "delete_files",
    "positions",
    "statistics",
    "scheduled",
    "schema_names",
    "table_names",
    "column_names",
];

/// Words, or bytes, of a record of each run.
pub const SIZES: [usize; 12] = [
    SNAPSHOT_SIZE,
    SCHEMA_SIZE,
    TABLE_SIZE,
    COLUMN_SIZE,
    DATA_FILE_SIZE,
    DELETE_FILE_SIZE,
    1,
    STATISTICS_SIZE,
    SCHEDULED_SIZE,
    NAME_SIZE,
    NAME_SIZE,
    NAME_SIZE,
];

pub const SNAPSHOTS: usize = 0;
pub const SCHEMAS: usize = 1;
pub const TABLES: usize = 2;
pub const COLUMNS: usize = 3;
pub const DATA_FILES: usize = 4;
pub const DELETE_FILES: usize = 5;
pub const POSITIONS: usize = 6;
pub const STATISTICS: usize = 7;
pub const SCHEDULED: usize = 8;
pub const FIRST_NAMES: usize = 9;

/// The run of records that a run belongs to: names lie beside schemas, tables and columns.
pub fn table_of(run: usize) -> usize {
    if run < FIRST_NAMES {
        run
    } else {
        SCHEMAS + run - FIRST_NAMES
    }
}

pub fn word_runs(words: &Words) -> [&[u64]; 9] {
    [
        &words.snapshots,
        &words.schemas,
        &words.tables,
        &words.columns,
        &words.data_files,
        &words.delete_files,
        &words.positions,
        &words.statistics,
        &words.scheduled,
    ]
}

pub fn name_runs(words: &Words) -> [&[u8]; 3] {
    [&words.schema_names, &words.table_names, &words.column_names]
}

pub fn length(words: &Words, run: usize) -> usize {
    match run {
        0..FIRST_NAMES => word_runs(words)[run].len(),
        _ => name_runs(words)[run - FIRST_NAMES].len(),
    }
}

/// The word, or the byte, at an index.
pub fn word(words: &Words, run: usize, index: usize) -> Option<u64> {
    match run {
        0..FIRST_NAMES => word_runs(words)[run].get(index).copied(),
        _ => name_runs(words)[run - FIRST_NAMES].get(index).map(|byte| u64::from(*byte)),
    }
}

pub fn counts(counts: &Counts) -> [u64; 9] {
    counts.by_run().map(|(_, count)| count as u64)
}

pub fn counts_of(words: [u64; 9]) -> Counts {
    let [snapshots, schemas, tables, columns, data_files, delete_files, positions, statistics, scheduled] = words.map(|word| word as usize);
    Counts { snapshots, schemas, tables, columns, data_files, delete_files, positions, statistics, scheduled }
}
