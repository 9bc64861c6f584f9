//! The calls by the second implementation, `host/second`, in place of the compiled ones. Each copies the lent runs, works on the copy, and copies it back, so
//! that a call costs a pass over the runs more. Of several positions that are already deleted it may name another than the compiled call.
#![allow(clippy::too_many_arguments)]

use crate::number::{CatalogId, FileId, SnapshotId};
use crate::outcome::{Counts, Outcome};
use crate::record::Uuid;
use crate::session::Session;
use crate::tables::{Lend, Tables, TablesView};
use second::{Call, CallList, Reading, Words};

/// What the calls are, for a version line.
pub const OVER: &str = "over the second implementation, which is NOT proved";

// Calls that change tables

pub fn fresh(lent: Tables<'_>, counts: Counts, time: u64, area: &mut [u64]) -> Outcome {
    change(lent, counts, Call::Fresh { time }, area)
}

pub fn create_schema(lent: Tables<'_>, counts: Counts, time: u64, name: &[u8], area: &mut [u64]) -> Outcome {
    change(lent, counts, Call::CreateSchema { time, name: name.to_vec() }, area)
}

pub fn drop_schema(lent: Tables<'_>, counts: Counts, time: u64, schema: CatalogId, area: &mut [u64]) -> Outcome {
    change(lent, counts, Call::DropSchema { time, schema: schema.0 }, area)
}

/// Two words for each column, type and nulls_allowed, and a place of 32 bytes for its name.
pub fn create_table(
    lent: Tables<'_>,
    counts: Counts,
    time: u64,
    schema: CatalogId,
    name: &[u8],
    new_columns: &[u64],
    new_names: &[u8],
    area: &mut [u64],
) -> Outcome {
    let (name, columns, column_names) = (name.to_vec(), new_columns.to_vec(), new_names.to_vec());
    change(lent, counts, Call::CreateTable { time, schema: schema.0, name, columns, column_names }, area)
}

pub fn drop_table(lent: Tables<'_>, counts: Counts, time: u64, table: CatalogId, area: &mut [u64]) -> Outcome {
    change(lent, counts, Call::DropTable { time, table: table.0 }, area)
}

/// Six words for each live column: column id, null_count, has_min, has_max, min, max.
pub fn insert(
    lent: Tables<'_>,
    counts: Counts,
    time: u64,
    table: CatalogId,
    record_count: u64,
    uuid: Uuid,
    new_statistics: &[u64],
    area: &mut [u64],
) -> Outcome {
    let (uuid, statistics) = ((uuid.high, uuid.low), new_statistics.to_vec());
    change(lent, counts, Call::Insert { time, table: table.0, record_count, uuid, statistics }, area)
}

pub fn delete(lent: Tables<'_>, counts: Counts, time: u64, data_file: FileId, uuid: Uuid, new_positions: &[u64], area: &mut [u64]) -> Outcome {
    let (uuid, positions) = ((uuid.high, uuid.low), new_positions.to_vec());
    change(lent, counts, Call::Delete { time, data_file: data_file.0, uuid, positions }, area)
}

pub fn expire(lent: Tables<'_>, counts: Counts, ids: &[u64], time: u64, area: &mut [u64]) -> Outcome {
    change(lent, counts, Call::Expire { ids: ids.to_vec(), time }, area)
}

/// The answer is three words for each file: id, UUID high, UUID low.
pub fn cleanup(lent: Tables<'_>, counts: Counts, t: u64, area: &mut [u64]) -> Outcome {
    change(lent, counts, Call::Cleanup { t }, area)
}

/// The records of calls and readings, by [`crate::session::CallRecord`], and the runs that their spans lie in.
pub fn play(mut lent: Tables<'_>, counts: Counts, calls: &[u64], lists: &[u64], names: &[u8], area: &mut [u64], told: &mut [u64]) -> Session {
    let mut words = words_of(lent.view());
    let given = second::play(&mut words, &counts_to(counts), CallList { calls, lists, names }, area, told);
    write_back(&mut lent, &words);
    Session { played: given.played, answered: given.answered, counts: counts_of(given.counts) }
}

// Calls that write the area alone

pub fn list_schemas(lent: TablesView<'_>, counts: Counts, snapshot: SnapshotId, area: &mut [u64]) -> Outcome {
    read(lent, counts, Reading::Schemas { snapshot: snapshot.0 }, area)
}

pub fn list_tables(lent: TablesView<'_>, counts: Counts, snapshot: SnapshotId, schema: CatalogId, area: &mut [u64]) -> Outcome {
    read(lent, counts, Reading::Tables { snapshot: snapshot.0, schema: schema.0 }, area)
}

pub fn list_columns(lent: TablesView<'_>, counts: Counts, snapshot: SnapshotId, table: CatalogId, area: &mut [u64]) -> Outcome {
    read(lent, counts, Reading::Columns { snapshot: snapshot.0, table: table.0 }, area)
}

pub fn table_by_name(lent: TablesView<'_>, counts: Counts, snapshot: SnapshotId, schema: CatalogId, name: &[u8], area: &mut [u64]) -> Outcome {
    read(lent, counts, Reading::TableByName { snapshot: snapshot.0, schema: schema.0, name: name.to_vec() }, area)
}

/// The answer is two words for each file: data file, delete file or ABSENT.
pub fn list_files(lent: TablesView<'_>, counts: Counts, snapshot: SnapshotId, table: CatalogId, area: &mut [u64]) -> Outcome {
    read(lent, counts, Reading::Files { snapshot: snapshot.0, table: table.0 }, area)
}

pub fn list_filtered_files(
    lent: TablesView<'_>,
    counts: Counts,
    snapshot: SnapshotId,
    table: CatalogId,
    column: u64,
    scalar: i64,
    area: &mut [u64],
) -> Outcome {
    read(lent, counts, Reading::FilteredFiles { snapshot: snapshot.0, table: table.0, column, scalar }, area)
}

pub fn list_rows(lent: TablesView<'_>, counts: Counts, snapshot: SnapshotId, table: CatalogId, area: &mut [u64]) -> Outcome {
    read(lent, counts, Reading::Rows { snapshot: snapshot.0, table: table.0 }, area)
}

pub fn snapshot_by_time(lent: TablesView<'_>, counts: Counts, t: u64, area: &mut [u64]) -> Outcome {
    read(lent, counts, Reading::ByTime { t }, area)
}

/// The answer is the eight words of a data file's or of a delete file's record.
pub fn copy_file(lent: TablesView<'_>, counts: Counts, id: FileId, area: &mut [u64]) -> Outcome {
    read(lent, counts, Reading::FindFile { id: id.0 }, area)
}

// A call that writes nothing

/// The first line of 'Sound tables' that doesn't hold, by the numbers of [`crate::line`].
pub fn first_unsound(lent: TablesView<'_>, counts: Counts) -> u64 {
    second::load(&words_of(lent), &counts_to(counts)).map_or_else(|unsound| u64::from(unsound.rule), |_| crate::line::SOUND)
}

// How calls are made

fn change(mut lent: Tables<'_>, counts: Counts, call: Call, area: &mut [u64]) -> Outcome {
    let mut words = words_of(lent.view());
    let given = second::perform(&mut words, &counts_to(counts), &call, area);
    write_back(&mut lent, &words);
    outcome_of(given)
}

fn read(lent: TablesView<'_>, counts: Counts, reading: Reading, area: &mut [u64]) -> Outcome {
    outcome_of(second::read(&words_of(lent), &counts_to(counts), &reading, area))
}

fn words_of(lent: TablesView<'_>) -> Words {
    Words {
        snapshots: lent.snapshots.to_vec(),
        schemas: lent.schemas.to_vec(),
        tables: lent.tables.to_vec(),
        columns: lent.columns.to_vec(),
        data_files: lent.data_files.to_vec(),
        delete_files: lent.delete_files.to_vec(),
        positions: lent.positions.to_vec(),
        statistics: lent.statistics.to_vec(),
        scheduled: lent.scheduled.to_vec(),
        schema_names: lent.schema_names.to_vec(),
        table_names: lent.table_names.to_vec(),
        column_names: lent.column_names.to_vec(),
    }
}

fn write_back(lent: &mut Tables<'_>, words: &Words) {
    lent.snapshots.copy_from_slice(&words.snapshots);
    lent.schemas.copy_from_slice(&words.schemas);
    lent.tables.copy_from_slice(&words.tables);
    lent.columns.copy_from_slice(&words.columns);
    lent.data_files.copy_from_slice(&words.data_files);
    lent.delete_files.copy_from_slice(&words.delete_files);
    lent.positions.copy_from_slice(&words.positions);
    lent.statistics.copy_from_slice(&words.statistics);
    lent.scheduled.copy_from_slice(&words.scheduled);
    lent.schema_names.copy_from_slice(&words.schema_names);
    lent.table_names.copy_from_slice(&words.table_names);
    lent.column_names.copy_from_slice(&words.column_names);
}

fn counts_to(c: Counts) -> second::Counts {
    second::Counts {
        snapshots: c.snapshots,
        schemas: c.schemas,
        tables: c.tables,
        columns: c.columns,
        data_files: c.data_files,
        delete_files: c.delete_files,
        positions: c.positions,
        statistics: c.statistics,
        scheduled: c.scheduled,
    }
}

fn counts_of(c: second::Counts) -> Counts {
    Counts {
        snapshots: c.snapshots,
        schemas: c.schemas,
        tables: c.tables,
        columns: c.columns,
        data_files: c.data_files,
        delete_files: c.delete_files,
        positions: c.positions,
        statistics: c.statistics,
        scheduled: c.scheduled,
    }
}

fn outcome_of(given: second::Outcome) -> Outcome {
    Outcome { number: given.number, place: given.place, length: given.length, counts: counts_of(given.counts) }
}
