//! 1: "used counts fit the lent lengths and the limits; every field is in its range; padding is
//! zero". Change objects, begins and ends, and the values of statistics have lines of their own
//! (R44).

use std::collections::BTreeSet;

use crate::lent::{
    Counts, Run, Words, ABSENT, COLUMN_SIZE, DATA_FILE_SIZE, DELETE_FILE_SIZE, NAME_SIZE,
    NUMBER_LIMIT, RECORD_COUNT_LIMIT, SCHEDULED_SIZE, SCHEMA_SIZE, SNAPSHOT_SIZE, STATISTICS_SIZE,
    TABLE_SIZE,
};
use crate::names::Name;
use crate::records::{
    flag, CatalogId, Column, ColumnId, DataFile, DeleteFile, FileId, Life, Scheduled, Schema,
    Snapshot, SnapshotId, Table,
};
use crate::sound::draft::{Deletes, Draft};
use crate::sound::Unsound;
use crate::types::Type;

const RULE: u8 = 1;

type NamePlace = [u8; NAME_SIZE];

pub fn draft(words: &Words, counts: &Counts) -> Result<Draft, Unsound> {
    if let Some(run) = counts.first_beyond(&words.places()) {
        return Err(Unsound::whole(RULE, run));
    }
    let schemas = named(&words.schemas, &words.schema_names, counts.schemas);
    let tables = named(&words.tables, &words.table_names, counts.tables);
    let columns = named(&words.columns, &words.column_names, counts.columns);
    let delete_files = used(&words.delete_files, counts.delete_files);
    Ok(Draft {
        snapshots: each(Run::Snapshots, used(&words.snapshots, counts.snapshots), snapshot)?,
        schemas: each(Run::Schemas, schemas, schema)?,
        tables: each(Run::Tables, tables, table)?,
        columns: each(Run::Columns, columns, column)?,
        data_files: each(Run::DataFiles, used(&words.data_files, counts.data_files), data_file)?,
        delete_files: each(Run::DeleteFiles, delete_files, delete_file)?,
        deletes: Deletes {
            counts: used(&words.delete_files, counts.delete_files).map(delete_count).collect(),
            positions: used(&words.positions, counts.positions).map(|[word]| word).collect(),
        },
        statistics: each(Run::Statistics, used(&words.statistics, counts.statistics), statistics)?,
        scheduled: each(Run::Scheduled, used(&words.scheduled, counts.scheduled), scheduled)?,
    })
}

/// The used records of a run; a ragged tail is no place (R1).
fn used<const SIZE: usize>(run: &[u64], count: usize) -> impl Iterator<Item = [u64; SIZE]> + '_ {
    run.as_chunks::<SIZE>().0.iter().copied().take(count)
}

/// The used records of a table with names, each with its name place.
fn named<'a, const SIZE: usize>(
    run: &'a [u64],
    names: &'a [u8],
    count: usize,
) -> impl Iterator<Item = ([u64; SIZE], NamePlace)> + 'a {
    used(run, count).zip(names.as_chunks::<NAME_SIZE>().0.iter().copied())
}

/// Every record read; one that has a field out of its range can't be.
fn each<Place, Record>(
    run: Run,
    places: impl Iterator<Item = Place>,
    read: impl Fn(Place) -> Option<Record>,
) -> Result<Vec<Record>, Unsound> {
    let records = places.map(read).enumerate();
    records.map(|(place, record)| record.ok_or(Unsound::at(RULE, run, place))).collect()
}

/// "Ids, next ids, row numbers, column orders and schema versions are at most 2^62."
fn number(word: u64) -> Option<u64> {
    (word <= NUMBER_LIMIT).then_some(word)
}

/// "in the tables only an end reads as ABSENT"
fn life(begin: u64, end: u64) -> Life {
    Life { begin, end: (end != ABSENT).then_some(end) }
}

fn snapshot(words: [u64; SNAPSHOT_SIZE]) -> Option<(SnapshotId, Snapshot)> {
    let [id, time, schema_version, next_catalog_id, next_file_id, change_kind, change_object] =
        words;
    let snapshot = Snapshot {
        time,
        schema_version: number(schema_version)?,
        next_catalog_id: number(next_catalog_id)?,
        next_file_id: number(next_file_id)?,
        change_kind,
        change_object,
    };
    Some((number(id)?, snapshot))
}

fn schema((words, name): ([u64; SCHEMA_SIZE], NamePlace)) -> Option<(CatalogId, Schema)> {
    let [id, begin, end] = words;
    let schema = Schema { life: life(begin, end), name: Name::from_place(&name)? };
    Some((number(id)?, schema))
}

fn table((words, name): ([u64; TABLE_SIZE], NamePlace)) -> Option<(CatalogId, Table)> {
    let [id, begin, end, schema, next_row_id] = words;
    let table = Table {
        life: life(begin, end),
        schema: number(schema)?,
        next_row_id: number(next_row_id)?,
        name: Name::from_place(&name)?,
    };
    Some((number(id)?, table))
}

fn column(
    (words, name): ([u64; COLUMN_SIZE], NamePlace),
) -> Option<((CatalogId, ColumnId), Column)> {
    let [id, table, begin, end, order, kind, nulls_allowed] = words;
    let column = Column {
        life: life(begin, end),
        order: number(order)?,
        kind: Type::from_code(kind)?,
        nulls_allowed: flag(nulls_allowed)?,
        name: Name::from_place(&name)?,
    };
    Some(((number(table)?, number(id)?), column))
}

/// "record_count is 1 to 1,048,576."
fn data_file(words: [u64; DATA_FILE_SIZE]) -> Option<(FileId, DataFile)> {
    let [id, table, begin, end, record_count, row_id_start, high, low] = words;
    let file = DataFile {
        table: number(table)?,
        life: life(begin, end),
        record_count: Some(record_count).filter(|n| (1..=RECORD_COUNT_LIMIT).contains(n))?,
        row_id_start: number(row_id_start)?,
        uuid: (high, low),
    };
    Some((number(id)?, file))
}

fn delete_file(words: [u64; DELETE_FILE_SIZE]) -> Option<(FileId, DeleteFile)> {
    let [id, table, begin, end, data_file, _, high, low] = words;
    let file = DeleteFile {
        table: number(table)?,
        life: life(begin, end),
        data_file: number(data_file)?,
        positions: BTreeSet::new(),
        uuid: (high, low),
    };
    Some((number(id)?, file))
}

fn delete_count(words: [u64; DELETE_FILE_SIZE]) -> u64 {
    let [_, _, _, _, _, delete_count, _, _] = words;
    delete_count
}

fn statistics(words: [u64; STATISTICS_SIZE]) -> Option<((FileId, ColumnId), [u64; 5])> {
    let [file, column, values @ ..] = words;
    Some(((number(file)?, number(column)?), values))
}

fn scheduled(words: [u64; SCHEDULED_SIZE]) -> Option<Scheduled> {
    let [file, high, low, schedule_start] = words;
    Some(Scheduled { file: number(file)?, uuid: (high, low), schedule_start })
}
