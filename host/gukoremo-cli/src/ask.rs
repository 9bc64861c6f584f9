//! Readings as values, or as the failures that their refusals are; and names as ids.

use crate::failure::{code, Failure};
use crate::file::Lake;
use crate::refused::{refuse, Asked};
use crate::source::{Reading, Sizes, Source, MOST_WORDS};
use crate::values::names::{Reference, TableReference};
use gukoremo::{CatalogId, File, FileId, Listed, Refusal, RowId, SnapshotId};
use std::cell::Cell;
use std::time::{Duration, Instant};

thread_local! {
    /// The time that the compiled calls have taken.
    static CALLS: Cell<Duration> = const { Cell::new(Duration::ZERO) };
}

/// A compiled call, timed.
pub fn timed<Given>(call: impl FnOnce() -> Given) -> Given {
    let begin = Instant::now();
    let given = call();
    CALLS.set(CALLS.get() + begin.elapsed());
    given
}

pub fn time_of_calls() -> Duration {
    CALLS.get()
}

/// The snapshot of a reading: the given one, the one of a time, or the latest.
pub fn snapshot(from: &dyn Source, at: Option<u64>, time: Option<u64>) -> Result<SnapshotId, Failure> {
    match at {
        Some(id) => Ok(SnapshotId(id)),
        None => by_time(from, time.unwrap_or(u64::MAX)),
    }
}

/// The highest retained snapshot at or before a time. Of any catalogue that is sound the one of the last of times is the latest.
pub fn by_time(from: &dyn Source, time: u64) -> Result<SnapshotId, Failure> {
    let words = from.answer(&Reading::ByTime(time));
    let words = words.map_err(|refusal| refuse(refusal, from.lake(), &Asked { time: Some(time), ..Asked::default() }))?;
    Ok(SnapshotId(words[0]))
}

pub fn schemas(from: &dyn Source, at: SnapshotId) -> Result<Vec<CatalogId>, Failure> {
    let words = from.answer(&Reading::Schemas(at)).map_err(|refusal| refuse(refusal, from.lake(), &Asked::at(at)))?;
    Ok(words.into_iter().map(CatalogId).collect())
}

pub fn tables(from: &dyn Source, at: SnapshotId, schema: CatalogId) -> Result<Vec<CatalogId>, Failure> {
    let words = from.answer(&Reading::Tables(at, schema));
    let words = words.map_err(|refusal| refuse(refusal, from.lake(), &Asked::of(at, format!("schema {}", schema.0))))?;
    Ok(words.into_iter().map(CatalogId).collect())
}

/// The ids of the columns, by column_order.
pub fn columns(from: &dyn Source, at: SnapshotId, table: CatalogId) -> Result<Vec<u64>, Failure> {
    let words = from.answer(&Reading::Columns(at, table));
    words.map_err(|refusal| refuse(refusal, from.lake(), &Asked::of(at, format!("table {}", table.0))))
}

/// The files; with a column and a value those that may hold a row with it.
pub fn files(from: &dyn Source, at: SnapshotId, table: CatalogId, filter: Option<(u64, i64)>) -> Result<Vec<Listed>, Failure> {
    let thing = match filter {
        None => format!("table {}", table.0),
        Some((column, _)) => format!("table {} with a column {column}", table.0),
    };
    let words = from.answer(&Reading::Files(at, table, filter));
    let words = words.map_err(|refusal| refuse(refusal, from.lake(), &Asked::of(at, thing)))?;
    Ok(Listed::read_all(&words))
}

pub fn rows(from: &dyn Source, at: SnapshotId, table: CatalogId) -> Result<Vec<RowId>, Failure> {
    let reading = Reading::Rows(at, table);
    match from.answer(&reading) {
        Ok(words) => Ok(words.into_iter().map(RowId).collect()),
        Err(Refusal::ShortAnswerArea) => {
            Err(Failure::new(code::TOO_MUCH, format!("Table {} has more rows at snapshot {} than can be listed at once.", table.0, at.0))
                .why(format!("its files have {} rows, and {MOST_WORDS} can be held.", reading.most(&Sizes::of(from.lake()))))
                .advice("list its files: their row ranges are in 'gukoremo lookup'."))
        }
        Err(refusal) => Err(refuse(refusal, from.lake(), &Asked::of(at, format!("table {}", table.0)))),
    }
}

pub fn lookup(lake: &Lake, file: FileId) -> Result<File, Failure> {
    let found = timed(|| lake.find_file(file));
    found.map_err(|refusal| refuse(refusal, lake, &Asked { thing: Some(format!("file {file}")), ..Asked::default() }))
}

// Names

fn missing(lake: &Lake, at: SnapshotId, thing: String) -> Failure {
    refuse(Refusal::NotLive, lake, &Asked::of(at, thing))
}

/// The schema that a person means. An id is passed on as it is: the call that takes it judges it.
pub fn schema_id(from: &dyn Source, at: SnapshotId, reference: &Reference) -> Result<CatalogId, Failure> {
    let name = match reference {
        Reference::Id(id) => return Ok(CatalogId(*id)),
        Reference::Name(name) => name,
    };
    let listed = schemas(from, at)?;
    let found = from.lake().records().schemas().find(|schema| schema.name == *name && listed.contains(&schema.id));
    found.map(|schema| schema.id).ok_or_else(|| missing(from.lake(), at, format!("schema {name}")))
}

pub fn table_id(from: &dyn Source, at: SnapshotId, reference: &TableReference) -> Result<CatalogId, Failure> {
    let (schema, name) = match reference {
        TableReference::Id(id) => return Ok(CatalogId(*id)),
        TableReference::Name(schema, name) => (schema_id(from, at, schema)?, name),
    };
    let words = from.answer(&Reading::TableByName(at, schema, name.clone()));
    let words = words.map_err(|refusal| refuse(refusal, from.lake(), &Asked::of(at, format!("table {reference}"))))?;
    Ok(CatalogId(words[0]))
}

/// A column of a table that is live at the snapshot.
pub fn column_id(from: &dyn Source, at: SnapshotId, table: CatalogId, reference: &Reference) -> Result<u64, Failure> {
    let name = match reference {
        Reference::Id(id) => return Ok(*id),
        Reference::Name(name) => name,
    };
    let listed = columns(from, at, table)?;
    let mut columns = from.lake().records().columns_of(table);
    let found = columns.find(|column| column.name == *name && listed.contains(&column.id) && column.life.is_live_at(at));
    found.map(|column| column.id).ok_or_else(|| missing(from.lake(), at, format!("column {name} of table {}", table.0)))
}
