//! The commands that read a catalogue.

use crate::ask;
use crate::failure::Failure;
use crate::file::{self, Lake};
use crate::list::{output, Cell, Form, List, Said};
use crate::names::Names;
use crate::of_file;
use crate::source::{in_one_list, Source};
use crate::storage;
use crate::values::names::{Reference, TableReference};
use crate::values::times;
use clap::ArgMatches;
use gukoremo::{CatalogId, DataFile, DeleteFile, FileId, Listed, Schema, SnapshotId, Uuid};
use std::collections::HashMap;
use std::io::{self, Write};
use std::path::PathBuf;

pub fn form(given: &ArgMatches) -> Form {
    match (given.get_flag("csv"), given.get_flag("json")) {
        (true, _) => Form::Csv,
        (_, true) => Form::Json,
        _ => Form::Terminal,
    }
}

/// The form of a command that answers in sentences or JSON.
pub fn json_form(given: &ArgMatches) -> Form {
    if given.get_flag("json") {
        Form::Json
    } else {
        Form::Terminal
    }
}

pub fn run(name: &str, given: &ArgMatches) -> Result<u8, Failure> {
    let mut lake = file::read(given.get_one::<PathBuf>("file").expect("required"))?;
    let form = form(given);
    match name {
        "snapshots" => snapshots(&lake)?.print(form),
        "schemas" => schemas(&mut lake, given)?.print(form),
        "tables" => tables(&mut lake, given)?.print(form),
        "columns" => columns(&mut lake, given)?.print(form),
        "files" => files(&mut lake, given, form)?.print(form),
        "rows" => rows(&mut lake, given, form),
        "at" => snapshot_at(&lake, given)?.print(form),
        "lookup" => of_file::lookup(&lake, given)?.print(form),
        "positions" => of_file::positions(&mut lake, given, form),
        "statistics" => of_file::statistics(&lake, given)?.print(form),
        _ => scheduled(&lake)?.print(form),
    }?;
    Ok(0)
}

pub fn at(from: &dyn Source, given: &ArgMatches) -> Result<SnapshotId, Failure> {
    ask::snapshot(from, given.get_one("at").copied(), given.get_one("time").copied())
}

pub fn number(number: u64) -> Cell {
    Cell::Number(number)
}

pub fn text(text: impl Into<String>) -> Cell {
    Cell::Text(text.into())
}

fn snapshots(lake: &Lake) -> Result<List, Failure> {
    // no reading lists them; this one refuses tables that are not sound
    ask::by_time(lake, u64::MAX)?;
    let names = Names::of(lake);
    let mut list = List::new(&["snapshot", "time", "when", "change", "object", "name", "schema_version"]);
    for snapshot in lake.records().snapshots() {
        list.rows.push(vec![
            number(snapshot.id.0),
            number(snapshot.time),
            text(times::rfc(snapshot.time)),
            text(snapshot.change.name()),
            number(snapshot.change.object().0),
            names.object(&snapshot).map_or(Cell::Nothing, Cell::Text),
            number(snapshot.schema_version),
        ]);
    }
    Ok(list)
}

fn scheduled(lake: &Lake) -> Result<List, Failure> {
    ask::by_time(lake, u64::MAX)?;
    let mut list = List { note: storage::NO_TABLE, ..List::new(&["file", "path_in_table", "schedule_start", "when"]) };
    for file in lake.records().scheduled() {
        list.rows.push(vec![number(file.file.0), text(file.uuid.path()), number(file.schedule_start), text(times::rfc(file.schedule_start))]);
    }
    Ok(list)
}

fn schemas(lake: &mut Lake, given: &ArgMatches) -> Result<List, Failure> {
    let listed = in_one_list(lake, |from| ask::schemas(from, at(from, given)?))?;
    let known: HashMap<CatalogId, Schema> = lake.records().schemas().map(|schema| (schema.id, schema)).collect();
    let mut list = List::new(&["schema", "name", "begin", "end"]);
    for schema in listed.iter().filter_map(|id| known.get(id)) {
        list.rows.push(vec![number(schema.id.0), text(&schema.name), number(schema.life.begin.0), Cell::end(schema.life.end)]);
    }
    Ok(list)
}

/// Of one schema, or of all that are there.
fn tables(lake: &mut Lake, given: &ArgMatches) -> Result<List, Failure> {
    let listed = in_one_list(lake, |from| {
        let at = at(from, given)?;
        let schemas = match given.get_one("schema") {
            Some(reference) => vec![ask::schema_id(from, at, reference)?],
            None => ask::schemas(from, at)?,
        };
        schemas.into_iter().map(|schema| ask::tables(from, at, schema)).collect::<Result<Vec<_>, Failure>>()
    })?;
    let names = Names::of(lake);
    let known: HashMap<CatalogId, _> = lake.records().tables().map(|table| (table.id, table)).collect();
    let mut list = List::new(&["table", "schema", "name", "begin", "end", "next_row"]);
    for table in listed.iter().flatten().filter_map(|id| known.get(id)) {
        let (begin, end) = (number(table.life.begin.0), Cell::end(table.life.end));
        list.rows.push(vec![number(table.id.0), text(names.schema(table.schema)), text(&table.name), begin, end, number(table.next_row_id.0)]);
    }
    Ok(list)
}

/// The snapshot and the table of a reading.
fn table(from: &dyn Source, given: &ArgMatches) -> Result<(SnapshotId, CatalogId), Failure> {
    let at = at(from, given)?;
    let reference: &TableReference = given.get_one("table").expect("required");
    Ok((at, ask::table_id(from, at, reference)?))
}

fn columns(lake: &mut Lake, given: &ArgMatches) -> Result<List, Failure> {
    let (table, listed) = in_one_list(lake, |from| {
        let (at, table) = table(from, given)?;
        Ok((table, ask::columns(from, at, table)?))
    })?;
    let known: HashMap<u64, _> = lake.records().columns_of(table).map(|column| (column.id, column)).collect();
    let mut list = List::new(&["column", "name", "type", "nulls_allowed"]);
    for column in listed.iter().filter_map(|id| known.get(id)) {
        list.rows.push(vec![number(column.id), text(&column.name), text(column.column_type.name()), Cell::Flag(column.nulls_allowed)]);
    }
    Ok(list)
}

fn files(lake: &mut Lake, given: &ArgMatches, form: Form) -> Result<List, Failure> {
    let listed = in_one_list(lake, |from| {
        let (at, table) = table(from, given)?;
        let filter = match given.get_one::<(Reference, i64)>("where") {
            None => None,
            Some((column, scalar)) => Some((ask::column_id(from, at, table, column)?, *scalar)),
        };
        ask::files(from, at, table, filter)
    })?;
    Ok(file_list(lake, &listed, form))
}

/// In CSV the paths alone, as document 01 prints them.
fn file_list(lake: &Lake, listed: &[Listed], form: Form) -> List {
    let data: HashMap<FileId, DataFile> = lake.records().data_files().map(|file| (file.id, file)).collect();
    let delete: HashMap<FileId, DeleteFile> = lake.records().delete_files().map(|file| (file.id, file)).collect();
    let path = |uuid: Option<Uuid>| uuid.map_or(Cell::Nothing, |uuid| text(uuid.path()));
    let mut list = match form {
        Form::Csv => List::new(&["data_file", "delete_file"]),
        _ => List::new(&["file", "rows", "first_row", "data_file", "deletes", "deleted", "delete_file"]),
    };
    for (pair, file) in listed.iter().filter_map(|pair| Some((pair, data.get(&pair.data_file)?))) {
        let deletes = pair.delete_file.and_then(|id| delete.get(&id));
        let paths = (path(Some(file.uuid)), path(deletes.map(|deletes| deletes.uuid)));
        list.rows.push(match form {
            Form::Csv => vec![paths.0, paths.1],
            _ => vec![
                number(file.id.0),
                number(file.record_count),
                number(file.row_id_start.0),
                paths.0,
                deletes.map_or(Cell::Nothing, |deletes| number(deletes.id.0)),
                deletes.map_or(Cell::Nothing, |deletes| number(deletes.delete_count)),
                paths.1,
            ],
        });
    }
    list
}

/// There can be millions, so they are written as they come.
fn rows(lake: &mut Lake, given: &ArgMatches, form: Form) -> Result<(), Failure> {
    let rows = in_one_list(lake, |from| {
        let (at, table) = table(from, given)?;
        ask::rows(from, at, table)
    })?;
    output(|out| numbers("row", rows.iter().map(|row| row.0), form, out))
}

/// A list of numbers alone.
pub fn numbers(what: &str, mut numbers: impl Iterator<Item = u64>, form: Form, out: &mut dyn Write) -> io::Result<()> {
    if form == Form::Json {
        write!(out, "[")?;
        for (at, number) in numbers.enumerate() {
            write!(out, "{}{number}", if at == 0 { "" } else { ", " })?;
        }
        return writeln!(out, "]");
    }
    writeln!(out, "{what}")?;
    numbers.try_for_each(|number| writeln!(out, "{number}"))
}

fn snapshot_at(lake: &Lake, given: &ArgMatches) -> Result<Said, Failure> {
    let time = *given.get_one::<u64>("time").expect("required");
    let id = ask::by_time(lake, time)?;
    let own = lake.records().snapshot(id).map_or(0, |snapshot| snapshot.time);
    Ok(Said {
        sentence: format!("snapshot {}, of {own} ({})", id.0, times::rfc(own)),
        fields: vec![("snapshot", number(id.0)), ("time", number(own))],
    })
}
