//! `export`: the catalogue as a DuckLake 0.3 catalogue in SQLite. Each table is filled as document 000 describes it. The sizes of files and the folders of
//! scheduled ones come from a list of the storage; what is left outside is NULL, and its tables are empty.

use crate::ask;
use crate::failure::{code, Failure};
use crate::file::{self, Lake};
use crate::list::output;
use crate::names::Names;
use crate::storage::{self, Storage};
use crate::values::times;
use clap::ArgMatches;
use gukoremo::{Change, FileId, Snapshot, SnapshotId, Statistics};
use rusqlite::{params, Connection, Transaction};
use std::collections::BTreeMap;
use std::fs;
use std::path::{Path, PathBuf};

const SCHEMA: &str = include_str!("schema.sql");

pub fn run(given: &ArgMatches) -> Result<u8, Failure> {
    let lake = file::read(given.get_one::<PathBuf>("file").expect("required"))?;
    ask::by_time(&lake, u64::MAX)?;
    let out: &PathBuf = given.get_one("out").expect("required");
    let data_path: &String = given.get_one("data-path").expect("a default");
    if !data_path.ends_with('/') {
        return Err(
            Failure::new(code::USAGE, format!("The data path '{data_path}' does not end in /.")).advice("put a / at its end, as document 000 asks.")
        );
    }
    if out.symlink_metadata().is_ok() {
        return Err(Failure::new(code::EXISTS, format!("{} is there already, and was left as it is.", out.display()))
            .advice("give another path, or move that file away first."));
    }
    let storage = given.get_one::<PathBuf>("storage").map(|list| Storage::read(list)).transpose()?;
    let stored = Stored::of(&lake, storage.as_ref())?;
    write_whole(&lake, out, data_path, &stored)?;
    let unknown = if storage.is_some() { "" } else { ", without the sizes of files, which --storage gives" };
    output(|written| writeln!(written, "{} is a DuckLake 0.3 catalogue in SQLite{unknown}.", out.display()))?;
    Ok(0)
}

/// What the storage knows and the catalogue does not.
struct Stored {
    /// The sizes of the data and delete files, by id; none where no list was given.
    sizes: Option<BTreeMap<u64, u64>>,
    /// The paths of the scheduled files below the data path, in their order.
    scheduled: Vec<String>,
}

impl Stored {
    fn of(lake: &Lake, storage: Option<&Storage>) -> Result<Stored, Failure> {
        let of_files = |storage: &Storage| storage::paths(lake).iter().map(|(id, path)| Ok((*id, storage.size(path)?))).collect();
        Ok(Stored { sizes: storage.map(of_files).transpose()?, scheduled: scheduled_paths(lake, storage)? })
    }

    fn size(&self, file: FileId) -> Option<i64> {
        self.sizes.as_ref()?.get(&file.0).map(|size| *size as i64)
    }
}

fn scheduled_paths(lake: &Lake, storage: Option<&Storage>) -> Result<Vec<String>, Failure> {
    let path = |name: String| match storage {
        Some(storage) => storage.find(&name).map(str::to_string),
        None => Err(Failure::new(code::USAGE, format!("In which folder {name} lies is not known, and nothing was written."))
            .why("it is scheduled, and a scheduled record does not name its table.")
            .advice("give --storage with a list of what is in the storage, or hand the scheduled files out first with 'gukoremo cleanup'.")),
    };
    lake.records().scheduled().map(|one| path(one.uuid.path())).collect()
}

/// Written beside and renamed, so that a file of that name is whole.
fn write_whole(lake: &Lake, out: &Path, data_path: &str, stored: &Stored) -> Result<(), Failure> {
    let (new, _) = crate::beside::fresh(out, 0o644, |_| ()).map_err(|error| Failure::io(out, "written", error))?;
    let done = fill(lake, &new, data_path, stored)
        .map_err(|error| Failure::new(code::IO, format!("{} could not be written.", out.display())).why(format!("SQLite says: {error}.")));
    let done = done.and_then(|()| fs::rename(&new, out).map_err(|error| Failure::io(out, "written", error)));
    if done.is_err() {
        let _ = fs::remove_file(&new);
    }
    done
}

fn fill(lake: &Lake, path: &Path, data_path: &str, stored: &Stored) -> rusqlite::Result<()> {
    let mut connection = Connection::open(path)?;
    let into = connection.transaction()?;
    into.execute_batch(SCHEMA)?;
    metadata(&into, data_path)?;
    snapshots(lake, &into)?;
    schemas(lake, &into)?;
    tables(lake, &into)?;
    files(lake, &into, stored)?;
    statistics(lake, &into)?;
    table_statistics(lake, &into, stored)?;
    into.commit()?;
    connection.close().map_err(|(_, error)| error)
}

/// Ids are at most 2^62, so each is a BIGINT.
fn id(word: u64) -> i64 {
    word as i64
}

/// An end that is not set is NULL.
fn end(end: Option<SnapshotId>) -> Option<i64> {
    end.map(|end| id(end.0))
}

fn timestamp(time: u64) -> String {
    times::show(time, ' ', "+00")
}

/// "a persistent identifier", which the catalogue does not hold: one of version 8, made of the sort of the object and its id, so that exports agree.
fn uuid(sort: u8, word: u64) -> String {
    format!("00000000-0000-8000-80{sort:02x}-{:012x}", word & 0xffff_ffff_ffff)
}

fn metadata(into: &Transaction<'_>, data_path: &str) -> rusqlite::Result<()> {
    let created_by = concat!("gukoremo ", env!("CARGO_PKG_VERSION"));
    for (key, value) in [("version", "0.3"), ("created_by", created_by), ("data_path", data_path), ("encrypted", "false")] {
        into.execute("INSERT INTO ducklake_metadata (key, value) VALUES (?, ?)", [key, value])?;
    }
    Ok(())
}

fn snapshots(lake: &Lake, into: &Transaction<'_>) -> rusqlite::Result<()> {
    let mut insert = into.prepare("INSERT INTO ducklake_snapshot VALUES (?, ?, ?, ?, ?)")?;
    let mut changes = into.prepare("INSERT INTO ducklake_snapshot_changes (snapshot_id, changes_made) VALUES (?, ?)")?;
    let mut versions = into.prepare("INSERT INTO ducklake_schema_versions VALUES (?, ?)")?;
    let names = Names::of(lake);
    let mut version = None;
    for one in lake.records().snapshots() {
        let number = id(one.schema_version);
        insert.execute(params![id(one.id.0), timestamp(one.time), number, id(one.next_catalog_id.0), id(one.next_file_id.0)])?;
        changes.execute(params![id(one.id.0), change(&names, &one)])?;
        // a version begins at the first snapshot that has it and is retained
        if version.replace(number) != Some(number) {
            versions.execute(params![id(one.id.0), number])?;
        }
    }
    Ok(())
}

/// "Names are written in quoted-format"; a name has no quotes in it.
fn change(names: &Names, snapshot: &Snapshot) -> String {
    let (kind, object) = (snapshot.change.name(), snapshot.change.object());
    match snapshot.change {
        Change::CreatedSchema(id) => format!("{kind}:\"{}\"", names.schema(id)),
        Change::CreatedTable(id) => match names.table(id) {
            Some((schema, name)) => format!("{kind}:\"{schema}\".\"{name}\""),
            None => format!("{kind}:\"{id}\""),
        },
        _ => format!("{kind}:{object}"),
    }
}

/// "By default, this path is the name of the schema", relative to the data path.
fn schemas(lake: &Lake, into: &Transaction<'_>) -> rusqlite::Result<()> {
    let mut insert = into.prepare("INSERT INTO ducklake_schema VALUES (?, ?, ?, ?, ?, ?, ?)")?;
    for one in lake.records().schemas() {
        let path = format!("{}/", one.name);
        insert.execute(params![id(one.id.0), uuid(1, one.id.0), id(one.life.begin.0), end(one.life.end), one.name, path, true])?;
    }
    Ok(())
}

fn tables(lake: &Lake, into: &Transaction<'_>) -> rusqlite::Result<()> {
    let mut insert = into.prepare("INSERT INTO ducklake_table VALUES (?, ?, ?, ?, ?, ?, ?, ?)")?;
    for one in lake.records().tables() {
        let (path, begin, end) = (format!("{}/", one.name), id(one.life.begin.0), end(one.life.end));
        insert.execute(params![id(one.id.0), uuid(2, one.id.0), begin, end, id(one.schema.0), one.name, path, true])?;
    }
    let mut insert = into.prepare(
        "INSERT INTO ducklake_column (column_id, begin_snapshot, end_snapshot, table_id, column_order, column_name, column_type, nulls_allowed) \
         VALUES (?, ?, ?, ?, ?, ?, ?, ?)",
    )?;
    for one in lake.records().columns() {
        let (kind, begin, end) = (one.column_type.name(), id(one.life.begin.0), end(one.life.end));
        insert.execute(params![id(one.id), begin, end, id(one.table.0), id(one.order), one.name, kind, one.nulls_allowed])?;
    }
    Ok(())
}

/// Files by ascending id, which is their order in the table.
fn files(lake: &Lake, into: &Transaction<'_>, stored: &Stored) -> rusqlite::Result<()> {
    let mut insert = into.prepare(
        "INSERT INTO ducklake_data_file (data_file_id, table_id, begin_snapshot, end_snapshot, file_order, path, path_is_relative, file_format, \
         record_count, file_size_bytes, row_id_start) \
         VALUES (?, ?, ?, ?, ?, ?, true, 'parquet', ?, ?, ?)",
    )?;
    for one in lake.records().data_files() {
        let (own, rows, first) = (id(one.id.0), id(one.record_count), id(one.row_id_start.0));
        insert.execute(params![
            own,
            id(one.table.0),
            id(one.life.begin.0),
            end(one.life.end),
            own,
            one.uuid.path(),
            rows,
            stored.size(one.id),
            first
        ])?;
    }
    let mut insert = into.prepare(
        "INSERT INTO ducklake_delete_file (delete_file_id, table_id, begin_snapshot, end_snapshot, data_file_id, path, path_is_relative, format, delete_count, \
         file_size_bytes) VALUES (?, ?, ?, ?, ?, ?, true, 'parquet', ?, ?)",
    )?;
    for one in lake.records().delete_files() {
        let (own, data_file, count) = (id(one.id.0), id(one.data_file.0), id(one.delete_count));
        insert.execute(params![
            own,
            id(one.table.0),
            id(one.life.begin.0),
            end(one.life.end),
            data_file,
            one.uuid.path(),
            count,
            stored.size(one.id)
        ])?;
    }
    // "The file name is either relative to the data_path value in ducklake_metadata or absolute."
    let mut insert = into.prepare("INSERT INTO ducklake_files_scheduled_for_deletion VALUES (?, ?, true, ?)")?;
    for (one, path) in lake.records().scheduled().zip(&stored.scheduled) {
        insert.execute(params![id(one.file.0), path, timestamp(one.schedule_start)])?;
    }
    Ok(())
}

/// A bound, "encoded as a string"; none where it is missing.
fn bound(value: Option<i64>) -> Option<String> {
    value.map(|value| value.to_string())
}

/// No type here has NaN values.
fn statistics(lake: &Lake, into: &Transaction<'_>) -> rusqlite::Result<()> {
    let of_file: BTreeMap<u64, (u64, u64)> = lake.records().data_files().map(|file| (file.id.0, (file.table.0, file.record_count))).collect();
    let mut insert = into.prepare(
        "INSERT INTO ducklake_file_column_stats (data_file_id, table_id, column_id, value_count, null_count, min_value, max_value, \
         contains_nan) VALUES (?, ?, ?, ?, ?, ?, ?, false)",
    )?;
    for one in lake.records().statistics() {
        let (table, rows) = of_file.get(&one.data_file.0).copied().unwrap_or((0, 0));
        let (min, max) = (bound(one.min), bound(one.max));
        insert.execute(params![id(one.data_file.0), id(table), id(one.column), id(rows), id(one.null_count), min, max])?;
    }
    Ok(())
}

/// A bound over files.
#[derive(Clone, Copy)]
enum Bound {
    /// No file has a value.
    Vacant,
    Known(i64),
    /// A file with values gives none.
    Unknown,
}

impl Bound {
    /// With a file that has values.
    fn with(self, own: Option<i64>, choose: impl Fn(i64, i64) -> i64) -> Bound {
        match (self, own) {
            (Bound::Vacant, Some(own)) => Bound::Known(own),
            (Bound::Known(known), Some(own)) => Bound::Known(choose(known, own)),
            _ => Bound::Unknown,
        }
    }

    fn text(self) -> Option<String> {
        match self {
            Bound::Known(known) => Some(known.to_string()),
            Bound::Vacant | Bound::Unknown => None,
        }
    }
}

/// What is known of a column over all its files on record.
struct Over {
    nulls: bool,
    min: Bound,
    max: Bound,
}

impl Over {
    const NO_FILES: Over = Over { nulls: false, min: Bound::Vacant, max: Bound::Vacant };

    /// With one more file. Where every row is null there is no value to bound.
    fn add(&mut self, one: &Statistics, rows: u64) {
        self.nulls |= one.null_count > 0;
        if one.null_count < rows {
            self.min = self.min.with(one.min, i64::min);
            self.max = self.max.with(one.max, i64::max);
        }
    }
}

/// A table without an insert has no statistics: "If there are none, we need to use INSERT". Deletes leave them: they "are maintained as upper bounds".
fn table_statistics(lake: &Lake, into: &Transaction<'_>, stored: &Stored) -> rusqlite::Result<()> {
    let mut insert = into.prepare("INSERT INTO ducklake_table_stats VALUES (?, ?, ?, ?)")?;
    for one in lake.records().tables().filter(|table| table.next_row_id.0 > 0) {
        // "the total file size of all data files in the table", of those on record
        let sizes = lake.records().data_files().filter(|file| file.table == one.id).map(|file| stored.size(file.id));
        let size = if stored.sizes.is_some() { Some(sizes.flatten().fold(0, i64::saturating_add)) } else { None };
        insert.execute(params![id(one.id.0), id(one.next_row_id.0), id(one.next_row_id.0), size])?;
    }
    let of_file: BTreeMap<u64, (u64, u64)> = lake.records().data_files().map(|file| (file.id.0, (file.table.0, file.record_count))).collect();
    let mut over: BTreeMap<(u64, u64), Over> = BTreeMap::new();
    for one in lake.records().statistics() {
        let (table, rows) = of_file.get(&one.data_file.0).copied().unwrap_or((0, 0));
        over.entry((table, one.column)).or_insert(Over::NO_FILES).add(&one, rows);
    }
    let mut insert = into.prepare(
        "INSERT INTO ducklake_table_column_stats (table_id, column_id, contains_null, contains_nan, min_value, max_value) VALUES (?, ?, ?, false, ?, ?)",
    )?;
    for ((table, column), over) in over {
        insert.execute(params![id(table), id(column), over.nulls, over.min.text(), over.max.text()])?;
    }
    Ok(())
}
