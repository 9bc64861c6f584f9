//! `show`: the lives of files over snapshots, as a picture. What is drawn is read here; `svg` and `text` draw it.

mod svg;
mod text;

use crate::ask;
use crate::failure::Failure;
use crate::file::{self, Lake};
use crate::list::output;
use crate::names::Names;
use crate::storage;
use clap::ArgMatches;
use gukoremo::{CatalogId, FileId, Life, Snapshot};
use std::collections::BTreeMap;
use std::path::PathBuf;

pub fn run(given: &ArgMatches) -> Result<u8, Failure> {
    let path: &PathBuf = given.get_one("file").expect("required");
    let lake = file::read(path)?;
    // no reading lists all files; this one refuses tables that are not sound
    ask::by_time(&lake, u64::MAX)?;
    let picture = Picture::of(&lake, path.display().to_string());
    let drawn = if given.get_flag("svg") { svg::draw(&picture) } else { text::draw(&picture) };
    output(|out| out.write_all(drawn.as_bytes()))?;
    Ok(0)
}

/// What is drawn.
struct Picture {
    title: String,
    columns: Vec<Column>,
    /// By schema and name.
    tables: Vec<(String, Vec<Bar>)>,
    scheduled: Vec<Scheduled>,
    /// First and last ids of files that were handed out.
    gone: Vec<(u64, u64)>,
}

/// A retained snapshot, or those between two of them that are expired.
enum Column {
    Snapshot { id: u64, about: String },
    Expired { first: u64, last: u64 },
}

impl Column {
    fn first(&self) -> u64 {
        match self {
            Column::Snapshot { id, .. } => *id,
            Column::Expired { first, .. } => *first,
        }
    }

    fn last(&self) -> u64 {
        match self {
            Column::Snapshot { id, .. } => *id,
            Column::Expired { last, .. } => *last,
        }
    }
}

/// A file that a retained snapshot shows.
struct Bar {
    file: FileId,
    /// The data file that a delete file is of.
    deletes_of: Option<FileId>,
    /// Its rows, or the positions that it holds.
    count: u64,
    life: Life,
    path: String,
}

struct Scheduled {
    file: FileId,
    path: String,
    time: u64,
}

impl Picture {
    fn of(lake: &Lake, title: String) -> Picture {
        let (names, records) = (Names::of(lake), lake.records());
        let mut paths = storage::paths(lake);
        let mut path = |id: FileId| paths.remove(&id.0).unwrap_or_default();
        let mut delete_files: BTreeMap<FileId, Vec<Bar>> = BTreeMap::new();
        for one in records.delete_files() {
            let bar = Bar { file: one.id, deletes_of: Some(one.data_file), count: one.delete_count, life: one.life, path: path(one.id) };
            delete_files.entry(one.data_file).or_default().push(bar);
        }
        // each data file, and below it its delete files
        let mut tables: BTreeMap<CatalogId, Vec<Bar>> = BTreeMap::new();
        for one in records.data_files() {
            let bars = tables.entry(one.table).or_default();
            bars.push(Bar { file: one.id, deletes_of: None, count: one.record_count, life: one.life, path: path(one.id) });
            bars.extend(delete_files.remove(&one.id).unwrap_or_default());
        }
        let table_name = |id: CatalogId| names.table(id).map_or(format!("table {id}"), |(schema, name)| format!("{schema}.{name}"));
        let scheduled = records.scheduled().map(|one| Scheduled { file: one.file, path: one.uuid.path(), time: one.schedule_start });
        Picture {
            title,
            columns: columns(records.snapshots(), &names),
            tables: tables.into_iter().map(|(id, bars)| (table_name(id), bars)).collect(),
            scheduled: scheduled.collect(),
            gone: gone(lake),
        }
    }
}

fn columns(snapshots: impl Iterator<Item = Snapshot>, names: &Names) -> Vec<Column> {
    let mut columns = Vec::new();
    let mut next = 0;
    for one in snapshots {
        let id = one.id.0;
        if id > next {
            columns.push(Column::Expired { first: next, last: id - 1 });
        }
        let object = names.object(&one).unwrap_or_else(|| one.change.object().to_string());
        let about = format!("snapshot {id}, of {}: {} {object}", crate::values::times::both(one.time), one.change.name());
        columns.push(Column::Snapshot { id, about });
        next = id.saturating_add(1);
    }
    columns
}

/// Ids are given out in order, so those below the next one that are neither on record nor scheduled were handed out.
fn gone(lake: &Lake) -> Vec<(u64, u64)> {
    let records = lake.records();
    let on_record = records.data_files().map(|file| file.id.0).chain(records.delete_files().map(|file| file.id.0));
    let mut known: Vec<u64> = on_record.chain(records.scheduled().map(|file| file.file.0)).collect();
    known.sort_unstable();
    known.extend(records.latest().map(|latest| latest.next_file_id.0));
    let mut next = 0;
    let mut gone = Vec::new();
    for id in known {
        if id > next {
            gone.push((next, id - 1));
        }
        next = id.saturating_add(1);
    }
    gone
}

impl Bar {
    fn kind(&self) -> &'static str {
        if self.deletes_of.is_some() {
            "delete file"
        } else {
            "data file"
        }
    }
}

/// `5`, or `5 to 7`.
fn range(first: u64, last: u64) -> String {
    if first == last {
        first.to_string()
    } else {
        format!("{first} to {last}")
    }
}
