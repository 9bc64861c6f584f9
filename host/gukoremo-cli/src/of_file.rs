//! The readings of one file: its record, its statistics, its positions.

use crate::ask;
use crate::failure::Failure;
use crate::file::Lake;
use crate::list::{output, Cell, Form, List, Said};
use crate::readings::{at, number, numbers, text};
use crate::refused::{refuse, Asked};
use crate::source::in_one_list;
use crate::storage;
use crate::values::files::FileReference;
use clap::ArgMatches;
use gukoremo::{File, Refusal, Statistics, Uuid};

fn missing(lake: &Lake, thing: String) -> Failure {
    refuse(Refusal::NotLive, lake, &Asked { thing: Some(thing), ..Asked::default() })
}

/// The record of the file that is meant. Refused where there is none, or the tables are not sound.
fn file(lake: &Lake, given: &ArgMatches) -> Result<File, Failure> {
    let reference: &FileReference = given.get_one("id").expect("required");
    let with_uuid = |uuid: &Uuid| {
        let data = lake.records().data_files().map(|file| (file.id, file.uuid));
        let mut all = data.chain(lake.records().delete_files().map(|file| (file.id, file.uuid)));
        all.find(|(_, own)| own == uuid).map(|(id, _)| id)
    };
    let id = match reference {
        FileReference::Id(id) => Some(*id),
        FileReference::Uuid(uuid) => with_uuid(uuid),
    };
    match id {
        Some(id) => ask::lookup(lake, id),
        // refused first where the tables are not sound
        None => ask::by_time(lake, u64::MAX).and(Err(missing(lake, format!("file {reference}")))),
    }
}

/// The record, a field to a line.
pub fn lookup(lake: &Lake, given: &ArgMatches) -> Result<Said, Failure> {
    let found = file(lake, given)?;
    let (kind, own) = match found {
        File::Data(file) => ("data_file", [("record_count", number(file.record_count)), ("row_id_start", number(file.row_id_start.0))]),
        File::Delete(file) => ("delete_file", [("data_file", number(file.data_file.0)), ("delete_count", number(file.delete_count))]),
    };
    let mut fields = vec![
        ("kind", text(kind)),
        ("id", number(found.id().0)),
        ("table", number(found.table().0)),
        ("begin", number(found.life().begin.0)),
        ("end", Cell::end(found.life().end)),
    ];
    fields.extend(own);
    let path = storage::paths(lake).remove(&found.id().0).unwrap_or_default();
    fields.extend([("uuid", text(found.uuid().to_string())), ("path", text(path))]);
    let lines: Vec<String> = fields.iter().map(|(name, cell)| format!("{name:<13} {}", cell.plain()).trim_end().to_string()).collect();
    Ok(Said { sentence: lines.join("\n"), fields })
}

/// A line for each column of the file's table: "statistics, one for each column".
pub fn statistics(lake: &Lake, given: &ArgMatches) -> Result<List, Failure> {
    let file = match file(lake, given)? {
        File::Data(file) => file,
        File::Delete(file) => return Err(missing(lake, format!("data file {}", file.id))),
    };
    let bound = |value: Option<i64>| value.map_or(Cell::Nothing, Cell::Signed);
    let row = |one: Statistics| {
        let column = lake.records().columns_of(file.table).find(|column| column.id == one.column);
        let (name, kind) = column.map_or((Cell::Nothing, Cell::Nothing), |column| (text(column.name), text(column.column_type.name())));
        vec![number(one.column), name, kind, bound(one.min), bound(one.max), number(one.null_count)]
    };
    let rows = lake.records().statistics_of(file.id).map(row).collect();
    Ok(List { rows, ..List::new(&["column", "name", "type", "min", "max", "nulls"]) })
}

/// The positions that a delete file holds, or those of a data file that are deleted at a snapshot.
pub fn positions(lake: &mut Lake, given: &ArgMatches, form: Form) -> Result<(), Failure> {
    let delete_file = match file(lake, given)? {
        File::Delete(file) => Some(file.id),
        File::Data(file) => {
            let (at, listed) = in_one_list(lake, |from| {
                let at = at(from, given)?;
                Ok((at, ask::files(from, at, file.table, None)?))
            })?;
            let pair = listed.iter().find(|pair| pair.data_file == file.id);
            pair.ok_or_else(|| refuse(Refusal::NotLive, lake, &Asked::of(at, format!("data file {}", file.id))))?.delete_file
        }
    };
    let positions = delete_file.and_then(|id| lake.records().positions_of(id)).unwrap_or(&[]);
    output(|out| numbers("position", positions.iter().copied(), form, out))
}
