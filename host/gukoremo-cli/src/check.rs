//! `check`: whether the tables are sound and which line of 'Sound tables' fails first, as the compiled call finds; and the record, as the second
//! implementation finds.

use crate::failure::{code, Failure};
use crate::file::{self, Lake};
use crate::list::{Cell, Said};
use crate::readings::json_form;
use crate::runs;
use clap::ArgMatches;
use gukoremo::Line;
use second::lent::{COLUMN_SIZE, DATA_FILE_SIZE, DELETE_FILE_SIZE, SCHEDULED_SIZE, SCHEMA_SIZE, SNAPSHOT_SIZE, STATISTICS_SIZE, TABLE_SIZE};
use second::{Counts, Run, Unsound, Words};
use std::path::{Path, PathBuf};

pub fn run(given: &ArgMatches) -> Result<u8, Failure> {
    let path: &PathBuf = given.get_one("file").expect("required");
    let lake = file::read(path)?;
    let (said, exit) = match crate::ask::timed(|| lake.first_unsound()) {
        None => (sound(path, &lake), 0),
        Some(line) => (unsound(path, &lake, line), code::NO),
    };
    // a reader that went away leaves the answer as it is
    said.print(json_form(given)).map_err(|failure| Failure { code: if failure.code == 0 { exit } else { failure.code }, ..failure })?;
    Ok(exit)
}

fn sound(path: &Path, lake: &Lake) -> Said {
    let used = runs::words_of(lake.counts());
    let counts: Vec<String> = (0..used.len()).map(|at| format!("{} {}", used[at], runs::TABLES[at].replace('_', " "))).collect();
    let fields = runs::TABLES.into_iter().zip(used.map(|count| Cell::Number(count as u64)));
    Said {
        sentence: format!("{}: sound. {}.", path.display(), counts.join(", ")),
        fields: [("sound", Cell::Flag(true))].into_iter().chain(fields).collect(),
    }
}

fn unsound(path: &Path, lake: &Lake, line: Line) -> Said {
    let mut fields = vec![("sound", Cell::Flag(false)), ("line", Cell::Number(line.number())), ("sentence", Cell::Text(line.sentence().to_string()))];
    let place = match place(lake).filter(|place| u64::from(place.rule) == line.number()) {
        None => "The second implementation finds another line: the two disagree, and its makers should see this file.".to_string(),
        Some(place) => {
            let (table, words) = record(lake, place);
            let number = place.record.map_or(Cell::Nothing, |record| Cell::Number(record as u64));
            fields.extend([("table", Cell::Text(table.to_string())), ("record", number), ("words", Cell::numbers(words))]);
            let shown: Vec<String> = words.iter().map(shown).collect();
            match place.record {
                None => format!("where: the {table} as a whole"),
                Some(record) => format!("where: record {record} of the {table}, counted from 0; its words: {}", shown.join(" ")),
            }
        }
    };
    Said { sentence: format!("{}: not sound.\n{line}\n{place}", path.display()), fields }
}

fn place(lake: &Lake) -> Option<Unsound> {
    let view = lake.view();
    let words = Words {
        snapshots: view.snapshots.to_vec(),
        schemas: view.schemas.to_vec(),
        tables: view.tables.to_vec(),
        columns: view.columns.to_vec(),
        data_files: view.data_files.to_vec(),
        delete_files: view.delete_files.to_vec(),
        positions: view.positions.to_vec(),
        statistics: view.statistics.to_vec(),
        scheduled: view.scheduled.to_vec(),
        schema_names: view.schema_names.to_vec(),
        table_names: view.table_names.to_vec(),
        column_names: view.column_names.to_vec(),
    };
    let [snapshots, schemas, tables, columns, data_files, delete_files, positions, statistics, scheduled] = runs::words_of(lake.counts());
    let counts = Counts { snapshots, schemas, tables, columns, data_files, delete_files, positions, statistics, scheduled };
    second::load(&words, &counts).err()
}

/// The table, and the record's words; none where it is the table as a whole.
fn record(lake: &Lake, unsound: Unsound) -> (&'static str, &[u64]) {
    let view = lake.view();
    let (name, words, size) = match unsound.table {
        Run::Snapshots => ("snapshots", view.snapshots, SNAPSHOT_SIZE),
        Run::Schemas => ("schemas", view.schemas, SCHEMA_SIZE),
        Run::Tables => ("tables", view.tables, TABLE_SIZE),
        Run::Columns => ("columns", view.columns, COLUMN_SIZE),
        Run::DataFiles => ("data files", view.data_files, DATA_FILE_SIZE),
        Run::DeleteFiles => ("delete files", view.delete_files, DELETE_FILE_SIZE),
        Run::Positions => ("positions", view.positions, 1),
        Run::Statistics => ("statistics", view.statistics, STATISTICS_SIZE),
        Run::Scheduled => ("scheduled files", view.scheduled, SCHEDULED_SIZE),
    };
    (name, unsound.record.and_then(|record| words.chunks_exact(size).nth(record)).unwrap_or(&[]))
}

fn shown(word: &u64) -> String {
    match *word {
        gukoremo::number::ABSENT => "ABSENT".to_string(),
        word => word.to_string(),
    }
}
