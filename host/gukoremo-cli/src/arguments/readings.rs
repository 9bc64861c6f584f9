//! The commands that read a catalogue.

use super::shared::{at, file, forms, schema, table};
use crate::values::{files, names, times};
use clap::{Arg, Command};

pub fn all() -> Vec<Command> {
    vec![
        Command::new("snapshots").about("List the snapshots that are retained").arg(file()).args(forms()),
        Command::new("schemas").about("List the schemas at a snapshot").arg(file()).args(at()).args(forms()),
        Command::new("tables")
            .about("List the tables at a snapshot, of all schemas or of one")
            .after_help("Example:\n  gukoremo tables shop.lake --schema books --at 4")
            .arg(file())
            .arg(schema().help("The schema, by name or id [default: all]"))
            .args(at())
            .args(forms()),
        Command::new("columns").about("List the columns of a table at a snapshot, in their order").arg(file()).arg(table()).args(at()).args(forms()),
        Command::new("files")
            .about("List the files of a table at a snapshot, each with its delete file")
            .after_help(
                "Examples:\n  gukoremo files shop.lake --table main.diary --csv\n  gukoremo files shop.lake --table main.diary --where price=14 --at 5\n\n\
                 With --where the \
                 files that may hold a row with that value, by their statistics.",
            )
            .arg(file())
            .arg(table())
            .arg(Arg::new("where").long("where").value_name("COLUMN=VALUE").value_parser(filter).help("Only files that may hold such a row"))
            .args(at())
            .args(forms()),
        Command::new("rows")
            .about("List the rows of a table at a snapshot, by row number")
            .arg(file())
            .arg(table())
            .args(at())
            .args(forms()),
        Command::new("at")
            .about("Say which snapshot was the latest at a time")
            .after_help("Example:\n  gukoremo at shop.lake 2026-11-16T09:30:00Z\n\nRefusal: 7.")
            .arg(file())
            .arg(Arg::new("time").value_name("TIME").required(true).value_parser(times::parse).allow_negative_numbers(true).help("Microseconds since 1970, RFC 3339, a date, or now"))
            .args(forms()),
        Command::new("lookup")
            .about("Show the record of a data file or a delete file")
            .after_help("Example:\n  gukoremo lookup shop.lake 0\n\nRefusal: 6.")
            .arg(file())
            .arg(of_file())
            .args(forms()),
        Command::new("statistics")
            .about("List the statistics of a data file, a line for each column")
            .after_help("Examples:\n  gukoremo statistics shop.lake 0\n  gukoremo statistics shop.lake main/diary/ducklake-UUID.parquet\n\nRefusal: 6.")
            .arg(file())
            .arg(of_file())
            .args(forms()),
        Command::new("positions")
            .about("List the positions that a delete file holds, or those of a data file that are deleted at a snapshot")
            .after_help("Examples:\n  gukoremo positions shop.lake 3\n  gukoremo positions shop.lake 0 --at 4\n\nRefusals: 5, 6, 7.")
            .arg(file())
            .arg(of_file())
            .args(at())
            .args(forms()),
        Command::new("scheduled").about("List the files that are scheduled to be removed").arg(file()).args(forms()),
    ]
}

fn of_file() -> Arg {
    Arg::new("id").value_name("ID|PATH").required(true).value_parser(files::parse).allow_negative_numbers(true).help("The file, by id or path")
}

/// `price=14`: a column and a value.
fn filter(text: &str) -> Result<(names::Reference, i64), String> {
    let parts = text.split_once('=').and_then(|(column, value)| Some((names::parse(column).ok()?, value.parse().ok()?)));
    parts.ok_or_else(|| "a filter is COLUMN=VALUE, such as price=14".to_string())
}
