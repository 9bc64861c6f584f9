//! Commands about whole catalogues, and raw calls.

use super::shared::{file, forms, json};
use crate::values::numbers;
use clap::{value_parser, Arg, ArgAction, Command};
use std::path::PathBuf;

pub fn all() -> Vec<Command> {
    vec![
        Command::new("check")
            .about("Say whether the tables are sound, or which line of 'Sound tables' fails first and where")
            .after_help("Exit code 0 is sound, 1 is not sound, 65 is a file that is damaged or no catalogue.")
            .arg(file())
            .arg(json()),
        Command::new("diff")
            .about("Say what two catalogues don't share, a line for each difference")
            .after_help(
                "Example:\n  gukoremo diff ours.lake theirs.lake --at 5\n\n\
                 Compared are the snapshots, and all that the latest one that both have shows: schemas, tables, columns, files,\n\
                 statistics, deleted positions, rows. Exit code 0 is the same, 1 is not.",
            )
            .arg(Arg::new("file").value_name("A").required(true).value_parser(value_parser!(PathBuf)).help("A catalogue's file"))
            .arg(Arg::new("other").value_name("B").required(true).value_parser(value_parser!(PathBuf)).help("Another one"))
            .arg(
                Arg::new("at")
                    .long("at")
                    .value_name("SNAPSHOT")
                    .value_parser(numbers::number)
                    .allow_negative_numbers(true)
                    .help("Compare this snapshot and what it shows, and no other"),
            )
            .arg(
                Arg::new("all")
                    .long("all")
                    .action(ArgAction::SetTrue)
                    .conflicts_with("at")
                    .help("Compare all that is on record: ended records and scheduled files too"),
            )
            .args(forms()),
        Command::new("show")
            .about("Draw the lives of files over snapshots: what is retained, scheduled, gone")
            .after_help("Example:\n  gukoremo show shop.lake --svg > shop.svg\n\nA row for each file, a column for each retained snapshot.")
            .arg(file())
            .arg(Arg::new("svg").long("svg").action(ArgAction::SetTrue).help("As an SVG picture, for a browser")),
        Command::new("export")
            .about("Write a DuckLake 0.3 catalogue in SQLite, for the published queries")
            .after_help("Example:\n  gukoremo export shop.lake shop.sqlite --data-path s3://shop/lake/")
            .arg(file())
            .arg(Arg::new("out").value_name("OUT").required(true).value_parser(value_parser!(PathBuf)).help("The SQLite file to make"))
            .arg(
                Arg::new("data-path")
                    .long("data-path")
                    .value_name("PATH/")
                    .default_value("data/")
                    .help("The data_path of ducklake_metadata, under which the paths of the files lie"),
            )
            .arg(
                Arg::new("storage")
                    .long("storage")
                    .value_name("LIST")
                    .value_parser(value_parser!(PathBuf))
                    .help("What is in the storage: a line for each file, its size in bytes, a space, its path below the data path"),
            ),
        Command::new("play")
            .about("Play raw calls from a script, a line each; for suppliers and tests")
            .after_help(crate::play::HELP)
            .arg(Arg::new("script").value_name("SCRIPT").value_parser(value_parser!(PathBuf)).help("The script [default: the standard input]")),
    ]
}
