//! The commands that change a catalogue, alone and as lines of a batch.

use super::shared::{file, file_id, force, forms, json, records, schema, table, time, uuid, wait};
use crate::values::{columns, names, numbers, times};
use clap::{value_parser, Arg, ArgAction, Command};
use std::path::PathBuf;

const COMMIT_TIME: &str = "The new snapshot's time, at or after the latest one's [default: now]";

pub fn all() -> Vec<Command> {
    let alone = |(command, own): (Command, Vec<Arg>)| command.arg(file()).args(own).arg(wait()).args(forms());
    let changes = changes().into_iter().map(alone);
    [init()].into_iter().chain(changes).chain([apply(), room()]).collect()
}

/// The changes that a line of a batch can be. The batch has the file, the lock and the form of the answer.
pub fn lines() -> Vec<Command> {
    changes().into_iter().map(|(command, own)| command.args(own).disable_help_flag(true)).collect()
}

fn init() -> Command {
    Command::new("init")
        .about("Make a catalogue: an empty one with the schema main")
        .after_help("Example:\n  gukoremo init shop.lake --records 512\n\nWhat is not used takes no room on the disk.")
        .arg(file())
        .arg(records().help("Places for so many records of each kind, 1 to 4096, and 16 positions for each [default: 4096]"))
        .args([time("The first snapshot's time [default: now]"), force()])
        .arg(wait())
        .args(forms())
}

fn apply() -> Command {
    Command::new("apply")
        .about("Make the changes of a list, a line each, with one write of the file")
        .after_help(
            "Examples:\n  gukoremo apply shop.lake night.txt\n  generate-changes | gukoremo apply shop.lake - --atomic\n\n\
             A line is a change as it is given to the command, without gukoremo and the file:\n  \
             create-table main.diary item:int64 'price:int64?'\n  \
             insert --table main.diary --rows 3 item=1..3 price=9..14   # a comment\n\n\
             Quotes are as in a shell. Changes: create-schema, create-table, insert, delete, drop-table, drop-schema, expire,\n\
             cleanup. A line may name what a line before it makes. If a line is not understood, nothing is done. If a change is\n\
             refused, those before it are kept and those after it are not made; with --atomic none is made. The exit code is that\n\
             of the refusal.",
        )
        .arg(file())
        .arg(
            Arg::new("changes")
                .value_name("CHANGES")
                .required(true)
                .value_parser(value_parser!(PathBuf))
                .help("The file with the changes; - is the standard input"),
        )
        .arg(Arg::new("atomic").long("atomic").action(ArgAction::SetTrue).help("Make all of the changes, or none if one is refused"))
        .arg(wait())
        .arg(json())
}

fn room() -> Command {
    Command::new("room")
        .about("Say how many records are used and have room; with --records make room")
        .after_help("Example:\n  gukoremo room shop.lake --records 1024\n\nWhat is used must have room.")
        .arg(file())
        .arg(records().help("Places for so many records of each kind, 1 to 4096, and 16 positions for each"))
        .arg(wait())
        .args(forms())
}

/// Each change, and the arguments that it has beside the file.
fn changes() -> Vec<(Command, Vec<Arg>)> {
    vec![create_schema(), create_table(), insert(), delete(), drop_table(), drop_schema(), expire(), cleanup()]
}

fn create_schema() -> (Command, Vec<Arg>) {
    let command = Command::new("create-schema")
        .about("Make a schema")
        .after_help("Example:\n  gukoremo create-schema shop.lake books\n\nRefusals: 8, 9, 10, 4, 2.");
    let name = Arg::new("name").value_name("NAME").required(true).help("1 to 32 ASCII letters, digits or underscores");
    (command, vec![name, time(COMMIT_TIME), force()])
}

fn create_table() -> (Command, Vec<Arg>) {
    let command = Command::new("create-table").about("Make a table with its columns").after_help(
        "Example:\n  gukoremo create-table shop.lake main.diary item:int64 'price:int64?'\n\n\
         Types: int8, int16, int32, int64, uint8, uint16, uint32, boolean. Columns \
         get the ids 1, 2, and so on.\nRefusals: 6, 8, 9, 10, 12, 4, 2.",
    );
    let name = Arg::new("name")
        .value_name("SCHEMA.NAME")
        .required(true)
        .value_parser(names::parse_new_table)
        .help("The new table; without SCHEMA it is in main");
    let columns =
        Arg::new("columns").value_name("COLUMN:TYPE[?]").num_args(0..).value_parser(columns::parse).help("A column; ? where nulls are allowed");
    (command, vec![name, columns, time(COMMIT_TIME), force()])
}

fn insert() -> (Command, Vec<Arg>) {
    let command = Command::new("insert").about("Register a data file of rows").after_help(
        "Example:\n  gukoremo insert shop.lake --table main.diary --rows 3 item=1..3 price=9..14 nulls=0\n\n\
         Each column of the table gets its statistics: lowest and \
         highest value, and nulls=N after it\nwhere there are nulls. A bound may be missing: price=9.. or price=..\nRefusals: 6, 8, 13, 14, 15, 4, 2.",
    );
    let rows = Arg::new("rows")
        .long("rows")
        .value_name("N")
        .required(true)
        .value_parser(|text: &str| numbers::number(text).map_err(|_| format!("'{text}' is no number of rows, which is 1 to 1048576")))
        .allow_negative_numbers(true)
        .help("The rows of the file, 1 to 1048576");
    let statistics = Arg::new("statistics").value_name("COLUMN=MIN..MAX [nulls=N]").num_args(0..).help("The statistics of each column");
    (command, vec![table(), rows, statistics, uuid(), time(COMMIT_TIME), force()])
}

fn delete() -> (Command, Vec<Arg>) {
    let command = Command::new("delete").about("Delete rows of a data file, by position").after_help(
        "Example:\n  gukoremo delete shop.lake --file 0 --positions 1,5..9\n\n\
         The new delete file holds these positions and those of the one before, which \
         ends.\nRefusals: 6, 8, 14, 16, 17, 4, 2.",
    );
    let positions = Arg::new("positions")
        .long("positions")
        .value_name("LIST")
        .required(true)
        .value_parser(numbers::parse_list)
        .allow_negative_numbers(true)
        .help("Positions in the file, counted from 0, ascending: 1,5..9");
    (command, vec![file_id(), positions, uuid(), time(COMMIT_TIME), force()])
}

fn drop_table() -> (Command, Vec<Arg>) {
    let command = Command::new("drop-table")
        .about("End a table, its columns and files; earlier snapshots keep them")
        .after_help("Example:\n  gukoremo drop-table shop.lake --table main.diary\n\nRefusals: 6, 8, 4, 2.");
    (command, vec![table(), time(COMMIT_TIME), force()])
}

fn drop_schema() -> (Command, Vec<Arg>) {
    let command = Command::new("drop-schema")
        .about("End a schema that has no table")
        .after_help("Example:\n  gukoremo drop-schema shop.lake --schema books\n\nRefusals: 6, 8, 11, 4, 2.");
    (command, vec![schema().required(true), time(COMMIT_TIME), force()])
}

fn expire() -> (Command, Vec<Arg>) {
    let command = Command::new("expire").about("Forget snapshots; files that no other snapshot shows are scheduled").after_help(
        "Example:\n  gukoremo expire shop.lake 0..3,5\n\n\
         The latest snapshot can't go. What is scheduled, 'gukoremo cleanup' hands out.\nRefusals: 5, 18, \
         19, 2.",
    );
    let snapshots = Arg::new("snapshots")
        .value_name("SNAPSHOTS")
        .required(true)
        .value_parser(numbers::parse_list)
        .allow_negative_numbers(true)
        .help("Snapshots, ascending: 0..3,5");
    (command, vec![snapshots, time("When the files are scheduled [default: now]"), force()])
}

fn cleanup() -> (Command, Vec<Arg>) {
    let command = Command::new("cleanup").about("Hand out the scheduled files, to be removed from the storage").after_help(
        "Example:\n  gukoremo cleanup shop.lake --before 2026-11-01T00:00:00Z --csv\n\n\
         Each file is handed out once. The list is written, and synced where it goes to a file, before the catalogue \
         forgets the files:\nif the command fails, as it does where the standard output is closed, they are still scheduled.",
    );
    let before = Arg::new("before")
        .long("before")
        .value_name("TIME")
        .value_parser(times::parse)
        .allow_negative_numbers(true)
        .help("Those scheduled before this time, not at it [default: now]");
    (command, vec![before])
}
