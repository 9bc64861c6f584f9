//! Arguments that several commands take.

use crate::values::{names, numbers, times, uuids};
use clap::{value_parser, Arg, ArgAction};
use std::path::PathBuf;

pub fn file() -> Arg {
    Arg::new("file").value_name("FILE").required(true).value_parser(value_parser!(PathBuf)).help("The catalogue's file")
}

pub fn records() -> Arg {
    let parse = |text: &str| numbers::between(text, 1, 4096);
    Arg::new("records").long("records").value_name("N").value_parser(parse).allow_negative_numbers(true)
}

pub fn schema() -> Arg {
    Arg::new("schema").long("schema").value_name("SCHEMA").value_parser(names::parse).help("The schema, by name or id")
}

pub fn table() -> Arg {
    Arg::new("table")
        .long("table")
        .value_name("SCHEMA.NAME")
        .required(true)
        .value_parser(names::parse_table)
        .help("The table, by name or id; without SCHEMA it is in main")
}

pub fn file_id() -> Arg {
    Arg::new("id")
        .long("file")
        .value_name("ID")
        .required(true)
        .value_parser(numbers::number)
        .allow_negative_numbers(true)
        .help("The data file, by id")
}

pub fn uuid() -> Arg {
    Arg::new("uuid")
        .long("uuid")
        .value_name("UUID")
        .value_parser(uuids::parse)
        .help("The new file's UUID: its path is ducklake-UUID.parquet [default: a new one]")
}

pub fn time(help: &'static str) -> Arg {
    Arg::new("time").long("time").value_name("TIME").value_parser(times::parse).allow_negative_numbers(true).help(help)
}

pub fn force() -> Arg {
    Arg::new("force").long("force").action(ArgAction::SetTrue).help("Take also a --time more than a day ahead of the clock")
}

pub fn wait() -> Arg {
    Arg::new("wait")
        .long("wait")
        .value_name("SECONDS")
        .value_parser(|text: &str| numbers::between(text, 0, 86_400))
        .allow_negative_numbers(true)
        .default_value("0")
        .hide_default_value(true)
        .help("Wait so long for someone else's change to end")
}

pub fn at() -> [Arg; 2] {
    [
        Arg::new("at")
            .long("at")
            .value_name("SNAPSHOT")
            .value_parser(numbers::number)
            .allow_negative_numbers(true)
            .help("At this snapshot [default: the latest]"),
        Arg::new("time")
            .long("time")
            .value_name("TIME")
            .value_parser(times::parse)
            .allow_negative_numbers(true)
            .conflicts_with("at")
            .help("At the snapshot that was the latest at this time"),
    ]
}

pub fn forms() -> [Arg; 2] {
    [Arg::new("csv").long("csv").action(ArgAction::SetTrue).help("Answer in CSV, with a header line"), json().conflicts_with("csv")]
}

pub fn json() -> Arg {
    Arg::new("json").long("json").action(ArgAction::SetTrue).help("Answer in JSON")
}
