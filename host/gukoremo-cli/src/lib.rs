//! The command `gukoremo`: a DuckLake 0.3 snapshot catalogue in a file, over the proved calls of `host/gukoremo`.
//!
//! What a catalogue does stands in the calls. Here are the words of the command (`arguments`, `values`), the file (`format`, `file`, `lock`, `beside`,
//! `rights`), readings (`source`, `ask`), changes (`changes`), answers (`list`, `json`) and refusals in full (`refused`); a file for each sort of command. A library, so that tests reach
//! all of it; `main.rs` is the command.
#![forbid(unsafe_code)]

pub mod apply;
pub mod arguments;
pub mod ask;
pub mod beside;
pub mod changes;
pub mod check;
pub mod checksum;
pub mod contents;
pub mod diff;
pub mod export;
pub mod failure;
pub mod file;
pub mod format;
pub mod json;
pub mod list;
pub mod lock;
pub mod manual;
pub mod names;
pub mod of_file;
pub mod play;
pub mod readings;
pub mod refused;
pub mod rights;
pub mod rooms;
pub mod runs;
pub mod setup;
pub mod show;
pub mod source;
pub mod storage;
pub mod values;

use clap::ArgMatches;
use failure::{code, Failure};
use std::io::Write;
use std::process::ExitCode;
use std::time::Instant;

/// The command, with the words that the process was given.
pub fn main() -> ExitCode {
    let begin = Instant::now();
    let given = match arguments::command().subcommands(setup::commands()).try_get_matches() {
        Ok(given) => given,
        Err(error) => {
            let _ = error.print();
            return if error.use_stderr() { ExitCode::from(code::USAGE) } else { ExitCode::SUCCESS };
        }
    };
    let Some((name, arguments)) = given.subcommand() else { return ExitCode::from(code::USAGE) };
    let code = run(name, arguments).unwrap_or_else(|failure| {
        let _ = write!(std::io::stderr(), "{failure}");
        failure.code
    });
    if arguments.get_flag("timing") {
        let (all, calls) = (begin.elapsed(), ask::time_of_calls());
        let millis = |time: std::time::Duration| time.as_secs_f64() * 1e3;
        let _ = writeln!(std::io::stderr(), "calls {:.3} ms, all else {:.3} ms", millis(calls), millis(all.saturating_sub(calls)));
    }
    ExitCode::from(code)
}

fn run(name: &str, given: &ArgMatches) -> Result<u8, Failure> {
    match name {
        "apply" => apply::run(given),
        "check" => check::run(given),
        "diff" => diff::run(given),
        "export" => export::run(given),
        "init" => rooms::init(given),
        "play" => play::run(given),
        "man" | "completions" => setup::run(given),
        "room" => rooms::room(given),
        "show" => show::run(given),
        "snapshots" | "schemas" | "tables" | "columns" | "files" | "rows" | "at" | "lookup" | "statistics" | "positions" | "scheduled" => {
            readings::run(name, given)
        }
        _ => changes::run(name, given),
    }
}
