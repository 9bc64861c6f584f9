//! A change as it was asked for: what the words of the command or of a line say, with the names not yet looked up.

use crate::failure::{code, Failure};
use crate::values::columns::Column;
use crate::values::names::{Reference, TableReference};
use crate::values::statistics::{self, Statistics};
use crate::values::{times, uuids};
use clap::ArgMatches;
use gukoremo::{FileId, Uuid};

#[derive(Clone, Debug, PartialEq, Eq)]
pub enum Change {
    CreateSchema { time: u64, name: String },
    DropSchema { time: u64, schema: Reference },
    CreateTable { time: u64, schema: Reference, name: String, columns: Vec<Column> },
    DropTable { time: u64, table: TableReference },
    Insert { time: u64, table: TableReference, rows: u64, uuid: Uuid, statistics: Vec<Statistics> },
    Delete { time: u64, file: FileId, positions: Vec<u64>, uuid: Uuid },
    Expire { time: u64, snapshots: Vec<u64> },
    Cleanup { before: u64 },
}

impl Change {
    /// The change of that name. `now` is its time where none is given.
    pub fn read(name: &str, given: &ArgMatches, now: u64) -> Result<Change, Failure> {
        if name == "cleanup" {
            return Ok(Change::Cleanup { before: given.get_one("before").copied().unwrap_or(now) });
        }
        let time = time(given, now)?;
        Ok(match name {
            "create-schema" => Change::CreateSchema { time, name: value(given, "name") },
            "drop-schema" => Change::DropSchema { time, schema: value(given, "schema") },
            "create-table" => {
                let (schema, name) = value(given, "name");
                Change::CreateTable { time, schema, name, columns: given.get_many("columns").unwrap_or_default().cloned().collect() }
            }
            "drop-table" => Change::DropTable { time, table: value(given, "table") },
            "insert" => {
                let words = given.get_many::<String>("statistics").unwrap_or_default().map(String::as_str);
                let not_understood = |why| Failure::new(code::USAGE, "The statistics are not understood.").why(format!("{why}."));
                let statistics = statistics::parse_all(words).map_err(not_understood)?;
                Change::Insert { time, table: value(given, "table"), rows: value(given, "rows"), uuid: uuid(given)?, statistics }
            }
            "delete" => Change::Delete { time, file: FileId(value(given, "id")), positions: value(given, "positions"), uuid: uuid(given)? },
            _ => Change::Expire { time, snapshots: value(given, "snapshots") },
        })
    }

    /// The time of a change that has one, and what waits for it where it is ahead of the clock.
    pub fn time(&self) -> Option<(u64, &'static str)> {
        match self {
            Change::Cleanup { .. } => None,
            Change::Expire { time, .. } => Some((*time, "until then a cleanup hands these files out only with a later --before.")),
            Change::CreateSchema { time, .. }
            | Change::DropSchema { time, .. }
            | Change::CreateTable { time, .. }
            | Change::DropTable { time, .. }
            | Change::Insert { time, .. }
            | Change::Delete { time, .. } => Some((*time, CHANGES_WAIT)),
        }
    }
}

pub const CHANGES_WAIT: &str = "until then a change is refused with 8 unless it has a later --time.";

/// A value that the command's definition makes sure of.
pub fn value<Value: Clone + Send + Sync + 'static>(given: &ArgMatches, name: &str) -> Value {
    given.get_one::<Value>(name).expect("required, or with a default").clone()
}

/// The given time, or now. One that is more than a day ahead of the clock is most likely mistyped.
pub fn time(given: &ArgMatches, now: u64) -> Result<u64, Failure> {
    let time = given.get_one("time").copied().unwrap_or(now);
    if time > now.saturating_add(times::DAY) && !given.get_flag("force") {
        let what = format!("The time {} is more than a day ahead of the clock, and nothing was done.", times::both(time));
        return Err(Failure::new(code::USAGE, what)
            .why("until then the clock's time would be too early for a change or a cleanup.")
            .advice("give the right time with --time, or this one with --force."));
    }
    Ok(time)
}

/// The given UUID, or a new one.
fn uuid(given: &ArgMatches) -> Result<Uuid, Failure> {
    match given.get_one("uuid") {
        Some(uuid) => Ok(*uuid),
        None => uuids::make().map_err(|error| Failure::new(code::IO, "No UUID could be made.").why(format!("the system says: {error}."))),
    }
}
