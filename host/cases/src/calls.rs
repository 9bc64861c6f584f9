//! A case's call, made on the tables that it gives, and what came back against what it says.

use crate::lending::{bytes_of, Lending};
use cases::codes;
use cases::runs::{Call, Runs, NAMES};
use gukoremo::number::NAME_SIZE;
use gukoremo::{raw, CatalogId, Counts, FileId, Outcome, SnapshotId, Uuid};

pub enum Played {
    Agrees,
    Differs(String),
    Unplayed,
}

/// A call's name in the cases.
pub fn name(code: u64) -> &'static str {
    match code {
        codes::FRESH => "Fresh",
        codes::CREATE_SCHEMA => "create schema",
        codes::CREATE_TABLE => "create table",
        codes::INSERT => "insert",
        codes::DELETE => "delete",
        codes::DROP_SCHEMA => "drop schema",
        codes::DROP_TABLE => "drop table",
        codes::EXPIRE => "expiry",
        codes::CLEANUP => "cleanup",
        codes::LIST_SCHEMAS => "schemas",
        codes::LIST_TABLES => "tables",
        codes::LIST_COLUMNS => "columns",
        codes::TABLE_BY_NAME => "table by name",
        codes::LIST_FILES => "files",
        codes::LIST_FILTERED_FILES => "filtered files",
        codes::LIST_ROWS => "rows",
        codes::SNAPSHOT_BY_TIME => "by time",
        codes::COPY_FILE => "file lookup as a copy",
        codes::FIND_FILE => "file lookup as a part",
        codes::PATH_OF_FILE => "path of a file, by gukoremo's own function",
        _ => "a call of no known code",
    }
}

/// Why the cases of a call are not played.
pub fn reason_unplayed(code: u64) -> Option<&'static str> {
    match code {
        codes::FIND_FILE => Some("a reference can't cross the C boundary; the same lookup is played as a copy (docs/DECISIONS.md, R51 and R52)"),
        _ => None,
    }
}

/// Plays a call on its tables, and compares.
pub fn play(call: &Call) -> Played {
    if reason_unplayed(call.code).is_some() {
        return Played::Unplayed;
    }
    let mut lending = Lending::of(&call.before);
    let Some(given) = make(call, &mut lending) else {
        return Played::Differs(format!("there is no call of the code {}", call.code));
    };
    match difference(call, &given, &lending.runs(given.counts), lending.margins_hold()) {
        None => Played::Agrees,
        Some(how) => Played::Differs(how),
    }
}

/// The call itself, if there is one of that code.
fn make(call: &Call, lent: &mut Lending) -> Option<Outcome> {
    let a = &call.arguments;
    let word = |i: usize| a.get(i).copied().unwrap_or(0);
    let rest = |i: usize| a.get(i..).unwrap_or(&[]);
    let uuid = |i: usize| Uuid { high: word(i), low: word(i + 1) };
    let (time, snapshot) = (word(0), SnapshotId(word(0)));
    Some(match call.code {
        codes::FRESH => lent.change(|t, c, area| raw::fresh(t, c, time, area)),
        codes::CREATE_SCHEMA => lent.change(|t, c, area| raw::create_schema(t, c, time, &bytes_of(rest(1)), area)),
        codes::CREATE_TABLE => {
            let (name, rest) = counted(rest(2));
            let (columns, rest) = counted(rest);
            let names = places_of(rest);
            lent.change(|t, c, area| raw::create_table(t, c, time, CatalogId(word(1)), &bytes_of(name), columns, &names, area))
        }
        codes::INSERT => lent.change(|t, c, area| raw::insert(t, c, time, CatalogId(word(1)), word(2), uuid(3), rest(5), area)),
        codes::DELETE => lent.change(|t, c, area| raw::delete(t, c, time, FileId(word(1)), uuid(2), rest(4), area)),
        codes::DROP_SCHEMA => lent.change(|t, c, area| raw::drop_schema(t, c, time, CatalogId(word(1)), area)),
        codes::DROP_TABLE => lent.change(|t, c, area| raw::drop_table(t, c, time, CatalogId(word(1)), area)),
        codes::EXPIRE => lent.change(|t, c, area| raw::expire(t, c, rest(1), time, area)),
        codes::CLEANUP => lent.change(|t, c, area| raw::cleanup(t, c, time, area)),
        codes::LIST_SCHEMAS => lent.read(|t, c, area| raw::list_schemas(t, c, snapshot, area)),
        codes::LIST_TABLES => lent.read(|t, c, area| raw::list_tables(t, c, snapshot, CatalogId(word(1)), area)),
        codes::LIST_COLUMNS => lent.read(|t, c, area| raw::list_columns(t, c, snapshot, CatalogId(word(1)), area)),
        codes::TABLE_BY_NAME => lent.read(|t, c, area| raw::table_by_name(t, c, snapshot, CatalogId(word(1)), &bytes_of(rest(2)), area)),
        codes::LIST_FILES => lent.read(|t, c, area| raw::list_files(t, c, snapshot, CatalogId(word(1)), area)),
        codes::LIST_FILTERED_FILES => {
            lent.read(|t, c, area| raw::list_filtered_files(t, c, snapshot, CatalogId(word(1)), word(2), word(3) as i64, area))
        }
        codes::LIST_ROWS => lent.read(|t, c, area| raw::list_rows(t, c, snapshot, CatalogId(word(1)), area)),
        codes::SNAPSHOT_BY_TIME => lent.read(|t, c, area| raw::snapshot_by_time(t, c, time, area)),
        codes::COPY_FILE => lent.read(|t, c, area| raw::copy_file(t, c, FileId(word(0)), area)),
        codes::PATH_OF_FILE => lent.read(|_, counts, area| write_path(uuid(0), counts, area)),
        _ => return None,
    })
}

/// The path of a file as if it were a call's answer.
fn write_path(uuid: Uuid, counts: Counts, area: &mut [u64]) -> Outcome {
    let path = uuid.path();
    for (word, byte) in area.iter_mut().zip(path.bytes()) {
        *word = u64::from(byte);
    }
    Outcome { number: 0, place: 0, length: path.len(), counts }
}

/// What first tells the outcome from the case.
fn difference(call: &Call, given: &Outcome, left: &Runs, margins_hold: bool) -> Option<String> {
    if given.number != call.number {
        return Some(format!("number {}, and the case says {}", given.number, call.number));
    }
    if given.place >= 64 || call.places >> given.place & 1 == 0 {
        return Some(format!("place {}, and the case says one of the bits of {}", given.place, call.places));
    }
    if given.length as u64 != call.length {
        return Some(format!("length {}, and the case says {}", given.length, call.length));
    }
    if !margins_hold {
        return Some("words beside the lent runs are not as they were".to_string());
    }
    left.iter().zip(&call.after).enumerate().find_map(|(run, (left, right))| {
        let place = (0..left.len().max(right.len())).find(|i| left.get(*i) != right.get(*i))?;
        let shown = |run: &Vec<u64>| run.get(place).map_or("nothing".to_string(), u64::to_string);
        Some(format!("{} at {place}: {}, and the case says {}", NAMES[run], shown(left), shown(right)))
    })
}

/// So many words after their number, and those after them.
fn counted(words: &[u64]) -> (&[u64], &[u64]) {
    words[1..].split_at(words[0] as usize)
}

/// Names after their number, each after its length, in places one after another; a name too long for its place is longer than it.
fn places_of(words: &[u64]) -> Vec<u8> {
    let mut places = Vec::new();
    let mut rest = &words[1..];
    for _ in 0..words[0] {
        let (name, after) = counted(rest);
        let mut place = bytes_of(name);
        place.resize(place.len().max(NAME_SIZE), 0);
        places.extend(place);
        rest = after;
    }
    places
}
