//! A refusal in full: which, why in this catalogue, and what to do.

use crate::failure::{code, Failure};
use crate::file::Lake;
use crate::runs;
use crate::values::statistics::broken_rule;
use crate::values::times;
use gukoremo::number::{COLUMN_LIMIT, NAME_SIZE};
use gukoremo::{Column, FileId, NewStatistics, Refusal, SnapshotId, Uuid};

/// What was asked, as far as a refusal can be about it.
#[derive(Default)]
pub struct Asked<'a> {
    pub time: Option<u64>,
    pub at: Option<SnapshotId>,
    pub thing: Option<String>,
    pub name: &'a str,
    pub column_names: Vec<&'a str>,
    pub rows: u64,
    pub uuid: Option<Uuid>,
    pub columns: Vec<Column>,
    pub statistics: &'a [NewStatistics],
    pub file: Option<FileId>,
    pub list: &'a [u64],
}

impl<'a> Asked<'a> {
    pub fn at(at: SnapshotId) -> Asked<'a> {
        Asked { at: Some(at), ..Asked::default() }
    }

    pub fn of(at: SnapshotId, thing: String) -> Asked<'a> {
        Asked { at: Some(at), thing: Some(thing), ..Asked::default() }
    }
}

/// The failure that a refusal is.
pub fn refuse(refusal: Refusal, lake: &Lake, asked: &Asked<'_>) -> Failure {
    let number = refusal.number().min(u64::from(u8::MAX - code::REFUSED)) as u8;
    let (why, advice) = reason(refusal, lake, asked);
    Failure::new(code::REFUSED + number, format!("refused with {}: {}.", refusal.number(), refusal.sentence())).why(why).advice(advice)
}

fn reason(refusal: Refusal, lake: &Lake, asked: &Asked<'_>) -> (String, String) {
    let latest = lake.records().latest();
    let latest_id = latest.map_or(0, |snapshot| snapshot.id.0);
    let thing = asked.thing.clone().unwrap_or_else(|| "it".to_string());
    let (why, advice): (String, &str) = match refusal {
        Refusal::NotSound => (
            "the tables in the file break a line of 'Sound tables'.".to_string(),
            "see with 'gukoremo check FILE' which line and which record, and go back to a copy of the file.",
        ),
        Refusal::NoRoom => (
            format!("of the records that the file has room for these are used: {}.", fullness(lake)),
            "free records with 'gukoremo expire', or make room with 'gukoremo room FILE --records N', up to 4096.",
        ),
        Refusal::NumberTooLarge => (
            "ids, row numbers and schema versions end there, and this change would count past it.".to_string(),
            "begin a new catalogue with 'gukoremo init'.",
        ),
        Refusal::NotRetained => (not_retained(lake, asked), "see the snapshots that are there with 'gukoremo snapshots FILE'."),
        Refusal::NotLive => (
            match asked.at {
                Some(at) => format!("there is no {thing} at snapshot {}.", at.0),
                None => format!("there is no {thing} on record."),
            },
            "see what is there with 'gukoremo schemas', 'tables', 'columns' or 'files', and give --at for an older snapshot.",
        ),
        Refusal::NoSnapshotByThen => (
            match lake.records().snapshots().next() {
                Some(first) => format!(
                    "the first snapshot that is retained is {}, of {}, and you ask for {}.",
                    first.id.0,
                    times::both(first.time),
                    times::both(asked.time.unwrap_or(0))
                ),
                None => "there is none.".to_string(),
            },
            "ask for a later time.",
        ),
        Refusal::TimeFalls => (
            format!(
                "the latest snapshot, {latest_id}, has the time {}, and you give {}.",
                times::both(latest.map_or(0, |snapshot| snapshot.time)),
                times::both(asked.time.unwrap_or(0))
            ),
            match latest {
                // a time that was mistyped: without --force it can't be met
                Some(latest) if latest.time > times::now().saturating_add(times::DAY) => {
                    "give that time or a later one with --time and --force, or go back to a copy from before that snapshot."
                }
                _ => "give that time or a later one with --time; without --time it is the clock's.",
            },
        ),
        Refusal::BadName => (
            format!("'{}' has {} bytes; a name is 1 to {NAME_SIZE} ASCII letters, digits or underscores.", asked.name, asked.name.len()),
            "give a name of that form.",
        ),
        Refusal::NameTaken => (format!("there is a {thing} at snapshot {latest_id}, the latest."), "give another name, or drop that one first."),
        Refusal::SchemaNotEmpty => (format!("{thing} still has tables."), "drop its tables first: 'gukoremo tables FILE --schema NAME' lists them."),
        Refusal::BadColumns => (bad_columns(asked), "give 1 to 16 columns, each with a name of its own."),
        Refusal::BadRecordCount => (format!("you give {} rows.", asked.rows), "give --rows from 1 to 1048576; split a larger file."),
        Refusal::UuidTaken => (uuid_taken(lake, asked), "give another UUID, or leave --uuid out, and one is made."),
        Refusal::BadStatistics => (bad_statistics(asked), "give for each column COLUMN=MIN..MAX and, where there are nulls, nulls=N after it."),
        Refusal::BadPositions => (bad_positions(lake, asked), "give positions once each, from the lowest to the highest, below the file's rows."),
        Refusal::AlreadyDeleted { index } => {
            let position = usize::try_from(index).ok().and_then(|at| asked.list.get(at).copied()).unwrap_or(0);
            (format!("position {position}, at index {index} of your list, is already deleted."), "leave out what is deleted.")
        }
        Refusal::BadExpiryList => (
            if asked.list.is_empty() { "the list is empty.".to_string() } else { "the list is not in order, or names a snapshot twice.".to_string() },
            "give snapshots once each, from the lowest to the highest.",
        ),
        Refusal::ExpiresLatest => (format!("{latest_id} is the latest snapshot, and a catalogue always has one."), "leave it out."),
        _ => (String::new(), ""),
    };
    (why, advice.to_string())
}

fn fullness(lake: &Lake) -> String {
    let places = runs::words_of(lake.view().room());
    let used = runs::words_of(lake.counts());
    let parts: Vec<String> = (0..9).map(|at| format!("{} {} of {}", runs::TABLES[at], used[at], places[at])).collect();
    parts.join(", ")
}

fn not_retained(lake: &Lake, asked: &Asked<'_>) -> String {
    let ids: Vec<u64> = lake.records().snapshots().map(|snapshot| snapshot.id.0).collect();
    let asked_for: Vec<u64> = match asked.at {
        Some(at) => vec![at.0],
        None => asked.list.iter().copied().filter(|id| ids.binary_search(id).is_err()).collect(),
    };
    format!("{} was expired or not made yet; retained are {}.", ranges(&asked_for), ranges(&ids))
}

/// Numbers in order, with what follows each other put together.
pub fn ranges(numbers: &[u64]) -> String {
    let mut parts: Vec<(u64, u64)> = Vec::new();
    for number in numbers {
        match parts.last_mut() {
            Some((_, last)) if last.checked_add(1) == Some(*number) => *last = *number,
            _ => parts.push((*number, *number)),
        }
    }
    let parts: Vec<String> = parts.iter().map(|(first, last)| if first == last { first.to_string() } else { format!("{first}..{last}") }).collect();
    parts.join(", ")
}

fn bad_columns(asked: &Asked<'_>) -> String {
    let names = &asked.column_names;
    if names.is_empty() || names.len() > COLUMN_LIMIT {
        return format!("you give {} columns.", names.len());
    }
    let is_name = |name: &str| (1..=NAME_SIZE).contains(&name.len()) && name.bytes().all(|byte| byte.is_ascii_alphanumeric() || byte == b'_');
    if let Some(bad) = names.iter().find(|name| !is_name(name)) {
        return format!("'{bad}' is no name: that is 1 to {NAME_SIZE} ASCII letters, digits or underscores.");
    }
    match names.iter().enumerate().find(|(at, name)| names[..*at].contains(name)) {
        Some((_, twice)) => format!("'{twice}' is there twice."),
        None => "a type or a flag is not known.".to_string(),
    }
}

fn uuid_taken(lake: &Lake, asked: &Asked<'_>) -> String {
    let Some(uuid) = asked.uuid else { return "the UUID is in use.".to_string() };
    let data = lake.records().data_files().filter(|file| file.uuid == uuid).map(|file| format!("data file {}", file.id.0));
    let delete = lake.records().delete_files().filter(|file| file.uuid == uuid).map(|file| format!("delete file {}", file.id.0));
    let scheduled = lake.records().scheduled().filter(|file| file.uuid == uuid).map(|file| format!("file {}, which is scheduled,", file.file.0));
    let holder = data.chain(delete).chain(scheduled).next().unwrap_or_else(|| "another file".to_string());
    format!("{holder} has {}.", uuid)
}

fn bad_statistics(asked: &Asked<'_>) -> String {
    let broken = broken_rule(&asked.columns, asked.rows, asked.statistics).unwrap_or_else(|| "they break a rule".to_string());
    let mark = |column: &Column| if column.nulls_allowed { "?" } else { "" };
    let shown: Vec<String> = asked.columns.iter().map(|column| format!("{}:{}{}", column.name, column.column_type, mark(column))).collect();
    format!("{broken}. The table's columns are {}.", shown.join(", "))
}

fn bad_positions(lake: &Lake, asked: &Asked<'_>) -> String {
    if asked.list.is_empty() {
        return "the list is empty.".to_string();
    }
    if let Some(pair) = asked.list.windows(2).find(|pair| pair[0] >= pair[1]) {
        return format!("{} stands after {}.", pair[1], pair[0]);
    }
    match asked.file.and_then(|id| lake.records().data_file(id)) {
        Some(file) => format!("file {} has {} rows, positions 0 to {}.", file.id.0, file.record_count, file.record_count.saturating_sub(1)),
        None => "a position is past the file.".to_string(),
    }
}
