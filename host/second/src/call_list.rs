//! A list of calls and readings as words, and the call that plays one. No
//! paper has them: the words are those of crates/call_lists.
//!
//! A record is 16 words: kind, time, snapshot, schema or table, file, column, scalar, record_count,
//! UUID high, UUID low, and the spans, start and length, of its words, its name and its columns'
//! names. Each step reads those that it takes.

use crate::calls::{perform, read, Call, Reading};
use crate::commits::{
    CREATED_SCHEMA, CREATED_TABLE, DELETED_FROM_TABLE, DROPPED_SCHEMA, DROPPED_TABLE,
    INSERTED_INTO_TABLE,
};
use crate::lent::{Counts, Words};
use crate::records::{CatalogId, ColumnId, SnapshotId};
use crate::refusals::Outcome;

/// The kinds of steps that make no snapshot; a commit's kind is that of its change.
const EXPIRED_SNAPSHOTS: u64 = 100;
const CLEANED_UP: u64 = 101;
const MADE_FRESH: u64 = 102;
const LISTED_SCHEMAS: u64 = 200;
const LISTED_TABLES: u64 = 201;
const LISTED_COLUMNS: u64 = 202;
const FOUND_TABLE_BY_NAME: u64 = 203;
const LISTED_FILES: u64 = 204;
const LISTED_FILTERED_FILES: u64 = 205;
const LISTED_ROWS: u64 = 206;
const FOUND_SNAPSHOT_BY_TIME: u64 = 207;
const COPIED_FILE: u64 = 208;

const RECORD_SIZE: usize = 16;

/// The words that are reported of each step: number, place and length of its outcome.
const REPORT_SIZE: usize = 3;

#[derive(Clone, Debug, PartialEq, Eq)]
pub enum Step {
    Call(Call),
    Reading(Reading),
}

/// The records, and the runs that their spans lie in.
#[derive(Clone, Copy, Debug)]
pub struct CallList<'a> {
    pub calls: &'a [u64],
    pub lists: &'a [u64],
    pub names: &'a [u8],
}

/// How many steps were played, the words of all their answers, the catalogue record.
#[derive(Clone, Copy, Debug, PartialEq, Eq)]
pub struct Session {
    pub played: usize,
    pub answered: usize,
    pub counts: Counts,
}

/// Plays each step on what the one before left, a refused one too. Answers lie in the area one
/// behind another. The list ends where its steps do, or where no report has room.
pub fn play(
    words: &mut Words,
    counts: &Counts,
    list: CallList<'_>,
    area: &mut [u64],
    reports: &mut [u64],
) -> Session {
    let mut session = Session { played: 0, answered: 0, counts: *counts };
    for report in reports.chunks_exact_mut(REPORT_SIZE) {
        let Some(step) = list.step(session.played) else { break };
        let given = step.play(words, &session.counts, &mut area[session.answered..]);
        report.copy_from_slice(&[given.number, given.place, given.length as u64]);
        session.played += 1;
        session.answered += given.length;
        session.counts = given.counts;
    }
    session
}

impl Step {
    fn play(&self, words: &mut Words, counts: &Counts, area: &mut [u64]) -> Outcome {
        match self {
            Step::Call(call) => perform(words, counts, call, area),
            Step::Reading(reading) => read(words, counts, reading, area),
        }
    }
}

impl CallList<'_> {
    /// The step of a record. None where there is no such record, or where it asks for nothing: its
    /// kind is not known, it is Fresh and not the first, or a span of it leaves its run, one that
    /// is not taken too.
    pub fn step(&self, i: usize) -> Option<Step> {
        let (records, _) = self.calls.as_chunks::<RECORD_SIZE>();
        let [kind, time, snapshot, id, file, column, scalar, record_count, high, low, spans @ ..] =
            *records.get(i)?;
        let [words_start, words_length, name_start, name_length, names_start, names_length] = spans;
        let words = part(self.lists, words_start, words_length)?;
        let name = part(self.names, name_start, name_length)?;
        let column_names = part(self.names, names_start, names_length)?;
        let uuid = (high, low);
        Some(Step::Call(match kind {
            MADE_FRESH if i == 0 => Call::Fresh { time },
            CREATED_SCHEMA => Call::CreateSchema { time, name },
            DROPPED_SCHEMA => Call::DropSchema { time, schema: id },
            CREATED_TABLE => {
                Call::CreateTable { time, schema: id, name, columns: words, column_names }
            }
            DROPPED_TABLE => Call::DropTable { time, table: id },
            INSERTED_INTO_TABLE => {
                Call::Insert { time, table: id, record_count, uuid, statistics: words }
            }
            DELETED_FROM_TABLE => Call::Delete { time, data_file: file, uuid, positions: words },
            EXPIRED_SNAPSHOTS => Call::Expire { ids: words, time },
            CLEANED_UP => Call::Cleanup { t: time },
            FOUND_SNAPSHOT_BY_TIME => return Some(Step::Reading(Reading::ByTime { t: time })),
            COPIED_FILE => return Some(Step::Reading(Reading::FindFile { id: file })),
            _ => {
                let scalar = scalar as i64;
                return reading_at(snapshot, kind, id, name, column, scalar).map(Step::Reading);
            }
        }))
    }
}

/// A reading of a snapshot.
fn reading_at(
    snapshot: SnapshotId,
    kind: u64,
    id: CatalogId,
    name: Vec<u8>,
    column: ColumnId,
    scalar: i64,
) -> Option<Reading> {
    Some(match kind {
        LISTED_SCHEMAS => Reading::Schemas { snapshot },
        LISTED_TABLES => Reading::Tables { snapshot, schema: id },
        LISTED_COLUMNS => Reading::Columns { snapshot, table: id },
        FOUND_TABLE_BY_NAME => Reading::TableByName { snapshot, schema: id, name },
        LISTED_FILES => Reading::Files { snapshot, table: id },
        LISTED_FILTERED_FILES => Reading::FilteredFiles { snapshot, table: id, column, scalar },
        LISTED_ROWS => Reading::Rows { snapshot, table: id },
        _ => return None,
    })
}

/// What a span has of a run; none where it leaves it.
fn part<W: Copy>(run: &[W], start: u64, length: u64) -> Option<Vec<W>> {
    let end = usize::try_from(start.checked_add(length)?).ok()?;
    run.get(usize::try_from(start).ok()?..end).map(<[W]>::to_vec)
}
