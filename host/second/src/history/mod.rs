//! Demand 3 as a test: what a list of calls must show, from the calls alone.
//!
//! A history is fed each call with its outcome and answer. It keeps a page for each retained
//! snapshot: what that snapshot shows, as it was when the snapshot was made. Nothing in it knows of
//! begins, ends or words, so it can stand beside any catalogue: `check` asks the catalogue and
//! compares.

use std::collections::{BTreeMap, BTreeSet};

use crate::calls::{Call, Reading};
use crate::records::{CatalogId, FileId, SnapshotId, Uuid};
use crate::refusals::Outcome;
use crate::row_book::RowBook;

mod check;
mod page;
mod questions;

use page::Page;

/// A scheduled file: "the scheduled table holds just these, once each, with u."
#[derive(Clone, Copy, Debug, PartialEq, Eq)]
struct Waiting {
    file: FileId,
    uuid: Uuid,
    since: u64,
}

/// From a fresh catalogue on: Fresh is the first call and the only Fresh (R16).
#[derive(Clone, Debug)]
pub struct History {
    book: RowBook,
    /// "a retained snapshot, one that no accepted expiry has named"
    retained: BTreeMap<SnapshotId, Page>,
    latest: SnapshotId,
    uuids: BTreeMap<FileId, Uuid>,
    waiting: Vec<Waiting>,
    handed_out: BTreeSet<FileId>,
    /// Names that a call has given, accepted or not: good questions.
    names: BTreeSet<Vec<u8>>,
}

impl History {
    /// Straight after an accepted Fresh of this time.
    pub fn from_fresh(time: u64) -> History {
        History {
            book: RowBook::default(),
            retained: BTreeMap::from([(0, Page::fresh(time))]),
            latest: 0,
            uuids: BTreeMap::new(),
            waiting: Vec::new(),
            handed_out: BTreeSet::new(),
            names: BTreeSet::from([b"main".to_vec(), b"nothing".to_vec()]),
        }
    }

    pub fn book(&self) -> &RowBook {
        &self.book
    }

    pub fn latest(&self) -> SnapshotId {
        self.latest
    }

    pub fn retained(&self) -> impl Iterator<Item = SnapshotId> + '_ {
        self.retained.keys().copied()
    }

    /// Files waiting for cleanup, in the order of the scheduled table.
    pub fn scheduled(&self) -> impl Iterator<Item = FileId> + '_ {
        self.waiting.iter().map(|waiting| waiting.file)
    }

    pub fn handed_out(&self) -> impl Iterator<Item = FileId> + '_ {
        self.handed_out.iter().copied()
    }

    /// Follows a call: what it gave, and the front of its answer area. An error says what can't be
    /// so.
    pub fn follow(&mut self, call: &Call, outcome: &Outcome, area: &[u64]) -> Result<(), String> {
        if let Call::CreateTable { name, .. } | Call::CreateSchema { name, .. } = call {
            self.names.insert(name.clone());
        }
        if outcome.number != 0 {
            let plain = outcome.length == 0 && (outcome.number == 17 || outcome.place == 0);
            return wanted(plain, || format!("a refusal with a length or a place: {outcome:?}"));
        }
        let answer = area.get(..outcome.length).ok_or("an answer longer than its area")?;
        wanted(outcome.place == 0, || format!("an accepted call with a place: {outcome:?}"))?;
        match call {
            Call::Fresh { .. } => return Err("a second Fresh".to_string()),
            Call::Expire { ids, .. } => self.expire(ids)?,
            Call::Cleanup { t } => return self.clean_up(*t, answer),
            _ => self.commit(call)?,
        }
        self.schedule(time(call));
        wanted(answer.is_empty(), || format!("an answer where there is none: {call:?}"))
    }

    /// An accepted commit: a new page, from a copy of the last.
    fn commit(&mut self, call: &Call) -> Result<(), String> {
        let last = self.retained.get(&self.latest).ok_or("the latest snapshot is not retained")?;
        let (catalog_id, file_id) = (self.book.next_catalog_id(), self.book.next_file_id());
        let page = last.after(call, catalog_id, file_id)?;
        self.book.write(call)?;
        if let Call::Insert { uuid, .. } | Call::Delete { uuid, .. } = call {
            self.uuids.insert(file_id, *uuid);
        }
        self.latest += 1;
        self.retained.insert(self.latest, page);
        Ok(())
    }

    fn expire(&mut self, ids: &[SnapshotId]) -> Result<(), String> {
        wanted(!ids.is_empty(), || "an expiry of nothing".to_string())?;
        wanted(!ids.contains(&self.latest), || "an expiry of the latest".to_string())?;
        for id in ids {
            self.retained.remove(id).ok_or(format!("snapshot {id} expired, but not retained"))?;
        }
        Ok(())
    }

    /// "A file is scheduled from the first accepted call, of time u, after which no retained
    /// snapshot lists it, until it is handed out".
    fn schedule(&mut self, since: u64) {
        let listed = self.listed();
        let waiting: BTreeSet<FileId> = self.scheduled().collect();
        for (file, uuid) in &self.uuids {
            let placed = [&listed, &waiting, &self.handed_out].iter().any(|set| set.contains(file));
            if !placed {
                self.waiting.push(Waiting { file: *file, uuid: *uuid, since });
            }
        }
    }

    /// Hands out what has waited since before t: "in table order". "None is handed out twice".
    fn clean_up(&mut self, t: u64, answer: &[u64]) -> Result<(), String> {
        let waiting = std::mem::take(&mut self.waiting).into_iter();
        let (due, kept): (Vec<_>, Vec<_>) = waiting.partition(|waiting| waiting.since < t);
        self.waiting = kept;
        let words = due.iter().flat_map(|due| [due.file, due.uuid.0, due.uuid.1]);
        let words: Vec<u64> = words.collect();
        wanted(words == answer, || format!("cleanup {t} gave {answer:?}, due was {words:?}"))?;
        for due in due {
            let first = self.handed_out.insert(due.file);
            wanted(first, || format!("file {} handed out twice", due.file))?;
        }
        Ok(())
    }

    /// Files that some retained snapshot lists, data files and delete files.
    fn listed(&self) -> BTreeSet<FileId> {
        self.retained.values().flat_map(Page::files).collect()
    }

    /// The answer that a reading must give, or the refusal's number. The lookup gives its record's
    /// words, which a history does not know: the answer is the id alone.
    pub fn expected(&self, reading: &Reading) -> Result<Vec<u64>, u64> {
        match reading {
            Reading::ByTime { t } => {
                let mut from_highest = self.retained.iter().rev();
                let found = from_highest.find(|(_, page)| page.time <= *t);
                found.map(|(id, _)| vec![*id]).ok_or(7)
            }
            Reading::FindFile { id } => {
                let on_record = self.listed().contains(id);
                on_record.then(|| vec![*id]).ok_or(6)
            }
            Reading::Rows { snapshot, table } => self.rows(*snapshot, *table),
            Reading::Schemas { snapshot }
            | Reading::Tables { snapshot, .. }
            | Reading::Columns { snapshot, .. }
            | Reading::TableByName { snapshot, .. }
            | Reading::Files { snapshot, .. }
            | Reading::FilteredFiles { snapshot, .. } => {
                let page = self.retained.get(snapshot).ok_or(5_u64)?;
                page.answer(reading).ok_or(6)
            }
        }
    }

    /// "The rows of each table on page s of document 01's row book, read at a retained snapshot s,
    /// are exactly those on the page, in its order; those of any other table are refused."
    fn rows(&self, snapshot: SnapshotId, table: CatalogId) -> Result<Vec<u64>, u64> {
        self.retained.get(&snapshot).ok_or(5_u64)?;
        let page = usize::try_from(snapshot).ok().and_then(|s| self.book.pages().get(s));
        let rows = page.and_then(|page| page.get(&table)).ok_or(6_u64)?;
        Ok(rows.rows.to_vec())
    }
}

/// The time of a call; a cleanup's is its t (R42).
fn time(call: &Call) -> u64 {
    match call {
        Call::Fresh { time }
        | Call::CreateSchema { time, .. }
        | Call::CreateTable { time, .. }
        | Call::Insert { time, .. }
        | Call::Delete { time, .. }
        | Call::DropTable { time, .. }
        | Call::DropSchema { time, .. }
        | Call::Expire { time, .. } => *time,
        Call::Cleanup { t } => *t,
    }
}

fn wanted(holds: bool, complaint: impl FnOnce() -> String) -> Result<(), String> {
    if holds {
        Ok(())
    } else {
        Err(complaint())
    }
}
