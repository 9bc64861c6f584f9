//! What a catalogue answers, held against the history.

use std::collections::BTreeSet;

use super::{wanted, History};
use crate::calls::Reading;
use crate::lent::{Counts, ABSENT, SCHEDULED_SIZE};
use crate::records::{FileId, SnapshotId};
use crate::refusals::Outcome;

/// A word that no answer area of a check holds by chance.
const UNTOUCHED: u64 = 0x7e57_7e57_7e57_7e57;

/// The catalogue as a history sees it: a reading asked on an area.
pub type Asked<'a> = dyn FnMut(&Reading, &mut [u64]) -> Outcome + 'a;

impl History {
    /// Asks the questions of the catalogue; then looks where each file is. `scheduled` is the used
    /// part of the scheduled run. An error says what differs.
    pub fn check(
        &self,
        asked: &mut Asked,
        counts: &Counts,
        questions: &[Reading],
        scheduled: &[u64],
    ) -> Result<(), String> {
        for question in questions {
            self.ask(asked, counts, question)?;
        }
        self.check_scheduled(scheduled)?;
        self.check_places(asked, counts, scheduled)
    }

    /// "readings given room for their answers": just the room that the answer takes. "Every reading
    /// at a retained snapshot [...] is accepted exactly when it was straight after the call that
    /// made the snapshot, and if accepted answers the same."
    fn ask(&self, asked: &mut Asked, counts: &Counts, question: &Reading) -> Result<(), String> {
        let expected = self.expected(question);
        let length = match (question, &expected) {
            (_, Err(_)) => 0,
            (Reading::FindFile { .. }, Ok(_)) => 8,
            (_, Ok(answer)) => answer.len(),
        };
        let mut area = vec![UNTOUCHED; length + 1];
        let given = &mut area[..length];
        let outcome = asked(question, given);
        let number = expected.as_ref().err().copied().unwrap_or(0);
        let plain = Outcome { number, place: 0, length, counts: *counts };
        wanted(outcome == plain, || format!("{question:?}: {outcome:?}, not {plain:?}"))?;
        let answer = expected.unwrap_or_default();
        let front = &given[..answer.len()];
        wanted(front == answer, || format!("{question:?}: {front:?}, not {answer:?}"))
    }

    /// "the scheduled table holds just these, once each, with u."
    fn check_scheduled(&self, scheduled: &[u64]) -> Result<(), String> {
        let words = self.waiting.iter().flat_map(|w| [w.file, w.uuid.0, w.uuid.1, w.since]);
        let words: Vec<u64> = words.collect();
        wanted(words == scheduled, || format!("scheduled {scheduled:?}, not {words:?}"))
    }

    /// "Every file ever registered is exactly one of these: in the file list of some table at a
    /// retained snapshot, scheduled, or handed out by an accepted cleanup."
    fn check_places(
        &self,
        asked: &mut Asked,
        counts: &Counts,
        scheduled: &[u64],
    ) -> Result<(), String> {
        let mut listed = BTreeSet::new();
        for snapshot in self.retained.keys() {
            listed.extend(self.listed_by(asked, counts, *snapshot)?);
        }
        let records = scheduled.as_chunks::<SCHEDULED_SIZE>().0;
        let waiting: BTreeSet<FileId> = records.iter().map(|[file, ..]| *file).collect();
        for file in 0..self.book.next_file_id() {
            let places = [&listed, &waiting, &self.handed_out];
            let count = places.iter().filter(|place| place.contains(&file)).count();
            wanted(count == 1, || format!("file {file} is in {count} places"))?;
        }
        let registered = |file: &FileId| *file < self.book.next_file_id();
        let known = listed.iter().chain(&waiting).all(registered);
        wanted(known, || "a file is listed or scheduled that was never registered".to_string())
    }

    /// The files in the catalogue's own lists at a snapshot, of every table it lists there.
    fn listed_by(
        &self,
        asked: &mut Asked,
        counts: &Counts,
        snapshot: SnapshotId,
    ) -> Result<BTreeSet<FileId>, String> {
        let mut files = BTreeSet::new();
        for schema in given(asked, counts, &Reading::Schemas { snapshot })? {
            for table in given(asked, counts, &Reading::Tables { snapshot, schema })? {
                let list = given(asked, counts, &Reading::Files { snapshot, table })?;
                files.extend(list.into_iter().filter(|id| *id != ABSENT));
            }
        }
        Ok(files)
    }
}

/// What the catalogue answers, on an area that has room for every list of ids.
fn given(asked: &mut Asked, counts: &Counts, question: &Reading) -> Result<Vec<u64>, String> {
    let records = [counts.schemas, counts.tables, 2 * counts.data_files];
    let mut area = vec![UNTOUCHED; records.into_iter().max().unwrap_or(0)];
    let outcome = asked(question, &mut area);
    let accepted = outcome.number == 0 && outcome.length <= area.len();
    wanted(accepted, || format!("{question:?}: {outcome:?}"))?;
    area.truncate(outcome.length);
    Ok(area)
}
