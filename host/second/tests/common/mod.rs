//! Tables that calls are played on, and what every call must leave alone.
#![allow(dead_code)]

use second::lent::{
    COLUMN_SIZE, DATA_FILE_SIZE, DELETE_FILE_SIZE, NAME_SIZE, SCHEDULED_SIZE, SCHEMA_SIZE,
    SNAPSHOT_SIZE, STATISTICS_SIZE, TABLE_SIZE,
};
use second::{perform, read, Call, Counts, Outcome, Reading, Words};

/// Words of answer areas that nobody wrote.
pub const UNTOUCHED: u64 = 0xa5a5_a5a5_a5a5_a5a5;

#[derive(Clone)]
pub struct World {
    pub words: Words,
    pub counts: Counts,
}

impl World {
    pub fn lend(places: usize) -> World {
        let words = Words::lend(&Counts::of_each(places));
        World { words, counts: Counts::default() }
    }

    /// A fresh catalogue of time 100.
    pub fn fresh(places: usize) -> World {
        let mut world = World::lend(places);
        assert_eq!(world.call(&Call::Fresh { time: 100 }).number, 0);
        world
    }

    /// Plays a call that answers nothing.
    pub fn call(&mut self, call: &Call) -> Outcome {
        self.call_on(call, &mut [])
    }

    /// Plays a call, and holds what it left against what it may touch.
    pub fn call_on(&mut self, call: &Call, area: &mut [u64]) -> Outcome {
        let (words, counts, before) = (self.words.clone(), self.counts, area.to_vec());
        let outcome = perform(&mut self.words, &counts, call, area);
        if outcome.number == 0 {
            let used = if matches!(call, Call::Fresh { .. }) { Counts::default() } else { counts };
            kept(&words, &self.words, &used, &outcome.counts);
            assert_eq!(area[outcome.length..], before[outcome.length..]);
        } else {
            assert_eq!(self.words, words, "a refused call changed a word");
            assert_eq!(area, before, "a refused call changed the area");
            assert_eq!((outcome.counts, outcome.length), (counts, 0));
        }
        self.counts = outcome.counts;
        outcome
    }

    /// The refusal's number, or 0.
    pub fn number(&mut self, call: &Call) -> u64 {
        self.call(call).number
    }

    pub fn must(&mut self, call: &Call) {
        assert_eq!(self.number(call), 0, "{call:?}");
    }

    /// The answer of a reading on an area of this length, or its refusal.
    pub fn read_on(&self, reading: &Reading, room: usize) -> Result<Vec<u64>, u64> {
        let mut area = vec![UNTOUCHED; room];
        let outcome = read(&self.words, &self.counts, reading, &mut area);
        assert_eq!((outcome.place, outcome.counts), (0, self.counts));
        assert!(area[outcome.length..].iter().all(|word| *word == UNTOUCHED));
        if outcome.number == 0 {
            Ok(area[..outcome.length].to_vec())
        } else {
            assert_eq!(outcome.length, 0);
            Err(outcome.number)
        }
    }

    pub fn read(&self, reading: &Reading) -> Result<Vec<u64>, u64> {
        self.read_on(reading, 64)
    }

    pub fn scheduled(&self) -> &[u64] {
        &self.words.scheduled[..self.counts.scheduled * SCHEDULED_SIZE]
    }
}

/// "Places that a call frees become 0; all other words past the used counts [...] keep their
/// content."
fn kept(before: &Words, after: &Words, used: &Counts, now: &Counts) {
    let runs = [
        (&before.snapshots, &after.snapshots, SNAPSHOT_SIZE, used.snapshots, now.snapshots),
        (&before.schemas, &after.schemas, SCHEMA_SIZE, used.schemas, now.schemas),
        (&before.tables, &after.tables, TABLE_SIZE, used.tables, now.tables),
        (&before.columns, &after.columns, COLUMN_SIZE, used.columns, now.columns),
        (&before.data_files, &after.data_files, DATA_FILE_SIZE, used.data_files, now.data_files),
        (
            &before.delete_files,
            &after.delete_files,
            DELETE_FILE_SIZE,
            used.delete_files,
            now.delete_files,
        ),
        (&before.positions, &after.positions, 1, used.positions, now.positions),
        (&before.statistics, &after.statistics, STATISTICS_SIZE, used.statistics, now.statistics),
        (&before.scheduled, &after.scheduled, SCHEDULED_SIZE, used.scheduled, now.scheduled),
    ];
    for (before, after, size, used, now) in runs {
        past_used(before, after, size, used, now);
    }
    let names = [
        (&before.schema_names, &after.schema_names, used.schemas, now.schemas),
        (&before.table_names, &after.table_names, used.tables, now.tables),
        (&before.column_names, &after.column_names, used.columns, now.columns),
    ];
    for (before, after, used, now) in names {
        past_used(before, after, NAME_SIZE, used, now);
    }
}

fn past_used<T: Copy + Default + PartialEq + std::fmt::Debug>(
    before: &[T],
    after: &[T],
    size: usize,
    used: usize,
    now: usize,
) {
    assert_eq!(before.len(), after.len());
    let past = used.max(now) * size;
    assert_eq!(before[past..], after[past..], "a word past the used counts was changed");
    let freed = if now < used { &after[now * size..used * size] } else { &[] };
    assert!(freed.iter().all(|word| *word == T::default()), "a freed place is not 0");
}
