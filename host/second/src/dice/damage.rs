//! Tables that nobody vouches for, and calls and readings with any arguments.

use crate::calls::{Call, Reading};
use crate::diary::{bounded, name_places, DIARY};
use crate::dice::Dice;
use crate::lent::{Counts, Words, ABSENT, NUMBER_LIMIT};

/// Words that stand at an edge.
pub const EDGES: [u64; 14] = [
    0,
    1,
    2,
    3,
    4,
    5,
    6,
    255,
    4_097,
    1_048_577,
    NUMBER_LIMIT - 1,
    NUMBER_LIMIT,
    NUMBER_LIMIT + 1,
    ABSENT,
];

fn edge(dice: &mut Dice) -> u64 {
    EDGES[dice.index(EDGES.len())]
}

pub fn runs(words: &mut Words) -> [&mut Vec<u64>; 9] {
    [
        &mut words.snapshots,
        &mut words.schemas,
        &mut words.tables,
        &mut words.columns,
        &mut words.data_files,
        &mut words.delete_files,
        &mut words.positions,
        &mut words.statistics,
        &mut words.scheduled,
    ]
}

pub fn name_runs(words: &mut Words) -> [&mut Vec<u8>; 3] {
    [&mut words.schema_names, &mut words.table_names, &mut words.column_names]
}

pub fn counts_of(counts: &mut Counts) -> [&mut usize; 9] {
    [
        &mut counts.snapshots,
        &mut counts.schemas,
        &mut counts.tables,
        &mut counts.columns,
        &mut counts.data_files,
        &mut counts.delete_files,
        &mut counts.positions,
        &mut counts.statistics,
        &mut counts.scheduled,
    ]
}

/// A word, a name byte, a count or a length becomes another.
pub fn damage(words: &mut Words, counts: &mut Counts, dice: &mut Dice) {
    match dice.below(12) {
        0 => {
            let used = &mut *counts_of(counts)[dice.index(9)];
            let near = [used.saturating_sub(1), used.saturating_add(1), edge(dice) as usize];
            *used = near[dice.index(3)];
        }
        1 => {
            let names = &mut *name_runs(words)[dice.index(3)];
            let place = dice.index(names.len().min(96));
            if let Some(byte) = names.get_mut(place) {
                *byte = dice.pick(b"\0aZ_ \xff").unwrap_or(0);
            }
        }
        2 => {
            let run = &mut *runs(words)[dice.index(9)];
            run.truncate(dice.index(run.len() + 1));
        }
        _ => {
            let run = &mut *runs(words)[dice.index(9)];
            let place = dice.index(run.len().min(64));
            if let Some(word) = run.get_mut(place) {
                let near = [word.wrapping_add(1), word.wrapping_sub(1), edge(dice)];
                *word = near[dice.index(3)];
            }
        }
    }
}

/// Words that nobody vouches for in every lent place, and ragged tails.
pub fn litter(words: &mut Words, dice: &mut Dice) {
    for run in runs(words) {
        run.extend(vec![0; dice.index(3)]);
        run.iter_mut().for_each(|word| *word = dice.word());
    }
    for names in name_runs(words) {
        names.extend(vec![0; dice.index(9)]);
        names.iter_mut().for_each(|byte| *byte = dice.word() as u8);
    }
}

/// Runs of any length that hold edges, with counts of any size.
pub fn any_tables(dice: &mut Dice) -> (Words, Counts) {
    let (mut words, mut counts) = (Words::default(), Counts::default());
    for run in runs(&mut words) {
        let length = dice.index(60);
        *run = (0..length).map(|_| edge(dice)).collect();
    }
    for names in name_runs(&mut words) {
        *names = vec![dice.pick(b"\0a\xff").unwrap_or(0); dice.index(99)];
    }
    for count in counts_of(&mut counts) {
        *count = if dice.one_in(8) { edge(dice) as usize } else { dice.index(4) };
    }
    (words, counts)
}

/// A call of every sort, with arguments that suit the diary session and with any arguments.
pub fn calls(dice: &mut Dice) -> Vec<Call> {
    let (time, id, odd) = (edge(dice).max(1_000), edge(dice), edge(dice));
    let uuid = (edge(dice), edge(dice));
    let (name, column_names) = (b"more".to_vec(), name_places(&["a"]));
    let statistics = [bounded(1, 0, 1, 3), bounded(2, 0, 9, 14)].concat();
    vec![
        Call::CreateSchema { time, name: name.clone() },
        Call::CreateSchema { time: id, name: vec![odd as u8; odd.min(40) as usize] },
        Call::CreateTable { time, schema: 0, name, columns: vec![4, 0], column_names },
        Call::CreateTable {
            time,
            schema: id,
            name: b"x".to_vec(),
            columns: vec![odd; 3],
            column_names: vec![b'a'; 64],
        },
        Call::Insert { time, table: DIARY, record_count: 2, uuid, statistics },
        Call::Insert { time, table: id, record_count: odd, uuid, statistics: vec![odd; 12] },
        Call::Delete { time, data_file: 0, uuid, positions: vec![2] },
        Call::Delete { time, data_file: id, uuid, positions: vec![odd, id] },
        Call::DropTable { time, table: DIARY },
        Call::DropTable { time, table: id },
        Call::DropSchema { time, schema: id },
        Call::Expire { ids: vec![0, 1, 2], time },
        Call::Expire { ids: vec![id, odd], time: id },
        Call::Cleanup { t: odd },
        Call::Fresh { time: odd },
    ]
}

/// A reading of every sort, likewise.
pub fn readings(dice: &mut Dice) -> Vec<Reading> {
    let (snapshot, id, odd) = (edge(dice), edge(dice), edge(dice));
    let mut readings = vec![Reading::ByTime { t: odd }, Reading::FindFile { id }];
    for (snapshot, table) in [(5, DIARY), (snapshot, id), (4, id), (snapshot, DIARY)] {
        let scalar = odd as i64;
        readings.extend([
            Reading::Schemas { snapshot },
            Reading::Tables { snapshot, schema: id },
            Reading::Tables { snapshot, schema: 0 },
            Reading::Columns { snapshot, table },
            Reading::TableByName { snapshot, schema: 0, name: b"diary".to_vec() },
            Reading::TableByName { snapshot, schema: id, name: vec![odd as u8] },
            Reading::Files { snapshot, table },
            Reading::FilteredFiles { snapshot, table, column: 2, scalar },
            Reading::FilteredFiles { snapshot, table, column: id, scalar },
            Reading::Rows { snapshot, table },
        ]);
    }
    readings
}
