//! Lists that one call plays where it can't judge the tables once: tables that are sound and not chained (R15), tables that a delete of the list makes unsound,
//! tables of any words. And the diary session, whose tables are chained. Each part of a list must be what its steps are one by one, with the numbers given here.

use crate::call_words::push;
use crate::one_call::Lent;
use crate::play::Pair;
use crate::runs::{FIRST_NAMES, SIZES};
use crate::script::Line;
use crate::step::Step;
use crate::unmarked;
use gukoremo::CallList;
use second::commits::{CREATED_SCHEMA, DELETED_FROM_TABLE, INSERTED_INTO_TABLE};
use second::diary::{bounded, name_places};
use second::dice::Dice;
use second::lent::{NAME_SIZE, RECORD_LIMIT};
use second::types::Type;
use second::{Call, Reading, ABSENT};

/// Words of an answer area: one that every answer has room in, and one that is soon used up.
const AREAS: [usize; 2] = [256, 3];

/// How many tables of any words.
const GARBAGE: u64 = 8;

/// Places of each run, for the diary session too.
const PLACES: [usize; 12] = [10, 3, 3, 4, 4, 4, 8, 8, 4, 3, 3, 4];

/// A list on tables: each step with its number in an area that every answer has room in.
struct Content {
    says: String,
    tables: Pair,
    steps: Vec<(Step, u64)>,
    is_sound_before: bool,
    is_sound_after: bool,
}

/// Plays every part of every list.
pub fn run() -> Result<String, String> {
    let contents = contents()?;
    let mut lists = 0;
    for content in &contents {
        lists += content.play().map_err(|how| format!("unchained: {}: {how}", content.says))?;
    }
    Ok(format!("unchained: {lists} lists on {} tables, sound and not chained, made unsound, of any words, chained, as one by one", contents.len()))
}

fn contents() -> Result<Vec<Content>, String> {
    let gap = || pair(&gap());
    let empty = || pair(&lent(&Default::default()));
    let (grows, breaks, behind) = (grows(), breaks(), behind());
    let mut contents = Vec::new();
    let mut add = |says: &str, tables: Pair, steps: Vec<(Step, u64)>, is_sound_before, is_sound_after| {
        contents.push(Content { says: says.to_string(), tables, steps, is_sound_before, is_sound_after });
    };
    add("calls that leave the gap", gap()?, grows.clone(), true, true);
    add("a delete that makes them unsound, and all calls behind it", gap()?, [grows, vec![breaks.clone()], behind.clone()].concat(), true, false);
    add("an expiry that closes the gap, and the delete", gap()?, [expires(), vec![breaks.clone()], narrows()].concat(), true, true);
    add("a drop that closes the gap", gap()?, drops(), true, true);
    let mut unsound = gap()?;
    unsound.take(&Line::Step(breaks.0))?;
    add("unsound tables", unsound.clone(), behind, false, false);
    add("Fresh on unsound tables", unsound, diary(), false, true);
    add("Fresh on tables with the gap", gap()?, diary(), true, true);
    add("the diary session", empty()?, diary(), false, true);
    for seed in 0..GARBAGE {
        let refused = diary().into_iter().skip(1).map(|(step, _)| (step, 1)).collect();
        add(&format!("tables of any words, seed {seed}"), pair(&garbage(seed, PLACES))?, refused, false, false);
        add(&format!("Fresh on tables of any words, seed {seed}"), pair(&garbage(seed, PLACES))?, diary(), false, true);
        let mut narrow = PLACES;
        narrow[0] = 0;
        let refused = diary().into_iter().enumerate().map(|(i, (step, _))| (step, if i == 0 { 2 } else { 1 })).collect();
        add(&format!("Fresh without a place for a snapshot, seed {seed}"), pair(&garbage(seed, narrow))?, refused, false, false);
    }
    Ok(contents)
}

impl Content {
    /// Each part of the list, on the tables that the steps before it leave: in both areas as one by one, and in the large one with the numbers.
    fn play(&self) -> Result<usize, String> {
        let mut lists = 0;
        let mut before = self.tables.clone();
        expect("before", before.is_sound(), self.is_sound_before)?;
        for start in 0..self.steps.len() {
            for end in start + 1..=self.steps.len() {
                let part = &self.steps[start..end];
                for area in AREAS {
                    let found = Lent::whole(list(part), area).compare(&before, &mut Vec::new())?;
                    let numbers: Vec<u64> = found.steps.iter().map(|(_, outcome)| outcome.number).collect();
                    let wanted: Vec<u64> = part.iter().map(|(_, number)| *number).collect();
                    if area == AREAS[0] && numbers != wanted {
                        return Err(format!("steps {start} to {end} give {numbers:?}, not {wanted:?}"));
                    }
                    lists += 1;
                }
            }
            before.take(&Line::Area { length: AREAS[0], fill: 0 })?;
            before.take(&Line::Step(self.steps[start].0.clone()))?;
        }
        expect("after", before.is_sound(), self.is_sound_after)?;
        Ok(lists)
    }
}

fn expect(when: &str, is_sound: bool, wanted: bool) -> Result<(), String> {
    match is_sound == wanted {
        true => Ok(()),
        false => Err(format!("the tables {when} are {}sound", if is_sound { "" } else { "not " })),
    }
}

fn list(steps: &[(Step, u64)]) -> CallList {
    let mut list = CallList::new();
    steps.iter().for_each(|(step, _)| push(&mut list, step));
    list
}

fn pair(lines: &[Line]) -> Result<Pair, String> {
    let mut pair = Pair::default();
    lines.iter().try_for_each(|line| pair.take(line).map(|_| ()))?;
    Ok(pair)
}

/// Runs with these words in front, names as bytes in words, and their counts.
fn lent(words: &[Vec<u64>; 12]) -> Vec<Line> {
    let mut lines = Vec::new();
    for (run, words) in words.iter().enumerate() {
        lines.push(Line::Lend { run, length: PLACES[run] * SIZES[run], fill: 0 });
        lines.extend(words.iter().enumerate().map(|(index, value)| Line::Set { run, index, value: *value }));
    }
    lines.push(Line::Counts(std::array::from_fn(|run| (words[run].len() / SIZES[run]) as u64)));
    lines
}

/// Any words in runs with so many places, and any counts.
fn garbage(seed: u64, places: [usize; 12]) -> Vec<Line> {
    let mut dice = Dice(seed);
    let mut word = || if dice.one_in(2) { dice.below(8) } else { dice.word() };
    let mut lines = Vec::new();
    for (run, places) in places.into_iter().enumerate() {
        let length = places * SIZES[run];
        lines.push(Line::Lend { run, length, fill: 0 });
        let most = if run < FIRST_NAMES { u64::MAX } else { u64::from(u8::MAX) };
        lines.extend((0..length).map(|index| Line::Set { run, index, value: word() & most }));
    }
    lines.push(Line::Counts(std::array::from_fn(|_| word() % (2 * RECORD_LIMIT as u64))));
    lines
}

/// crates/ducklake/proofs/cases/Gap.antt: "The data file 0 is open and its delete file 1 has ended, so that the delete ends nothing and its new delete file lacks
/// position 0."
fn gap() -> Vec<Line> {
    let snapshot = |id, next_file_id, kind| [id, 0, 1, 2, next_file_id, kind, 1];
    let name = |byte| [vec![u64::from(byte)], vec![0; NAME_SIZE - 1]].concat();
    lent(&[
        [snapshot(1, 1, INSERTED_INTO_TABLE), snapshot(2, 2, DELETED_FROM_TABLE), snapshot(3, 2, CREATED_SCHEMA)].concat(),
        vec![0, 1, ABSENT],
        vec![1, 1, ABSENT, 0, 3],
        vec![1, 1, 1, ABSENT, 0, Type::Int64 as u64, 1],
        vec![0, 1, 1, ABSENT, 3, 0, 0, 1],
        vec![1, 1, 2, 3, 0, 1, 0, 2],
        vec![0],
        vec![0, 1, 0, 0, 0, 0, 0],
        vec![],
        name(b'm'),
        name(b't'),
        name(b'c'),
    ])
}

fn call(call: Call, number: u64) -> (Step, u64) {
    (Step::Call(call), number)
}

fn read(reading: Reading, number: u64) -> (Step, u64) {
    (Step::Reading(reading), number)
}

fn delete(data_file: u64, uuid: u64, positions: &[u64]) -> Call {
    Call::Delete { time: 9, data_file, uuid: (0, uuid), positions: positions.to_vec() }
}

fn insert(table: u64, uuid: u64) -> Call {
    Call::Insert { time: 9, table, record_count: 2, uuid: (0, uuid), statistics: bounded(1, 0, 4, 8).to_vec() }
}

fn create_table(name: &[u8]) -> Call {
    let columns = vec![Type::Int64 as u64, 1];
    Call::CreateTable { time: 9, schema: 0, name: name.to_vec(), columns, column_names: name_places(&["c"]) }
}

/// Every reading, with its number.
fn readings(snapshot: u64, number: u64) -> Vec<(Step, u64)> {
    let table = 1;
    let all = [
        Reading::Schemas { snapshot },
        Reading::Tables { snapshot, schema: 0 },
        Reading::Columns { snapshot, table },
        Reading::TableByName { snapshot, schema: 0, name: b"t".to_vec() },
        Reading::Files { snapshot, table },
        Reading::FilteredFiles { snapshot, table, column: 1, scalar: 5 },
        Reading::Rows { snapshot, table },
        Reading::ByTime { t: 9 },
        Reading::FindFile { id: 0 },
    ];
    all.into_iter().map(|reading| read(reading, number)).collect()
}

/// Accepted calls, and some that are refused, after which the gap is still there: schema 2, table 3, its data file 2 with delete file 3.
fn grows() -> Vec<(Step, u64)> {
    let calls = vec![
        call(Call::CreateSchema { time: 9, name: b"s".to_vec() }, 0),
        call(create_table(b"u"), 0),
        call(create_table(b"t"), 10),
        call(insert(3, 4), 0),
        call(insert(3, 2), 14),
        call(delete(2, 5, &[0]), 0),
        call(delete(2, 6, &[0]), 17),
    ];
    // of a snapshot that is not there yet; by time and the lookup name none
    let early = readings(4, 5)[..7].to_vec();
    [readings(2, 0), early, calls, readings(3, 0)].concat()
}

/// The delete of Gap.antt: it is accepted, and with the gap the tables are unsound then.
fn breaks() -> (Step, u64) {
    call(delete(0, 3, &[1]), 0)
}

/// Every call and every reading, on unsound tables.
fn behind() -> Vec<(Step, u64)> {
    let calls = vec![
        call(Call::CreateSchema { time: 9, name: b"r".to_vec() }, 1),
        call(Call::DropSchema { time: 9, schema: 2 }, 1),
        call(create_table(b"v"), 1),
        call(Call::DropTable { time: 9, table: 1 }, 1),
        call(insert(1, 7), 1),
        call(delete(0, 8, &[2]), 1),
        call(Call::Expire { ids: vec![1], time: 9 }, 1),
        call(Call::Cleanup { t: ABSENT }, 1),
    ];
    [calls, readings(3, 1)].concat()
}

/// The snapshots that show the ended delete file go, and it with them.
fn expires() -> Vec<(Step, u64)> {
    [readings(2, 0), vec![call(Call::Expire { ids: vec![1, 2], time: 9 }, 0)], readings(3, 0)].concat()
}

/// Deletes behind it, and the file handed out.
fn narrows() -> Vec<(Step, u64)> {
    let calls = vec![call(delete(0, 8, &[0]), 0), call(delete(0, 9, &[1]), 17), call(Call::Cleanup { t: ABSENT }, 0), call(insert(1, 2), 0)];
    [readings(4, 0), calls, readings(5, 0)].concat()
}

/// The data file ends with its table.
fn drops() -> Vec<(Step, u64)> {
    let calls = vec![
        call(Call::DropTable { time: 9, table: 1 }, 0),
        call(delete(0, 3, &[1]), 6),
        call(create_table(b"t"), 0),
        call(insert(2, 3), 0),
        call(delete(2, 4, &[1]), 0),
        call(delete(2, 5, &[0]), 0),
    ];
    [readings(3, 0), calls, readings(3, 0)].concat()
}

/// The diary session with the cases, from Fresh on.
fn diary() -> Vec<(Step, u64)> {
    let refused = [(15, 7), (20, 19), (21, 13), (22, 13), (23, 9)];
    let steps = unmarked::lines().into_iter().filter_map(|line| match line {
        Line::Step(step) => Some(step),
        _ => None,
    });
    let number = |i: usize| refused.iter().find(|(at, _)| *at == i).map_or(0, |(_, number)| *number);
    steps.enumerate().map(|(i, step)| (step, number(i))).collect()
}
