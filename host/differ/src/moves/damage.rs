//! Damage to tables by choices: a word, a count, a swap, a copied UUID, a moved position, a name, a life, a length.

use super::changes::BYTES;
use crate::catalogue::Second;
use crate::choices::{near, one_in, pick, Near, Pick};
use crate::runs::{self, COLUMNS, DATA_FILES, DELETE_FILES, FIRST_NAMES, POSITIONS, SCHEDULED, SCHEMAS, SIZES, SNAPSHOTS, TABLES};
use crate::script::Line;
use proptest::prelude::*;
use proptest::sample::select;
use second::lent::NAME_SIZE;
use second::ABSENT;

/// The words of begin and end in the runs that have lives.
const LIVES: [(usize, usize); 5] = [(SCHEMAS, 1), (TABLES, 1), (COLUMNS, 2), (DATA_FILES, 2), (DELETE_FILES, 2)];

/// The first word of a UUID in the runs that have one.
const UUIDS: [(usize, usize); 3] = [(DATA_FILES, 6), (DELETE_FILES, 6), (SCHEDULED, 1)];

#[derive(Clone, Debug)]
pub enum Damage {
    /// A word of a used record, or of the first that is not.
    Word {
        run: Pick,
        record: Pick,
        field: Pick,
        is_past: bool,
        to: Near,
    },
    Count {
        run: Pick,
        to: Near,
    },
    /// Two records, with their names or without.
    SwapRecords {
        run: Pick,
        records: (Pick, Pick),
        without_names: bool,
    },
    SwapWords {
        run: Pick,
        words: [(Pick, Pick); 2],
    },
    /// Both words mostly; one alone leaves the UUIDs different.
    CopyUuid {
        from: (Pick, Pick),
        to: (Pick, Pick),
        words: (usize, usize),
    },
    /// A position and another one: swapped, copied, or the first moved.
    Position {
        positions: (Pick, Pick),
        how: Moved,
    },
    NameByte {
        run: Pick,
        record: Pick,
        byte: Pick,
        to: u8,
    },
    CopyName {
        run: Pick,
        records: (Pick, Pick),
    },
    /// A begin or an end becomes a retained id, one beside it, or ABSENT.
    Life {
        run: Pick,
        record: Pick,
        end: usize,
        snapshot: Option<(Pick, u64)>,
    },
    /// A field of one record becomes that of another.
    CopyField {
        run: Pick,
        records: (Pick, Pick),
        field: Pick,
    },
    /// A run is lent again with another length, and what it held.
    Cut {
        run: usize,
        length: Length,
    },
}

#[derive(Clone, Copy, Debug)]
pub enum Moved {
    Up,
    Down,
    Copied,
    Swapped,
}

#[derive(Clone, Copy, Debug)]
pub enum Length {
    Used,
    OneLess,
    RecordMore,
    Any(Pick),
}

fn two() -> impl Strategy<Value = (Pick, Pick)> {
    (pick(), pick())
}

fn words_and_counts() -> impl Strategy<Value = Damage> {
    let word = (pick(), pick(), pick(), one_in(16), near());
    let count = (pick(), near());
    let field = (pick(), two(), pick());
    let life = (pick(), pick(), 0..2_usize, proptest::option::weighted(0.75, (pick(), 0..3_u64)));
    prop_oneof![
        3 => word.prop_map(|(run, record, field, is_past, to)| Damage::Word { run, record, field, is_past, to }),
        1 => count.prop_map(|(run, to)| Damage::Count { run, to }),
        2 => field.prop_map(|(run, records, field)| Damage::CopyField { run, records, field }),
        2 => life.prop_map(|(run, record, end, snapshot)| Damage::Life { run, record, end, snapshot }),
    ]
}

fn swaps_and_copies() -> impl Strategy<Value = Damage> {
    let words = prop_oneof![6 => Just((0, 2)), 1 => Just((0, 1)), 1 => Just((1, 2))];
    let uuid = (two(), two(), words);
    prop_oneof![
        1 => (pick(), two(), one_in(4)).prop_map(|(run, records, without_names)| Damage::SwapRecords { run, records, without_names }),
        1 => (pick(), [two(), two()]).prop_map(|(run, words)| Damage::SwapWords { run, words }),
        2 => uuid.prop_map(|(from, to, words)| Damage::CopyUuid { from, to, words }),
        2 => (two(), select(&[Moved::Up, Moved::Down, Moved::Copied, Moved::Swapped][..]))
            .prop_map(|(positions, how)| Damage::Position { positions, how }),
    ]
}

fn names_and_lengths() -> impl Strategy<Value = Damage> {
    let length = prop_oneof![Just(Length::Used), Just(Length::OneLess), Just(Length::RecordMore), pick().prop_map(Length::Any)];
    prop_oneof![
        4 => (pick(), pick(), pick(), select(BYTES)).prop_map(|(run, record, byte, to)| Damage::NameByte { run, record, byte, to }),
        4 => (pick(), two()).prop_map(|(run, records)| Damage::CopyName { run, records }),
        1 => (0..SIZES.len(), length).prop_map(|(run, length)| Damage::Cut { run, length }),
    ]
}

pub fn damage() -> impl Strategy<Value = Damage> {
    prop_oneof![8 => words_and_counts(), 6 => swaps_and_copies(), 2 => names_and_lengths()]
}

fn used(tables: &Second, run: usize) -> usize {
    let used = runs::counts(&tables.counts)[runs::table_of(run)] as usize;
    used.min(runs::length(&tables.words, run) / SIZES[run])
}

/// A run that has used records, of some.
fn used_run(tables: &Second, pick: Pick, of: std::ops::Range<usize>) -> Option<usize> {
    pick.of(&of.filter(|run| used(tables, *run) > 0).collect::<Vec<usize>>())
}

fn value(tables: &Second, run: usize, index: usize) -> u64 {
    runs::word(&tables.words, run, index).unwrap_or(0)
}

/// The line that copies a word.
fn copy(tables: &Second, from: (usize, usize), to: (usize, usize)) -> Line {
    Line::Set { run: to.0, index: to.1, value: value(tables, from.0, from.1) }
}

/// The lines that write one record's words over another's.
fn copy_record(tables: &Second, run: usize, from: usize, to: usize) -> impl Iterator<Item = Line> + '_ {
    let size = SIZES[run];
    (0..size).map(move |word| copy(tables, (run, from * size + word), (run, to * size + word)))
}

/// The first word of a field that some runs have, in one of their used records.
fn place_of(tables: &Second, fields: &[(usize, usize)], (run, record): (Pick, Pick)) -> Option<(usize, usize)> {
    let fields: Vec<(usize, usize)> = fields.iter().copied().filter(|(run, _)| used(tables, *run) > 0).collect();
    let (run, word) = run.of(&fields)?;
    Some((run, record.below(used(tables, run)) * SIZES[run] + word))
}

impl Damage {
    /// The lines that do it to the tables as they are; none where there is nothing of the sort.
    pub fn on(&self, tables: &Second) -> Vec<Line> {
        self.lines(tables).unwrap_or_default()
    }

    fn lines(&self, tables: &Second) -> Option<Vec<Line>> {
        let two = |run: usize, (one, other): (Pick, Pick)| (one.below(used(tables, run)), other.below(used(tables, run)));
        Some(match *self {
            Damage::Word { run, record, field, is_past, to } => {
                let run = used_run(tables, run, 0..FIRST_NAMES)?;
                let record = if is_past { used(tables, run) } else { record.below(used(tables, run)) };
                let index = record * SIZES[run] + field.below(SIZES[run]);
                vec![Line::Set { run, index, value: to.to(value(tables, run, index)) }]
            }
            Damage::Count { run, to } => {
                let mut counts = runs::counts(&tables.counts);
                let count = &mut counts[run.below(9)];
                *count = to.to(*count);
                vec![Line::Counts(counts)]
            }
            Damage::SwapRecords { run, records, without_names } => {
                let run = used_run(tables, run, 0..FIRST_NAMES)?;
                let (one, other) = two(run, records);
                let names = (FIRST_NAMES..SIZES.len()).find(|names| runs::table_of(*names) == run && !without_names);
                let swap = |run: usize| copy_record(tables, run, one, other).chain(copy_record(tables, run, other, one));
                [Some(run), names].into_iter().flatten().flat_map(swap).collect()
            }
            Damage::SwapWords { run, words } => {
                let run = used_run(tables, run, 0..FIRST_NAMES)?;
                let [one, other] = words.map(|(record, field)| (run, record.below(used(tables, run)) * SIZES[run] + field.below(SIZES[run])));
                vec![copy(tables, one, other), copy(tables, other, one)]
            }
            Damage::CopyUuid { from, to, words: (first, end) } => {
                let ((from, from_word), (to, to_word)) = (place_of(tables, &UUIDS, from)?, place_of(tables, &UUIDS, to)?);
                (first..end).map(|word| copy(tables, (from, from_word + word), (to, to_word + word))).collect()
            }
            Damage::Position { positions, how } => {
                let (at, other) = two(used_run(tables, positions.0, POSITIONS..POSITIONS + 1)?, positions);
                let here = value(tables, POSITIONS, at);
                let set = |index: usize, value: u64| Line::Set { run: POSITIONS, index, value };
                match how {
                    Moved::Up => vec![set(at, here.wrapping_add(1))],
                    Moved::Down => vec![set(at, here.wrapping_sub(1))],
                    Moved::Copied => vec![set(other, here)],
                    Moved::Swapped => vec![set(at, value(tables, POSITIONS, other)), set(other, here)],
                }
            }
            Damage::NameByte { run, record, byte, to } => {
                let run = used_run(tables, run, FIRST_NAMES..SIZES.len())?;
                let index = record.below(used(tables, run)) * NAME_SIZE + byte.below(NAME_SIZE);
                vec![Line::Set { run, index, value: u64::from(to) }]
            }
            Damage::CopyName { run, records } => {
                let run = used_run(tables, run, FIRST_NAMES..SIZES.len())?;
                let (from, to) = two(run, records);
                copy_record(tables, run, from, to).collect()
            }
            Damage::Life { run, record, end, snapshot } => {
                let (run, begin) = place_of(tables, &LIVES, (run, record))?;
                let id = |pick: Pick| value(tables, SNAPSHOTS, pick.below(used(tables, SNAPSHOTS)) * SIZES[SNAPSHOTS]);
                let value = snapshot.map_or(ABSENT, |(pick, later)| id(pick).wrapping_add(later).wrapping_sub(1));
                vec![Line::Set { run, index: begin + end, value }]
            }
            Damage::CopyField { run, records, field } => {
                let run = used_run(tables, run, 0..FIRST_NAMES)?;
                let ((from, to), field) = (two(run, records), field.below(SIZES[run]));
                vec![copy(tables, (run, from * SIZES[run] + field), (run, to * SIZES[run] + field))]
            }
            Damage::Cut { run, length } => {
                let (before, used) = (runs::length(&tables.words, run), used(tables, run) * SIZES[run]);
                let length = match length {
                    Length::Used => used,
                    Length::OneLess => used.saturating_sub(1),
                    Length::RecordMore => used + SIZES[run],
                    Length::Any(pick) => pick.below(before + 2),
                };
                let kept = (0..length.min(before)).filter(|index| value(tables, run, *index) != 0);
                let held = kept.map(|index| copy(tables, (run, index), (run, index)));
                std::iter::once(Line::Lend { run, length, fill: 0 }).chain(held).collect()
            }
        })
    }
}
