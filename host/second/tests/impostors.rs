//! The history must notice a catalogue that does not keep demand 3: the impostors of document 01.

mod common;

use common::{World, UNTOUCHED};
use second::diary;
use second::{perform, read, Call, Counts, History, Outcome, Reading, Words};

type Performs = fn(&mut Words, &Counts, &Call, &mut [u64]) -> Outcome;
type Reads = fn(&Words, &Counts, &Reading, &mut [u64]) -> Outcome;

/// Plays the diary session with expiries and cleanups on a catalogue, and gives what the history
/// has to say of it.
fn noticed(performs: Performs, reads: Reads) -> Result<(), String> {
    let mut world = World::fresh(16);
    let mut history = History::from_fresh(100);
    let after = [
        Call::Expire { ids: vec![4], time: 160 },
        Call::Cleanup { t: 161 },
        Call::DropTable { time: 170, table: 1 },
        Call::Expire { ids: vec![0, 1, 5], time: 180 },
        Call::Cleanup { t: 190 },
    ];
    for call in diary::calls().into_iter().skip(1).chain(after) {
        let mut area = [UNTOUCHED; 9];
        let outcome = performs(&mut world.words, &world.counts, &call, &mut area);
        world.counts = outcome.counts;
        history.follow(&call, &outcome, &area)?;
        let asked = &mut |reading: &Reading, area: &mut [u64]| {
            reads(&world.words, &world.counts, reading, area)
        };
        history.check(asked, &world.counts, &history.questions(), world.scheduled())?;
    }
    Ok(())
}

fn accepted(counts: &Counts) -> Outcome {
    Outcome { number: 0, place: 0, length: 0, counts: *counts }
}

#[test]
fn the_catalogue_itself_passes() {
    assert_eq!(noticed(perform, read), Ok(()));
}

#[test]
fn a_cleanup_that_never_finds_anything() {
    let performs: Performs = |words, counts, call, area| match call {
        Call::Cleanup { .. } => accepted(counts),
        _ => perform(words, counts, call, area),
    };
    assert!(noticed(performs, read).is_err());
}

#[test]
fn an_expiry_that_does_nothing() {
    let performs: Performs = |words, counts, call, area| match call {
        Call::Expire { .. } => accepted(counts),
        _ => perform(words, counts, call, area),
    };
    assert!(noticed(performs, read).is_err());
}

#[test]
fn a_catalogue_whose_readings_always_refuse() {
    let reads: Reads = |_, counts, _, _| Outcome { number: 1, ..accepted(counts) };
    assert!(noticed(perform, reads).is_err());
}

#[test]
fn a_row_list_that_is_always_empty() {
    let reads: Reads = |words, counts, reading, area| match reading {
        Reading::Rows { .. } => accepted(counts),
        _ => read(words, counts, reading, area),
    };
    assert!(noticed(perform, reads).is_err());
}

#[test]
fn commits_that_work_once_and_then_only_add_snapshots() {
    let performs: Performs = |words, counts, call, area| match call {
        Call::Delete { time, .. } => {
            let mut named = perform(words, counts, &name(*time), area);
            named.counts.schemas -= 1;
            named
        }
        _ => perform(words, counts, call, area),
    };
    assert!(noticed(performs, read).is_err());
}

fn name(time: u64) -> Call {
    Call::CreateSchema { time, name: format!("s{time}").into_bytes() }
}

#[test]
fn a_length_made_up() {
    let reads: Reads = |words, counts, reading, area| {
        let outcome = read(words, counts, reading, area);
        Outcome { length: outcome.length.saturating_sub(1), ..outcome }
    };
    assert!(noticed(perform, reads).is_err());
}

/// "Giving a delete file only the new positions."
#[test]
fn a_delete_file_with_only_the_new_positions() {
    let performs: Performs = |words, counts, call, area| {
        let outcome = perform(words, counts, call, area);
        match call {
            Call::Delete { time: 150, .. } => {
                words.positions[1] = 0;
                words.delete_files[8 + 5] = 1;
                let counts = Counts { positions: 2, ..outcome.counts };
                Outcome { counts, ..outcome }
            }
            _ => outcome,
        }
    };
    assert!(noticed(performs, read).is_err());
}

/// "Counting a record live at its own end": rows read a snapshot early.
#[test]
fn a_record_live_at_its_own_end() {
    let reads: Reads = |words, counts, reading, area| match reading {
        Reading::Rows { snapshot: 5, table } => {
            read(words, counts, &Reading::Rows { snapshot: 4, table: *table }, area)
        }
        _ => read(words, counts, reading, area),
    };
    assert!(noticed(perform, reads).is_err());
}
