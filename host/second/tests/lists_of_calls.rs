//! Demand 3 on lists of calls made by dice: commits, expiries and cleanups, refused ones too.

mod common;

use std::collections::BTreeSet;

use common::{World, UNTOUCHED};
use second::diary;
use second::dice::calls::any_call;
use second::dice::damage::litter;
use second::dice::Dice;
use second::{load, read, Call, Counts, History, Reading, Words};

/// Asks some of the questions, or all.
fn check(world: &World, history: &History, dice: Option<&mut Dice>) {
    let mut questions = history.questions();
    if let Some(dice) = dice {
        let share = 1 + questions.len() as u64 / 60;
        questions.retain(|_| dice.one_in(share));
    }
    let asked =
        &mut |reading: &Reading, area: &mut [u64]| read(&world.words, &world.counts, reading, area);
    let checked = history.check(asked, &world.counts, &questions, world.scheduled());
    assert_eq!(checked, Ok(()));
}

/// Plays a list of calls from a fresh catalogue, on tables full of old words, and gives the numbers
/// that its calls gave.
fn play(seed: u64, places: &Counts, length: usize) -> BTreeSet<u64> {
    let mut dice = Dice(seed);
    let mut world = World { words: Words::lend(places), counts: Counts::default() };
    litter(&mut world.words, &mut dice);
    world.counts.columns = dice.index(99);
    world.must(&Call::Fresh { time: 100 });
    let mut history = History::from_fresh(100);
    let mut numbers = BTreeSet::new();
    for _ in 0..length {
        let catalog = load(&world.words, &world.counts).expect("sound tables stay sound");
        let call = any_call(&mut dice, &catalog);
        let mut area = vec![UNTOUCHED; dice.index(20)];
        let outcome = world.call_on(&call, &mut area);
        numbers.insert(outcome.number);
        assert_eq!(history.follow(&call, &outcome, &area), Ok(()));
        check(&world, &history, Some(&mut dice));
    }
    check(&world, &history, None);
    numbers
}

#[test]
fn with_room() {
    let mut numbers = BTreeSet::new();
    for seed in 0..25 {
        numbers.extend(play(seed, &Counts::of_each(200), 60));
    }
    // Every refusal that calls on sound tables with room can meet, but 4 and those of readings.
    let met = [0, 3, 5, 6, 8, 9, 10, 11, 12, 13, 14, 15, 16, 17, 18, 19];
    assert_eq!(numbers, BTreeSet::from(met));
}

#[test]
fn with_little_room() {
    let mut numbers = BTreeSet::new();
    for seed in 1_000..1_025 {
        let places = Counts {
            snapshots: 12,
            schemas: 4,
            tables: 5,
            columns: 9,
            data_files: 6,
            delete_files: 5,
            positions: 12,
            statistics: 10,
            scheduled: 5,
        };
        numbers.extend(play(seed, &places, 60));
    }
    assert!(numbers.contains(&0) && numbers.contains(&2));
}

/// The diary session and what follows it, call by call.
#[test]
fn the_diary() {
    let mut world = World::fresh(16);
    let mut history = History::from_fresh(100);
    let mut calls = diary::calls();
    calls.remove(0);
    calls.extend([
        Call::Expire { ids: vec![4], time: 160 },
        Call::Cleanup { t: 160 },
        Call::Cleanup { t: 161 },
        Call::Expire { ids: vec![5], time: 165 },
        Call::DropTable { time: 170, table: 1 },
        Call::Expire { ids: vec![0, 1, 2, 3, 5], time: 180 },
        Call::Cleanup { t: 181 },
    ]);
    for call in calls {
        let mut area = [UNTOUCHED; 9];
        let outcome = world.call_on(&call, &mut area);
        assert_eq!(history.follow(&call, &outcome, &area), Ok(()));
        check(&world, &history, None);
    }
    assert_eq!(history.handed_out().collect::<Vec<_>>(), [0, 1, 2, 3]);
}
