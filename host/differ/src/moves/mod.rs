//! Lists of moves as strategies: trees of choices that proptest makes from a seed and makes smaller. What a choice comes to is known when it is played.

mod calls;
mod changes;
mod damage;
mod lent;
mod readings;
mod rows;
mod sessions;
mod tables;

use crate::choices::{mostly, one_in, pick, rarely, Pick};
use damage::Damage;
use lent::Lent;
use proptest::array::{uniform32, uniform4};
use proptest::collection::vec;
use proptest::prelude::*;
use proptest::sample::select;
use proptest::strategy::ValueTree;
use proptest::test_runner::{Config, RngAlgorithm, TestRng, TestRunner};
use second::ABSENT;
pub use sessions::Session;
use std::time::Duration;

/// Runs that are lent, Fresh, and what comes after it.
#[derive(Clone, Debug)]
pub struct List {
    pub moves: Vec<Move>,
    pub lent: Lent,
    pub time: u64,
    pub room: Room,
    pub lifted: Option<Lifted>,
    /// Lists that one call plays, each on a copy of the tables as they are somewhere on the way.
    pub sessions: Vec<Session>,
}

/// A call, readings after it, demand 3, and damaged copies of the tables as they then are.
#[derive(Clone, Debug)]
pub struct Move {
    pub damaged: Vec<Damaged>,
    pub readings: Vec<Asked>,
    /// Which of the questions of demand 3 are asked, if any.
    pub questions: Option<Pick>,
    pub raised: Option<Raised>,
    pub call: Option<(calls::Choice, Room)>,
}

/// The answer area of a call.
#[derive(Clone, Copy, Debug)]
pub struct Room {
    pub length: usize,
    pub fill: u64,
}

/// A reading; one with an answer also on an area just as long, and on one too short.
#[derive(Clone, Debug)]
pub struct Asked {
    pub reading: readings::Choice,
    pub room: Room,
    pub is_tight: bool,
}

/// A copy of the tables, damaged, and a call and a reading on it.
#[derive(Clone, Debug)]
pub struct Damaged {
    pub damage: Vec<Damage>,
    pub call: Option<(calls::Choice, Room)>,
    pub reading: Option<(readings::Choice, Room)>,
}

/// How far the id, the schema version and the next ids of the only snapshot are below 2^62.
#[derive(Clone, Debug)]
pub struct Lifted(pub [Option<u64>; 4]);

/// In a list with such numbers: how far the next row of a table is below 2^62.
#[derive(Clone, Copy, Debug)]
pub struct Raised {
    pub table: Pick,
    pub below: u64,
}

fn room() -> impl Strategy<Value = Room> {
    let length = prop_oneof![1 => 0..4_usize, 2 => 0..24_usize, 1 => Just(64)];
    (length, select(&[0, 5, ABSENT][..])).prop_map(|(length, fill)| Room { length, fill })
}

fn asked() -> impl Strategy<Value = Asked> {
    (one_in(4), readings::reading(), room()).prop_map(|(is_tight, reading, room)| Asked { reading, room, is_tight })
}

fn damaged() -> impl Strategy<Value = Damaged> {
    let damage = prop_oneof![5 => vec(mostly(damage::damage()), 1), 1 => vec(mostly(damage::damage()), 1..=3)];
    (mostly((calls::call(), room())), mostly((readings::reading(), room())), damage).prop_map(|(call, reading, damage)| Damaged {
        damage: damage.into_iter().flatten().collect(),
        call,
        reading,
    })
}

fn one_move() -> BoxedStrategy<Move> {
    let raised = (pick(), 0..12_u64).prop_map(|(table, below)| Raised { table, below });
    (vec(damaged(), 0..=3), vec(asked(), 0..=4), rarely(8, pick()), rarely(12, raised), mostly((calls::call(), room())))
        .prop_map(|(damaged, readings, questions, raised, call)| Move { damaged, readings, questions, raised, call })
        .boxed()
}

fn list(moves: impl Strategy<Value = Vec<Move>>) -> impl Strategy<Value = List> {
    let time = prop_oneof![5 => Just(100), 1 => any::<u64>()];
    let lifted = rarely(5, uniform4(proptest::option::weighted(0.66, 0..24_u64)).prop_map(Lifted));
    // When the moves are as small as they get, shrinking tries once more to do without each of the first.
    let kept = uniform32(proptest::bool::weighted(1.0));
    // Chosen last, so that the moves of a seed are the same without them.
    let sessions = vec(sessions::session(), 0..=4);
    (moves, kept, lifted, time, room(), lent::lent(), sessions).prop_map(|(moves, kept, lifted, time, room, lent, sessions)| {
        let kept = kept.into_iter().chain(std::iter::repeat(true));
        let moves = moves.into_iter().zip(kept).filter(|(_, is_kept)| *is_kept).map(|(next, _)| next).collect();
        List { moves, lent, time, room, lifted, sessions }
    })
}

/// Moves in groups, so that shrinking drops many at once: so many groups at most.
pub fn list_up_to(groups: usize) -> impl Strategy<Value = List> {
    list(vec(vec(one_move(), 1..=8), 0..=groups).prop_map(|groups| groups.concat()))
}

/// The list of a seed with just so many moves.
pub fn list_of(seed: u64, count: usize) -> List {
    list(vec(one_move(), count)).new_tree(&mut runner(seed, Duration::ZERO)).expect("no strategy rejects").current()
}

/// Makes the list of a seed, and makes a find smaller for so long at most.
pub fn runner(seed: u64, shrinking: Duration) -> TestRunner {
    // u32::MAX would be proptest's own number.
    let config =
        Config { failure_persistence: None, max_shrink_time: shrinking.as_millis() as u32, max_shrink_iters: u32::MAX - 1, ..Config::default() };
    let mut bytes = [0; 32];
    bytes[..8].copy_from_slice(&seed.to_le_bytes());
    TestRunner::new_with_rng(config, TestRng::from_seed(RngAlgorithm::ChaCha, &bytes))
}
