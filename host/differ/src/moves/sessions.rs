//! Lists that one call plays, by choices: calls and readings, each chosen on what those before it leave, with Fresh in front or without, bent or not.

use super::damage::{damage, Damage};
use super::{calls, readings};
use crate::bends::{Bend, WAYS};
use crate::choices::{pick, rarely, Pick};
use crate::step::Step;
use proptest::collection::vec;
use proptest::prelude::*;
use second::Catalog;

#[derive(Clone, Debug)]
pub struct Session {
    pub asked: Vec<Asked>,
    /// How many of the moves come after it.
    pub before_last: Pick,
    /// The time of Fresh, if it is the first.
    pub fresh: Option<u64>,
    /// What is damaged of the tables that it is played on.
    pub damage: Option<Damage>,
    pub area: usize,
    pub bend: Option<Bend>,
}

#[derive(Clone, Debug)]
pub enum Asked {
    Reading(readings::Choice),
    Call(calls::Choice),
}

impl Asked {
    /// The step on the catalogue as it is.
    pub fn on(&self, catalog: &Catalog) -> Step {
        match self {
            Asked::Reading(reading) => reading.on(catalog),
            Asked::Call(call) => call.on(catalog),
        }
    }
}

fn asked() -> impl Strategy<Value = Asked> {
    prop_oneof![readings::reading().prop_map(Asked::Reading), calls::call().prop_map(Asked::Call)]
}

fn bend() -> impl Strategy<Value = Bend> {
    (0..WAYS.len(), pick(), pick(), pick()).prop_map(|(way, record, which, how)| Bend { way, record, which, how })
}

pub fn session() -> BoxedStrategy<Session> {
    let area = prop_oneof![1 => 0..24_usize, 1 => 0..200_usize, 1 => Just(1_000)];
    let fresh = prop_oneof![4 => Just(100), 1 => any::<u64>()];
    (vec(asked(), 0..=12), pick(), rarely(3, fresh), rarely(8, damage()), area, proptest::option::weighted(0.8, bend()))
        .prop_map(|(asked, before_last, fresh, damage, area, bend)| Session { asked, before_last, fresh, damage, area, bend })
        .boxed()
}
