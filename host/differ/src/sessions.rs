//! The calls and readings of written and random lists, in lists that one call plays: as they stand, and bent in every way.

use crate::bends::{Bend, WAYS};
use crate::call_words::{push, step_at};
use crate::choices::Pick;
use crate::one_call::Lent;
use crate::play::Pair;
use crate::script::{self, Line};
use crate::step::Step;
use crate::tally::Tally;
use crate::{conformance, fuzz, moves, player};
use gukoremo::outcome::SHORT_ANSWER_AREA;
use gukoremo::session::{CallRecord, TOLD_SIZE};
use gukoremo::CallList;
use second::dice::Dice;
use second::Call;

/// Calls of a random list; with its readings it has some three times as many steps.
const CALLS: usize = 40;

/// Steps of the lists that it is cut into, by turns.
const LENGTHS: [usize; 7] = [3, 1, 21, 8, CALLS, 5, 13];

/// The most words of an answer area that are lent; the rows of a large file do not fit in.
const MOST_ROOM: usize = 1 << 12;

#[derive(Default)]
struct Sessions {
    pair: Pair,
    /// The steps since the tables were last written otherwise.
    list: CallList,
    lists: usize,
    tally: Tally,
}

/// Plays the lists of a folder, and so many random ones, cut into lists of several calls and readings.
pub fn run(path: &str, count: &str) -> Result<String, String> {
    let mut sessions = Sessions::default();
    for (name, text) in conformance::lists(path)? {
        let lines = script::parse(&text).map_err(|how| format!("{name}:{how}"))?;
        sessions.play(lines.into_iter().map(|(_, line)| line)).map_err(|how| format!("{name}: {how}"))?;
    }
    for seed in 0..fuzz::number(count)? {
        let (_, lines) = player::play_alone(&moves::list_of(seed, CALLS))?;
        sessions.play(lines).map_err(|how| format!("the random list of seed {seed}: {how}"))?;
    }
    sessions.said()
}

impl Sessions {
    /// Plays the lines of a list, from lent runs on. Fresh begins another list.
    fn play(&mut self, lines: impl IntoIterator<Item = Line>) -> Result<(), String> {
        self.pair = Pair::default();
        for line in lines {
            match &line {
                Line::Area { .. } | Line::Given(_) | Line::Sum(_) => continue,
                Line::Step(step) => {
                    let is_fresh = matches!(step, Step::Call(Call::Fresh { .. }));
                    if is_fresh || self.list.len() == LENGTHS[self.lists % LENGTHS.len()] {
                        self.end()?;
                    }
                    push(&mut self.list, step);
                    if step_at(&self.list, self.list.len() - 1).as_ref() != Some(step) {
                        return Err(format!("the record is another step's than {line}"));
                    }
                }
                _ => {
                    self.end()?;
                    self.pair.take(&line)?;
                }
            }
        }
        self.end()
    }

    /// Plays the steps so far as a list, as it stands and bent in each way, each time on the tables as they are; they go on from the first.
    fn end(&mut self) -> Result<(), String> {
        let list = std::mem::take(&mut self.list);
        if list.is_empty() {
            return Ok(());
        }
        let room = self.pair.proved.room_for(&list);
        let whole = Lent::whole(list, room.min(MOST_ROOM));
        // As it stands: with a record and a place for what is told that are not whole.
        let mut ragged = whole.clone();
        ragged.list.calls.extend_from_within(..CallRecord::SIZE - 1);
        ragged.told += TOLD_SIZE - 1;
        let found = ragged.compare(&self.pair, &mut Vec::new())?;
        found.count(&mut self.tally);
        if room <= MOST_ROOM && found.steps.iter().any(|(_, outcome)| outcome.number == SHORT_ANSWER_AREA) {
            return Err(format!("{ragged}: an answer has no room, and {room} words were to be enough"));
        }
        let mut dice = Dice(self.lists as u64);
        let mut pick = || Pick(dice.word() as u8);
        for way in 0..WAYS.len() {
            let bend = Bend { way, record: pick(), which: pick(), how: pick() };
            if let Some(bent) = bend.on(&whole, found.answered) {
                let found = bent.lent.compare(&self.pair, &mut Vec::new())?;
                found.count(&mut self.tally);
                self.tally.bent[way] += u64::from(bent.showed(&bend, &found)?);
            }
        }
        self.pair = found.pair;
        self.lists += 1;
        Ok(())
    }

    /// What was played; an error where a call did not give some number in a list, or where a bend never showed.
    fn said(&self) -> Result<String, String> {
        if let Some((name, number)) = self.tally.unmet() {
            return Err(format!("sessions: no {name} in a list gave {number}"));
        }
        if let Some(how) = self.tally.unbent() {
            return Err(format!("sessions: no list {how}"));
        }
        let Tally { in_one_call, .. } = self.tally;
        let lists = self.lists;
        Ok(format!("sessions: {in_one_call} calls and readings in lists, as one by one: {lists} lists as they stand, {}", self.tally.bends()))
    }
}
