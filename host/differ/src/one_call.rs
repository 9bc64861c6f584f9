//! A list of calls and readings as one call plays it, `catalog_play`: on the same tables it must leave, answer and tell what they do one by one.

use crate::call_words::{second_list, step_at};
use crate::catalogue::Catalogue;
use crate::play::{self, difference, Pair};
use crate::runs;
use crate::script::Line;
use crate::step::Step;
use crate::tally::Tally;
use gukoremo::outcome::ALREADY_DELETED;
use gukoremo::session::{CallRecord, TOLD_SIZE};
use gukoremo::CallList;
use second::{Outcome, Session};
use std::fmt::{self, Display, Formatter};

/// What the words of the answer area, and those for what is told, are before.
const FILL: u64 = 5;

/// What a list is played with: the words of its answer area, and those for what is told.
#[derive(Clone, Debug)]
pub struct Lent {
    pub list: CallList,
    pub area: usize,
    pub told: usize,
}

/// What its steps leave and give one by one; of each the positions that 17 may name, and the words of all answers.
struct OneByOne {
    pair: Pair,
    steps: Vec<(Step, Outcome)>,
    offending: Vec<Vec<u64>>,
    answers: Vec<u64>,
}

/// What came of it both ways: the tables, each step with its outcome, the words of all answers.
pub struct Compared {
    pub pair: Pair,
    pub steps: Vec<(Step, Outcome)>,
    pub answered: usize,
}

impl Lent {
    /// As much for what is told as the list can want.
    pub fn whole(list: CallList, area: usize) -> Lent {
        let told = list.len() * TOLD_SIZE;
        Lent { list, area, told }
    }

    /// Plays it on the tables one by one, by both implementations, and as one call; everything must be the same. Where the two differ on a step, the lines up
    /// to it are added.
    pub fn compare(&self, before: &Pair, lines: &mut Vec<Line>) -> Result<Compared, String> {
        let start = lines.len();
        let found = self.one_by_one(before, lines)?;
        lines.truncate(start);
        self.as_one(before, found).map_err(|how| format!("{self}: {how}"))
    }

    fn one_by_one(&self, before: &Pair, lines: &mut Vec<Line>) -> Result<OneByOne, String> {
        let mut found = OneByOne { pair: before.clone(), steps: Vec::new(), offending: Vec::new(), answers: Vec::new() };
        for step in (0..self.told / TOLD_SIZE).map_while(|i| step_at(&self.list, i)) {
            found.offending.push(play::offending(&step, &found.pair.second));
            let (area, line) = (Line::Area { length: self.area - found.answers.len(), fill: FILL }, Line::Step(step.clone()));
            lines.extend([area.clone(), line.clone()]);
            found.pair.take(&area)?;
            let played = found.pair.take(&line)?.expect("a step is played");
            found.answers.extend(&played.area[..played.outcome.length]);
            found.steps.push((step, played.outcome));
        }
        Ok(found)
    }

    fn as_one(&self, before: &Pair, found: OneByOne) -> Result<Compared, String> {
        let OneByOne { mut pair, steps, offending, mut answers } = found;
        let answered = answers.len();
        answers.resize(self.area, FILL);
        let mut proved = before.proved.clone();
        let (mut area, mut told) = (vec![FILL; self.area], vec![FILL; self.told]);
        let session = proved.play(&self.list, &mut area, &mut told);
        if session != (steps.len(), answered) {
            return Err(format!("{session:?} records and words of answers, and {:?} one by one", (steps.len(), answered)));
        }
        difference("counts of the list", &runs::counts(&proved.counts()), &runs::counts(&pair.second.counts))?;
        difference("the list's answer area", &area, &answers)?;
        difference("what is told", &told, &expected(&steps, &offending, &told))?;
        pair.proved = proved;
        pair.compare_tables()?;
        let found = Compared { pair, steps, answered };
        self.by_the_second(before, &found, &answers, &offending)?;
        Ok(found)
    }

    /// The second implementation's own call for lists must do the same.
    fn by_the_second(&self, before: &Pair, found: &Compared, answers: &[u64], offending: &[Vec<u64>]) -> Result<(), String> {
        let mut tables = before.second.clone();
        let (mut area, mut told) = (vec![FILL; self.area], vec![FILL; self.told]);
        let session = second::play(&mut tables.words, &tables.counts, second_list(&self.list), &mut area, &mut told);
        let expected_session = Session { played: found.steps.len(), answered: found.answered, counts: found.pair.second.counts };
        if session != expected_session {
            return Err(format!("{session:?} from the second's list, and {expected_session:?} one by one"));
        }
        difference("the second's answer area", &area, answers)?;
        difference("what the second tells", &told, &expected(&found.steps, offending, &told))?;
        match tables.words == found.pair.second.words {
            true => Ok(()),
            false => Err("the second's list leaves other tables than its steps one by one".to_string()),
        }
    }
}

impl Compared {
    /// Adds to what was played: a list, and each of its steps with the number that it gave.
    pub fn count(&self, tally: &mut Tally) {
        tally.one_calls += 1;
        tally.in_one_call += self.steps.len() as u64;
        self.steps.iter().for_each(|(step, outcome)| tally.meet(step, outcome.number));
    }
}

/// What must be told, and the rest as it was. Of 17 any offending place may be.
fn expected(steps: &[(Step, Outcome)], offending: &[Vec<u64>], told: &[u64]) -> Vec<u64> {
    let mut words = Vec::new();
    for ((_, outcome), offending) in steps.iter().zip(offending) {
        let place = told[words.len() + 1];
        let is_right = outcome.number == ALREADY_DELETED && offending.contains(&place);
        words.extend([outcome.number, if is_right { place } else { outcome.place }, outcome.length as u64]);
    }
    words.resize(told.len(), FILL);
    words
}

/// On one line: a find is printed with it.
impl Display for Lent {
    fn fmt(&self, f: &mut Formatter<'_>) -> fmt::Result {
        let Lent { list: CallList { calls, lists, names }, area, told } = self;
        write!(f, "played as one, with {area} words of area and {told} for what is told, the records")?;
        calls.chunks(CallRecord::SIZE).try_for_each(|record| write!(f, " {record:?}"))?;
        write!(f, ", lists {lists:?}, names {names:?}")
    }
}
