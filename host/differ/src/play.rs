//! A list played against one catalogue, or against both with everything compared after every call.

use crate::catalogue::{Catalogue, Second};
use crate::proved::Proved;
use crate::runs::{self, FIRST_NAMES, RUNS};
use crate::script::Line;
use crate::step::Step;
use second::{load, Call, Outcome};

/// The checksum of all runs and the area: FNV-1a of 64 bits over their words and name bytes, each as eight bytes from the lowest.
pub fn checksum(catalogue: &dyn Catalogue, area: &[u64]) -> u64 {
    let mut sum = 0xcbf2_9ce4_8422_2325_u64;
    let mut take = |word: u64| {
        for byte in word.to_le_bytes() {
            sum = (sum ^ u64::from(byte)).wrapping_mul(0x0000_0100_0000_01b3);
        }
    };
    catalogue.each_word(&mut take);
    area.iter().for_each(|word| take(*word));
    sum
}

/// A step on a catalogue.
pub fn step(catalogue: &mut dyn Catalogue, step: &Step, area: &mut [u64]) -> Outcome {
    match step {
        Step::Call(call) => catalogue.perform(call, area),
        Step::Reading(reading) => catalogue.read(reading, area),
    }
}

/// A line that writes runs or counts.
fn write(catalogue: &mut dyn Catalogue, line: &Line) {
    match line {
        Line::Lend { run, length, fill } => catalogue.lend(*run, *length, *fill),
        Line::Set { run, index, value } => catalogue.set(*run, *index, *value),
        Line::Counts(counts) => catalogue.set_counts(runs::counts_of(*counts)),
        _ => {}
    }
}

/// Both catalogues on the same words, and the area that calls are given.
#[derive(Clone, Default)]
pub struct Pair {
    pub proved: Proved,
    pub second: Second,
    area: (usize, u64),
}

/// What a step gave, the same from both, and its area afterwards.
pub struct Played {
    pub outcome: Outcome,
    pub area: Vec<u64>,
}

impl Pair {
    /// Plays a line. A call gives what came of it; an error says in what the two differ.
    pub fn take(&mut self, line: &Line) -> Result<Option<Played>, String> {
        match line {
            Line::Area { length, fill } => self.area = (*length, *fill),
            Line::Step(step) => return self.both(step).map(Some),
            _ => {
                write(&mut self.proved, line);
                write(&mut self.second, line);
            }
        }
        Ok(None)
    }

    fn both(&mut self, what: &Step) -> Result<Played, String> {
        let (length, fill) = self.area;
        let mut area = vec![fill; length];
        let mut other_area = vec![fill; length];
        let deleted = offending(what, &self.second);
        let proved = step(&mut self.proved, what, &mut area);
        let other = step(&mut self.second, what, &mut other_area);
        self.compare(&proved, &other, &deleted)?;
        difference("the answer area", &area, &other_area)?;
        Ok(Played { outcome: proved, area })
    }

    /// The outcome and the tables. Of 17 either place may stand that is an offending one.
    fn compare(&self, proved: &Outcome, other: &Outcome, deleted: &[u64]) -> Result<(), String> {
        let mut expected = *other;
        if proved.number == 17 && other.number == 17 {
            if !deleted.contains(&proved.place) || !deleted.contains(&other.place) {
                return Err(format!("places {} and {} of 17; offending are {deleted:?}", proved.place, other.place));
            }
            expected.place = proved.place;
        }
        if *proved != expected {
            return Err(format!("the outcome: {}, and {} from the second", shown(proved), shown(other)));
        }
        if proved.number == 1 {
            self.compare_lines()?;
        }
        self.compare_tables()
    }

    /// Every word, every byte, and what lies beside the runs.
    pub fn compare_tables(&self) -> Result<(), String> {
        if !self.proved.margins_hold() {
            return Err("words beside the lent runs are not as they were".to_string());
        }
        for (run, words) in runs::word_runs(&self.second.words).into_iter().enumerate() {
            difference(RUNS[run], self.proved.words(run), words)?;
        }
        for (run, bytes) in runs::name_runs(&self.second.words).into_iter().enumerate() {
            let run = FIRST_NAMES + run;
            difference(RUNS[run], self.proved.bytes(run), bytes)?;
        }
        Ok(())
    }

    /// Of tables that are not sound, the line that fails first.
    fn compare_lines(&self) -> Result<(), String> {
        let line = self.proved.first_unsound();
        let other = load(&self.second.words, &self.second.counts).map_or_else(|unsound| u64::from(unsound.rule), |_| 0);
        if line != other {
            return Err(format!("the first unsound line: {line}, and {other} from the second"));
        }
        Ok(())
    }

    /// Whether the compiled check calls the tables sound: a reading by time is then not refused with 1.
    pub fn is_sound(&mut self) -> bool {
        self.proved.read(&second::Reading::ByTime { t: u64::MAX }, &mut [0]).number != 1
    }
}

fn shown(outcome: &Outcome) -> String {
    let counts = runs::counts(&outcome.counts);
    format!("number {} place {} length {} counts {counts:?}", outcome.number, outcome.place, outcome.length)
}

pub fn difference<W: PartialEq + std::fmt::Display>(what: &str, left: &[W], right: &[W]) -> Result<(), String> {
    if left == right {
        return Ok(());
    }
    let place = (0..left.len().max(right.len())).find(|i| left.get(*i) != right.get(*i)).unwrap_or(0);
    let shown = |run: &[W]| run.get(place).map_or("nothing".to_string(), |word| word.to_string());
    Err(format!("{what} at {place}: {}, and {} from the second", shown(left), shown(right)))
}

/// The indexes of positions in a delete's list that are already deleted at the latest snapshot.
pub fn offending(what: &Step, second: &Second) -> Vec<u64> {
    let Step::Call(Call::Delete { data_file, positions, .. }) = what else { return Vec::new() };
    let Ok(catalog) = load(&second.words, &second.counts) else { return Vec::new() };
    let delete_files = catalog.delete_files_at(catalog.latest_id());
    let Some(live) = delete_files.get(data_file).and_then(|id| catalog.delete_files.get(id)) else { return Vec::new() };
    (0..positions.len() as u64).filter(|i| live.positions.contains(&positions[*i as usize])).collect()
}
