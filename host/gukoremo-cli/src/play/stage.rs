//! What a script plays on: the runs, the counts and the answer area.

use super::calls;
use super::line::{self, Arguments, Fault, Word};
use crate::runs::{self, Run, RunView};
use gukoremo::number::NAME_SIZE;
use gukoremo::session::TOLD_SIZE;
use gukoremo::{raw, CallList, Counts, Lend, OwnedTables};
use std::fmt::Display;
use std::io::Write;

pub struct Stage {
    pub tables: OwnedTables,
    pub counts: Counts,
    pub area: Vec<u64>,
    /// the line of the last call or list
    answer: String,
    /// the list that has begun and not ended
    pub list: Option<CallList>,
}

impl Default for Stage {
    fn default() -> Stage {
        Stage { tables: OwnedTables::default(), counts: Counts::NONE, area: Vec::new(), answer: String::new(), list: None }
    }
}

/// The longest run or area that a script may lend: four times the rows of the largest file.
const LONGEST: usize = 1 << 22;

impl Stage {
    pub fn play(&mut self, words: &[Word<'_>], out: &mut dyn Write) -> Result<(), Fault> {
        let mut rest = words.iter();
        let command = match rest.next() {
            None => return Ok(()),
            Some(Word::One(command)) => *command,
            Some(Word::List(_)) => return Err("a line begins with a command, not with a list".to_string().into()),
        };
        let mut given = Arguments { command, rest };
        if self.list.is_some() && ["lend", "set", "counts", "area", "dump", "=", "sum", "list"].contains(&command) {
            return Err(format!("{command} stands within a list, which has calls alone").into());
        }
        match command {
            "lend" => self.lend(&mut given)?,
            "set" => self.set(&mut given)?,
            "counts" => self.count(&mut given)?,
            "area" => {
                let length = length(&mut given)?;
                let fill = if given.rest.len() > 0 { given.word("FILL")? } else { 0 };
                given.end()?;
                self.area = vec![fill; length];
            }
            "dump" => {
                given.end()?;
                self.dump(out)?;
            }
            "=" => self.compare(&mut given)?,
            "sum" => {
                let said = given.text("HEXADECIMAL")?;
                given.end()?;
                let sum = format!("{:016x}", self.sum());
                if said != sum {
                    return Err(format!("the sum of the runs and the area is {sum}, and not {said}").into());
                }
            }
            "list" => {
                given.end()?;
                self.list = Some(CallList::new());
            }
            "end" => {
                given.end()?;
                let list = self.list.take().ok_or_else(|| "no list has begun".to_string())?;
                self.play_list(&list, out)?;
            }
            _ => {
                let call = calls::read(&mut given)?.ok_or_else(|| format!("'{command}' is no command"))?;
                match &mut self.list {
                    Some(list) => call.push(list),
                    None => {
                        let outcome = call.play(self);
                        self.counts = outcome.counts;
                        let told = format!("{} {} {}", outcome.number, outcome.place, outcome.length);
                        self.answer = joined(&told, self.count_words().chain(self.area.iter().copied().take(outcome.length)));
                        writeln!(out, "{}", self.answer)?;
                    }
                }
            }
        }
        Ok(())
    }

    /// A list as one call: a line for each that is played, its number, place, length and answer; then one with how many were played, the words of all answers and the
    /// counts.
    fn play_list(&mut self, list: &CallList, out: &mut dyn Write) -> std::io::Result<()> {
        let mut told = vec![0; list.len() * TOLD_SIZE];
        let session = raw::play(self.tables.lend(), self.counts, &list.calls, &list.lists, &list.names, &mut self.area, &mut told);
        let mut answers = self.area.iter().copied();
        for outcome in told.chunks_exact(TOLD_SIZE).take(session.played) {
            let told = format!("{} {} {}", outcome[0], outcome[1], outcome[2]);
            writeln!(out, "{}", joined(&told, answers.by_ref().take(outcome[2] as usize)))?;
        }
        self.counts = session.counts;
        self.answer = joined(&format!("{} {}", session.played, session.answered), self.count_words());
        writeln!(out, "{}", self.answer)
    }

    fn count_words(&self) -> impl Iterator<Item = u64> {
        runs::words_of(self.counts).into_iter().map(|count| count as u64)
    }

    fn run(&mut self, name: &str) -> Result<Run<'_>, String> {
        let found = runs::all(&mut self.tables).into_iter().zip(runs::NAMES).find(|(_, known)| *known == name);
        found.map(|(run, _)| run).ok_or_else(|| format!("'{name}' is no run; runs are {}", runs::NAMES.join(", ")))
    }

    fn lend(&mut self, given: &mut Arguments<'_>) -> Result<(), String> {
        let run = self.run(given.text("RUN")?)?;
        let length = length(given)?;
        let fill = if given.rest.len() > 0 { given.word("FILL")? } else { 0 };
        given.end()?;
        match run {
            Run::Words(words) => *words = vec![fill; length],
            Run::Bytes(bytes) => *bytes = vec![u8::try_from(fill).map_err(|_| format!("{fill} is no byte"))?; length],
        }
        Ok(())
    }

    fn set(&mut self, given: &mut Arguments<'_>) -> Result<(), String> {
        let name = given.text("RUN")?;
        let mut at = given.size("INDEX")?;
        let mut run = self.run(name)?;
        if given.rest.len() == 0 {
            return Err("set lacks a VALUE".to_string());
        }
        while given.rest.len() > 0 {
            let text = given.text("VALUE")?;
            let past = || format!("{name} ends before index {at} and what is set there");
            match &mut run {
                Run::Words(words) => {
                    let value = line::word(text)?;
                    *words.get_mut(at).ok_or_else(past)? = value;
                    at += 1;
                }
                Run::Bytes(bytes) => {
                    let value = line::bytes(text);
                    let end = at.checked_add(value.len()).ok_or_else(past)?;
                    bytes.get_mut(at..end).ok_or_else(past)?.copy_from_slice(&value);
                    at = end;
                }
            }
        }
        Ok(())
    }

    /// What the last call should have given.
    fn compare(&self, given: &mut Arguments<'_>) -> Result<(), String> {
        let mut said = Vec::new();
        while given.rest.len() > 0 {
            said.push(given.text("a number")?);
        }
        match said.join(" ") == self.answer {
            true => Ok(()),
            false => Err(format!("the last call gave '{}', and not '{}'", self.answer, said.join(" "))),
        }
    }

    /// FNV-1a of 64 bits over the words, the name bytes and the area, each as eight bytes from the lowest: as conformance/README.md has it.
    fn sum(&self) -> u64 {
        let (mut words, mut bytes) = (Vec::new(), Vec::new());
        for view in runs::views(&self.tables) {
            match view {
                RunView::Words(run) => words.extend(run.iter().copied()),
                RunView::Bytes(run) => bytes.extend(run.iter().map(|byte| u64::from(*byte))),
            }
        }
        let all = words.iter().chain(&bytes).chain(&self.area);
        all.flat_map(|word| word.to_le_bytes()).fold(0xcbf2_9ce4_8422_2325, |sum, byte| (sum ^ u64::from(byte)).wrapping_mul(0x0000_0100_0000_01b3))
    }

    fn count(&mut self, given: &mut Arguments<'_>) -> Result<(), String> {
        let mut counts = [0; 9];
        for (count, name) in counts.iter_mut().zip(runs::TABLES) {
            *count = given.size(name)?;
        }
        given.end()?;
        self.counts = runs::counts_of(counts);
        Ok(())
    }

    /// A line for each run: name, length, content; then the counts and the area. Equal words that follow each other are put together, `WORD*TIMES`; names are
    /// hexadecimal, place by place.
    fn dump(&self, out: &mut dyn Write) -> std::io::Result<()> {
        for (name, view) in runs::NAMES.iter().zip(runs::views(&self.tables)) {
            match view {
                RunView::Words(words) => dump_line(out, name, words.len(), words)?,
                RunView::Bytes(bytes) => {
                    let places: Vec<String> = bytes.chunks(NAME_SIZE).map(hexadecimal).collect();
                    dump_line(out, name, bytes.len(), &places)?;
                }
            }
        }
        write!(out, "counts")?;
        runs::words_of(self.counts).iter().try_for_each(|count| write!(out, " {count}"))?;
        writeln!(out)?;
        dump_line(out, "area", self.area.len(), &self.area)
    }
}

/// Words after others, with a space before each.
fn joined(first: &str, words: impl Iterator<Item = u64>) -> String {
    let words: Vec<String> = std::iter::once(first.to_string()).chain(words.map(|word| word.to_string())).collect();
    words.join(" ")
}

fn length(given: &mut Arguments<'_>) -> Result<usize, String> {
    match given.size("LENGTH")? {
        length if length <= LONGEST => Ok(length),
        length => Err(format!("{length} is more than a script may lend, which is {LONGEST}")),
    }
}

fn hexadecimal(place: &[u8]) -> String {
    place.iter().fold("x".to_string(), |text, byte| text + &format!("{byte:02x}"))
}

/// Equal ones that follow each other are put together.
fn dump_line<Item: PartialEq + Display>(out: &mut dyn Write, name: &str, length: usize, items: &[Item]) -> std::io::Result<()> {
    write!(out, "{name} {length}")?;
    for same in items.chunk_by(|one, next| one == next) {
        match same {
            [one] => write!(out, " {one}")?,
            [one, ..] => write!(out, " {one}*{}", same.len())?,
            [] => {}
        }
    }
    writeln!(out)
}
