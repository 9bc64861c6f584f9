//! What was played, counted.

use crate::bends::WAYS;
use crate::step::{self, Step};
use std::collections::BTreeMap;
use std::fmt::Write as _;

#[derive(Default)]
pub struct Tally {
    pub lists: u64,
    pub calls: u64,
    pub readings: u64,
    pub damaged: u64,
    pub still_sound: u64,
    pub questions: u64,
    pub longest: u64,
    /// Lists that one call played, and the calls and readings in them.
    pub one_calls: u64,
    pub in_one_call: u64,
    /// Of each way in which such a list is bent, those in which it showed.
    pub bent: [u64; WAYS.len()],
    /// How often a call gave a number.
    met: BTreeMap<(&'static str, u64), u64>,
}

/// Each call with the numbers that it can give.
const NUMBERS: [(&str, &[u64]); 18] = [
    ("fresh", &[0, 2]),
    ("create_schema", &[0, 1, 2, 4, 8, 9, 10]),
    ("drop_schema", &[0, 1, 2, 4, 6, 8, 11]),
    ("create_table", &[0, 1, 2, 4, 6, 8, 9, 10, 12]),
    ("drop_table", &[0, 1, 2, 4, 6, 8]),
    ("insert", &[0, 1, 2, 4, 6, 8, 13, 14, 15]),
    ("delete", &[0, 1, 2, 4, 6, 8, 14, 16, 17]),
    ("expire", &[0, 1, 2, 5, 18, 19]),
    ("cleanup", &[0, 1, 3]),
    ("list_schemas", &[0, 1, 3, 5]),
    ("list_tables", &[0, 1, 3, 5, 6]),
    ("list_columns", &[0, 1, 3, 5, 6]),
    ("table_by_name", &[0, 1, 3, 5, 6]),
    ("list_files", &[0, 1, 3, 5, 6]),
    ("list_filtered_files", &[0, 1, 3, 5, 6]),
    ("list_rows", &[0, 1, 3, 5, 6]),
    ("snapshot_by_time", &[0, 1, 3, 7]),
    ("copy_file", &[0, 1, 3, 6]),
];

impl Tally {
    /// A call or a reading, and the number that it gave.
    pub fn count(&mut self, step: &Step, number: u64) {
        self.meet(step, number);
        match step {
            Step::Call(_) => self.calls += 1,
            Step::Reading(_) => self.readings += 1,
        }
    }

    /// A number that a call gave, on damaged tables and in lists that one call plays too, which are counted by themselves.
    pub fn meet(&mut self, step: &Step, number: u64) {
        *self.met.entry((step::name(step), number)).or_default() += 1;
    }

    /// How many calls there were, and as many damaged tables.
    pub fn done(&self) -> u64 {
        self.calls.min(self.damaged)
    }

    /// A number that a call can give and did not.
    pub fn unmet(&self) -> Option<(&'static str, u64)> {
        let mut pairs = NUMBERS.into_iter().flat_map(|(name, numbers)| numbers.iter().map(move |number| (name, *number)));
        pairs.find(|pair| !self.met.contains_key(pair))
    }

    /// A way in which a list is bent that never showed.
    pub fn unbent(&self) -> Option<&'static str> {
        self.bent.iter().zip(WAYS).find(|(count, _)| **count == 0).map(|(_, (_, how))| how)
    }

    /// How often each way showed.
    pub fn bends(&self) -> String {
        let bends: Vec<String> = self.bent.iter().zip(WAYS).map(|(count, (_, how))| format!("{count} {how}")).collect();
        bends.join(", ")
    }

    /// How often each call gave each number.
    pub fn met(&self) -> String {
        let mut text = String::new();
        let mut last = "";
        for ((name, number), count) in &self.met {
            if last != *name {
                let _ = write!(text, "{}{name}:", if last.is_empty() { "" } else { "\n" });
            }
            let _ = write!(text, " {number}×{count}");
            last = name;
        }
        text
    }

    pub fn sums(&self) -> String {
        let Tally { lists, calls, readings, damaged, still_sound, questions, longest, one_calls, in_one_call, .. } = self;
        format!(
            "{lists} lists of up to {longest} calls: {calls} calls, {readings} readings, {damaged} damaged tables ({still_sound} still sound), \
             {questions} questions of demand 3, {one_calls} lists played by one call with {in_one_call} calls and readings"
        )
    }
}
