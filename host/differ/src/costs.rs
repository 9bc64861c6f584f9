//! What each call costs beyond the check of the tables, in plain passes over the words and name bytes in use.

use crate::limits;
use crate::shapes::{Shape, SHAPES};
use crate::step::{self, Step};
use crate::timed::Timed;
use second::lent::{COLUMN_LIMIT, RECORD_LIMIT};
use std::collections::{BTreeMap, BTreeSet};
use std::fmt::Write as _;
use std::time::Duration;

/// Rounds of a measurement: in each the check, the call and a pass, one after another. The least of each counts.
const ROUNDS: usize = 60;

/// How often the check is measured against itself on tables of a shape.
const AGAINST_ITSELF: usize = 3;

/// Places left of each sort, so that a table of 16 columns, and a file with statistics of each, have room.
const FREE: usize = COLUMN_LIMIT;

/// Each call with what its code does after the check.
const CALLS: [(&str, &str); 17] = [
    ("list_schemas", "a search in snapshots; 2 passes over schemas (count, list)"),
    ("list_tables", "a search each in snapshots and schemas; 2 passes over tables"),
    ("list_columns", "a search each in snapshots and tables, 4 in columns; the table's own columns, at most 16, sorted by insertion"),
    (
        "table_by_name",
        "a search each in snapshots and schemas; 2 passes over tables and their names up to the table found, each name up to its first other \
         byte",
    ),
    ("snapshot_by_time", "2 searches in snapshots"),
    ("copy_file", "a search in data files, and if none is found one in delete files, both of them twice; `catalog_find_file` once"),
    (
        "list_files",
        "a search each in snapshots and tables; 2 passes over data files (count, list); 1 over delete files, with a search in data files, from \
         a hint, for each live one",
    ),
    (
        "list_filtered_files",
        "the same, and 2 searches in columns; for each live file of the table, in both passes, a search in statistics, from a hint, and its own \
         records, at most 16",
    ),
    (
        "list_rows",
        "a search each in snapshots and tables; 2 passes over delete files, 2 over data files; each position of each live file of the table \
         once, in step with its deleted ones",
    ),
    ("create_schema", "the latest snapshot; a pass over schemas and their names; writes a snapshot, a schema, a name"),
    ("create_table", "a search in schemas; a pass over tables and names; at most 16 columns compared with each other; writes what it adds"),
    (
        "insert",
        "a search in tables; a pass over the UUIDs of data files, delete files and scheduled; the table's columns, found by search; writes \
         what it adds and one word of the table",
    ),
    (
        "delete",
        "a search in data files; the same pass over UUIDs; a pass over delete files (the old one, where its positions lie); old and new \
         positions walked in step, once to judge and once to merge; a pass over delete files that ends the old one",
    ),
    ("drop_table", "a search, and a pass over each table in which records end"),
    ("drop_schema", "a search, a pass over tables, to see that none is live, and one over schemas"),
    (
        "expire",
        "a search in snapshots for each id of the list; then for each table one pass with a search in the snapshots that stay for each \
         record, one that closes gaps; statistics by search in data files; the removed files merged by id",
    ),
    ("cleanup", "2 passes over scheduled (count, hand out) and one that closes gaps"),
];

/// The least times of the check and of a call, taken in turns.
struct Least {
    check: Duration,
    call: Duration,
}

/// Tables of a shape, and the least time of a pass over them so far.
struct Measured {
    timed: Timed,
    pass: Duration,
}

impl Measured {
    fn least(&mut self, mut call: impl FnMut(&mut Timed) -> Duration) -> Least {
        let mut least = Least { check: Duration::MAX, call: Duration::MAX };
        for _ in 0..ROUNDS {
            least.check = least.check.min(self.timed.check());
            least.call = least.call.min(call(&mut self.timed));
            self.pass = self.pass.min(self.timed.pass());
        }
        least
    }

    fn passes(&self, time: Duration) -> f64 {
        time.as_secs_f64() / self.pass.as_secs_f64()
    }

    fn beyond(&self, least: &Least) -> f64 {
        self.passes(least.call) - self.passes(least.check)
    }
}

/// The table of costs: each call on the tables, of those that accept it, where it costs most.
pub fn run() -> Result<String, String> {
    let mut dearest: BTreeMap<&str, (f64, Shape)> = BTreeMap::new();
    let mut noise = 0_f64;
    let mut checks = Vec::new();
    for shape in SHAPES {
        let (full, steps) = limits::full(shape, RECORD_LIMIT - FREE, RECORD_LIMIT)?;
        let mut measured = Measured { timed: Timed::new(full.proved), pass: Duration::MAX };
        let itself: Vec<Least> = (0..AGAINST_ITSELF).map(|_| measured.least(Timed::check)).collect();
        let steps = accepted(&mut measured.timed, steps);
        let calls: Vec<(&str, Least)> = steps.iter().map(|(name, step)| (*name, measured.least(|timed| timed.step(step)))).collect();
        for least in &itself {
            noise = noise.max(measured.beyond(least).abs());
            checks.push(measured.passes(least.check.min(least.call)));
        }
        for (name, least) in &calls {
            let beyond = measured.beyond(least);
            let dearest = dearest.entry(name).or_insert((beyond, shape));
            if beyond > dearest.0 {
                *dearest = (beyond, shape);
            }
        }
    }
    Ok(table(&dearest, noise, &checks))
}

/// The first accepted step of each call.
fn accepted(timed: &mut Timed, steps: Vec<Step>) -> Vec<(&'static str, Step)> {
    let mut seen = BTreeSet::new();
    let named = steps.into_iter().map(|step| (step::name(&step), step));
    named.filter(|(name, step)| timed.is_accepted(step) && seen.insert(*name)).collect()
}

fn table(dearest: &BTreeMap<&str, (f64, Shape)>, noise: f64, checks: &[f64]) -> String {
    let (low, high) = checks.iter().fold((f64::MAX, 0_f64), |(low, high), check| (low.min(*check), high.max(*check)));
    let mut text = format!(
        "Measured in one run: {ROUNDS} rounds of check, call and pass for each call, the least of each. The check takes {low:.1} to {high:.1} passes on these \
         tables; against itself it differs by up to {noise:.2}.\n\n| call | beyond the check, in passes | tables | what the code does |\n|---|---|---|---|\n"
    );
    for (name, does) in CALLS {
        let Some((beyond, shape)) = dearest.get(name) else { continue };
        let (passes, says) = if *beyond > noise { (format!("{beyond:.2}"), shape.says()) } else { (format!("< {noise:.2}"), "any") };
        let _ = writeln!(text, "| `catalog_{name}` | {passes} | {says} | {does} |");
    }
    text.trim_end().to_string()
}
