//! Each call on tables near the limits and on a sixteenth of them: the compiled call, the second implementation, the published query on SQLite, one plain pass.

use crate::limits;
use crate::list_bench;
use crate::play::{self, Pair};
use crate::published;
use crate::shapes::Shape;
use crate::sqlite;
use crate::step::{self, Step};
use crate::timed::{self, Timed};
use second::lent::RECORD_LIMIT;
use second::Call;
use std::collections::BTreeSet;
use std::fmt::Write as _;
use std::time::Duration;

/// Records of each sort: two less than the limit, so that commits have room, and a sixteenth.
const NEAR: usize = RECORD_LIMIT - 2;
const SIXTEENTH: usize = RECORD_LIMIT / 16;

/// The readings that are also asked where all files are in one table.
const OF_FILES: [&str; 3] = ["list_files", "list_filtered_files", "list_rows"];

/// The name by which lists alone are asked for.
const LISTS: &str = "lists";

/// Rounds: in each the compiled call and the second implementation. The least of each is taken, and that of many passes over the same tables.
const ROUNDS: usize = 9;
const PASSES: usize = 400;

/// What can be told from looking at the account of time itself.
const LEAST: Duration = Duration::from_micros(1);

/// How often a query is asked.
const ASKED: usize = 100;

/// A table of ratios for the calls that are named, or for all and for lists.
pub fn run(names: &[&str]) -> Result<String, String> {
    if names == [LISTS] {
        return list_bench::run();
    }
    let mut text = format!(
        "Measured in one run: {ROUNDS} rounds of call and second implementation, {PASSES} passes, the least of each; the mean of {ASKED} queries.\n\n\
         | call | tables | records | compiled | plain passes | second | SQLite |\n|---|---|---|---|---|---|---|\n"
    );
    for (shape, records) in [(Shape::FileEach, NEAR), (Shape::OneTable, NEAR), (Shape::FileEach, SIXTEENTH)] {
        let (full, steps) = limits::full(shape, records, records + 2)?;
        let mut timed = Timed::new(full.proved.clone());
        let loaded = sqlite::SCHEMA.to_string() + &sqlite::rows(&full.second.words, &full.second.counts);
        let pass = (0..PASSES).map(|_| timed.pass()).min().unwrap_or_default();
        let mut seen = BTreeSet::new();
        for what in steps.into_iter().chain([Step::Call(Call::Fresh { time: 0 })]) {
            let name = step::name(&what);
            let is_asked = (names.is_empty() || names.contains(&name)) && (shape == Shape::FileEach || OF_FILES.contains(&name));
            if is_asked && timed.is_accepted(&what) && seen.insert(name) {
                let sqlite = match &what {
                    Step::Reading(reading) => published::query(reading).map(|query| asked(&loaded, &query)).transpose()?,
                    Step::Call(_) => None,
                };
                let _ = writeln!(text, "| `{name}` | {} | {records} | {} |", shape.says(), ratios(&full, &mut timed, &what, pass, sqlite));
            }
        }
    }
    if names.is_empty() {
        let _ = write!(text, "\n{}", list_bench::run()?);
    }
    Ok(text.trim_end().to_string())
}

/// The compiled call's time, and how it stands to a pass; the times of the others, and how they stand to it.
fn ratios(full: &Pair, timed: &mut Timed, what: &Step, pass: Duration, sqlite: Option<Duration>) -> String {
    let (mut proved, mut second) = (Duration::MAX, Duration::MAX);
    let mut area = vec![1; limits::ROOM];
    for _ in 0..ROUNDS {
        proved = proved.min(timed.step(what));
        let mut tables = full.second.clone();
        second = second.min(timed::time(|| play::step(&mut tables, what, &mut area)));
    }
    if proved < LEAST {
        return "< 1 µs | – | – | –".to_string();
    }
    let ratio = |time: Duration, to: Duration| format!("{:.2}", time.as_secs_f64() / to.as_secs_f64());
    let sqlite = sqlite.map_or("–".to_string(), |time| ratio(time, proved));
    format!("{:.0} µs | {} | {} | {sqlite}", proved.as_secs_f64() * 1e6, ratio(proved, pass), ratio(second, proved))
}

/// The processor's time of one query: its share of many, as SQLite's timer has it.
fn asked(loaded: &str, query: &str) -> Result<Duration, String> {
    let said = sqlite::run(&format!("{loaded}.timer on\n{}", format!("{query}\n").repeat(ASKED)))?;
    let times: Vec<f64> = said.lines().filter_map(processor_time).collect();
    match times.len() {
        ASKED => Ok(Duration::from_secs_f64(times.iter().sum::<f64>() / ASKED as f64)),
        count => Err(format!("sqlite3 timed {count} of {ASKED} queries")),
    }
}

/// Of a line `Run Time: real 0.001 user 0.000720 sys 0.000011` what the user and the system had.
fn processor_time(line: &str) -> Option<f64> {
    let words: Vec<&str> = line.strip_prefix("Run Time: ")?.split_whitespace().collect();
    match words[..] {
        ["real", _, "user", user, "sys", system] => Some(user.parse::<f64>().ok()? + system.parse::<f64>().ok()?),
        _ => None,
    }
}
