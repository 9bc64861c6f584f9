//! So many random calls and damaged tables, and lists that one call plays, from a seed: each list of moves has one of its own, the next number, so that a
//! find can be repeated by itself.

use crate::limits;
use crate::moves;
use crate::player::{self, Questions};
use crate::script;
use crate::shapes::Shape;
use crate::tally::Tally;
use proptest::strategy::Strategy;
use proptest::test_runner::{TestCaseError, TestError};
use std::cell::{Cell, RefCell};
use std::io::{IsTerminal, Write as _};
use std::panic::{catch_unwind, AssertUnwindSafe};
use std::time::{Duration, Instant};

/// How long a find is made smaller.
const SHRINKING: Duration = Duration::from_secs(30);

/// Groups of moves in a list; and in one of so many, which is a long one.
const GROUPS: usize = 16;
const GROUPS_OF_LONG: usize = 110;
const LONG: u64 = 16;

/// Plays lists until there were so many calls and so many damaged tables. Without a seed it is the clock's.
pub fn run(count: &str, seed: Option<&str>) -> Result<String, String> {
    let count = number(count)?;
    let seed = match seed {
        Some(seed) => number(seed)?,
        None => std::time::UNIX_EPOCH.elapsed().map_or(0, |time| time.as_nanos() as u64),
    };
    play(count, seed).map(|(said, _)| said)
}

/// The same from a seed that is given, and then tables at the limits. Every number that a call can give has to be met, and every way in which a list is bent.
pub fn bounded(count: &str, seed: &str) -> Result<String, String> {
    let (said, mut tally) = play(number(count)?, number(seed)?)?;
    for (shape, free) in [(Shape::FileEach, 0), (Shape::FileEach, 1), (Shape::HalfEnded, 0)] {
        limits::play(shape, free, &mut tally)?;
    }
    match (tally.unmet(), tally.unbent()) {
        (Some((name, number)), _) => Err(format!("{said}\nfuzz: no {name} gave {number}")),
        (None, Some(how)) => Err(format!("{said}\nfuzz: no list played by one call {how}")),
        (None, None) => Ok(said),
    }
}

pub fn number(text: &str) -> Result<u64, String> {
    text.replace(['_', ','], "").parse().map_err(|_| format!("no number: {text}"))
}

fn play(count: u64, seed: u64) -> Result<(String, Tally), String> {
    let since = Instant::now();
    let mut shown = Instant::now();
    let mut tally = Tally::default();
    let mut at = seed;
    while tally.done() < count {
        tally = play_list(at, tally)?;
        at = at.wrapping_add(1);
        if shown.elapsed() > Duration::from_millis(300) && std::io::stderr().is_terminal() {
            progress(tally.done().min(count), count);
            shown = Instant::now();
        }
    }
    let seconds = since.elapsed().as_secs_f64();
    Ok((format!("{}\nfuzz: seed {seed}, {seconds:.1} s, {}, no difference", tally.met(), tally.sums()), tally))
}

fn progress(done: u64, count: u64) {
    let bar = (done * 40 / count.max(1)) as usize;
    eprint!("\r[{}{}] {done} of {count}", "#".repeat(bar), ".".repeat(40 - bar));
    let _ = std::io::stderr().flush();
}

/// Plays the list of a seed, and adds to what was played. An error is the smallest list that proptest comes to, as a script, after what differs.
fn play_list(seed: u64, tally: Tally) -> Result<Tally, String> {
    let (tally, lines) = (RefCell::new(tally), RefCell::new(Vec::new()));
    let questions = Cell::new(Questions::Chosen);
    let when_found = Cell::new(None);
    let test = |list: moves::List| {
        let played = player::play(&list, questions.get(), &mut lines.borrow_mut(), &mut tally.borrow_mut());
        let difference = match played {
            Ok(_) => return Ok(()),
            Err(difference) => difference,
        };
        if difference.of_demand_3 {
            questions.set(Questions::All);
        }
        when_found.set(when_found.get().or(Some(lines.borrow().len())));
        Err(TestCaseError::fail(difference.how))
    };
    let mut runner = moves::runner(seed, SHRINKING);
    let groups = if seed.is_multiple_of(LONG) { GROUPS_OF_LONG } else { GROUPS };
    let tree = moves::list_up_to(groups).new_tree(&mut runner).map_err(|reason| format!("no list: {reason}"))?;
    match runner.run_one(tree, test) {
        Ok(_) => Ok(tally.into_inner()),
        Err(TestError::Abort(reason)) => Err(format!("no list: {reason}")),
        Err(TestError::Fail(reason, smallest)) => {
            // Once more for its lines, up to a panic where it is one that differs.
            let _ = catch_unwind(AssertUnwindSafe(|| test(smallest)));
            let lines = lines.borrow();
            let found = when_found.get().unwrap_or(lines.len());
            let head = format!("# a difference: {reason}\n# seed {seed}; again: differ fuzz 1 {seed}; {} lines, {found} when found\n", lines.len());
            Err(format!("{head}{}differ: {reason}", script::text(&lines)))
        }
    }
}
