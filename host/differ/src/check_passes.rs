//! How long a check takes on each content, in plain passes over the same words and name bytes.

use crate::contents::{Content, CONTENTS};
use crate::limits;
use crate::proved;
use crate::runs;
use crate::shapes::{Shape, SHAPES};
use crate::timed::{self, Timed};
use second::lent::RECORD_LIMIT;
use std::fmt::Write as _;
use std::hint::black_box;
use std::time::Duration;

/// Records of each kind: the limit, parts of it, and one.
const SIZES: [usize; 5] = [RECORD_LIMIT, RECORD_LIMIT / 2, RECORD_LIMIT / 4, RECORD_LIMIT / 16, 1];

/// So often each is measured, and the least taken; of tables as calls leave them, which are measured by themselves, more often.
const ROUNDS: usize = 10;
const ROUNDS_BY_ITSELF: usize = 200;

struct Times {
    check: Duration,
    pass: Duration,
}

/// A line for each content: passes to a check at each size, and the milliseconds of a check at the limits. Then the same of tables as calls leave them.
pub fn run() -> Result<String, String> {
    let sizes: String = SIZES.iter().map(|size| format!(" {size} |")).collect();
    let mut text = format!("| content |{sizes} least ms at {RECORD_LIMIT} |\n|---|{}---|", "---|".repeat(SIZES.len()));
    for content in CONTENTS {
        let times = SIZES.into_iter().map(|size| measure(&content, size)).collect::<Result<Vec<Times>, String>>()?;
        let passes: String = times.iter().map(|times| format!(" {:.1} |", times.check.as_secs_f64() / times.pass.as_secs_f64())).collect();
        let _ = write!(text, "\n| {} |{passes} {:.1} |", content.says, times[0].check.as_secs_f64() * 1e3);
    }
    for shape in SHAPES {
        let _ = write!(text, "\n{}", left_by_calls(shape)?);
    }
    Ok(text)
}

/// The line of tables as calls leave them, at the limits and at a sixteenth; the shape whose positions don't fit there has none.
fn left_by_calls(shape: Shape) -> Result<String, String> {
    let mut cells = Vec::new();
    let mut milliseconds = 0.0;
    for size in SIZES {
        let is_asked = size == RECORD_LIMIT || size == RECORD_LIMIT / 16 && shape != Shape::LongDelete;
        if !is_asked {
            cells.push(String::new());
            continue;
        }
        let (full, _) = limits::full(shape, size - 2, size)?;
        let mut timed = Timed::new(full.proved);
        let mut least = Times { check: Duration::MAX, pass: Duration::MAX };
        for _ in 0..ROUNDS_BY_ITSELF {
            least.check = least.check.min(timed.check());
            least.pass = least.pass.min(timed.pass());
        }
        cells.push(format!("{:.1}", least.check.as_secs_f64() / least.pass.as_secs_f64()));
        if size == RECORD_LIMIT {
            milliseconds = least.check.as_secs_f64() * 1e3;
        }
    }
    Ok(format!("| as calls leave them: {} | {} | {milliseconds:.1} |", shape.says(), cells.join(" | ")))
}

/// The least times of checks and of passes over as many copies of tables of n records as fill the limits, all in one run of words and one of name bytes. They
/// are written anew before each round. An error where a copy is not sound.
fn measure(content: &Content, n: usize) -> Result<Times, String> {
    let (made, counts) = content.tables(n);
    let (of_words, of_names) = (runs::word_runs(&made), runs::name_runs(&made));
    let copy = (of_words.concat(), of_names.concat());
    let copies = RECORD_LIMIT / n;
    let fresh = (copy.0.repeat(copies), copy.1.repeat(copies));
    let (mut words, mut names) = fresh.clone();
    let mut least = Times { check: Duration::MAX, pass: Duration::MAX };
    for _ in 0..ROUNDS {
        words.copy_from_slice(&fresh.0);
        names.copy_from_slice(&fresh.1);
        let mut line = 0;
        least.check = least.check.min(timed::time(|| {
            for (words, names) in words.chunks_exact(copy.0.len()).zip(names.chunks_exact(copy.1.len())) {
                let (words, names) = (split(words, of_words.map(<[u64]>::len)), split(names, of_names.map(<[u8]>::len)));
                line |= proved::first_unsound(words, names, &counts);
            }
        }));
        if line != 0 {
            return Err(format!("{}, {n} records of each kind: not sound", content.says));
        }
        least.pass = least.pass.min(timed::time(|| {
            let sum = black_box(&words).iter().fold(0_u64, |sum, word| sum.wrapping_add(*word));
            black_box(&names).iter().fold(sum, |sum, byte| sum.wrapping_add(u64::from(*byte)))
        }));
    }
    Ok(least)
}

/// Parts of a run, one after another.
fn split<W, const N: usize>(run: &[W], lengths: [usize; N]) -> [&[W]; N] {
    let mut rest = run;
    lengths.map(|length| {
        let (part, after) = rest.split_at(length);
        rest = after;
        part
    })
}
