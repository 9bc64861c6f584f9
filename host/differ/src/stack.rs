//! What a call takes of the stack: each is made on a thread of its own, and the lowest page of the thread's stack that was touched then tells.

use crate::call_words;
use crate::limits::{self, ROOM};
use crate::proved::Proved;
use crate::shapes::SHAPES;
use crate::step::{self, Step};
use gukoremo::session::TOLD_SIZE;
use gukoremo::CallList;
use second::lent::{COLUMN_LIMIT, RECORD_LIMIT};
use second::Call;
use std::collections::BTreeMap;
use std::fmt::Write as _;
use std::fs::File;
use std::hint::black_box;
use std::io::{Read as _, Seek as _, SeekFrom};
use std::thread;

/// What a call may take.
const LIMIT: usize = 1 << 20;

/// The stack of a thread: less than a large page, so that no page is touched but by a frame in it.
const STACK: usize = LIMIT + LIMIT / 2;

const PAGE: usize = 4_096;

/// What the thread itself may have touched below the caller's frame before the call.
const OWN: usize = 16 * PAGE;

/// The most that each call takes, accepted or refused, by itself and in a list, on tables of every shape; an error where one takes more than the limit.
pub fn run() -> Result<String, String> {
    let mut most: BTreeMap<&str, usize> = BTreeMap::new();
    for shape in SHAPES {
        let (full, steps) = limits::full(shape, RECORD_LIMIT - COLUMN_LIMIT, RECORD_LIMIT)?;
        for step in steps.into_iter().chain([Step::Call(Call::Fresh { time: 0 })]) {
            let mut note = |name: &'static str, taken: usize| {
                let most = most.entry(name).or_default();
                *most = taken.max(*most);
            };
            let mut list = CallList::new();
            call_words::push(&mut list, &step);
            note("play", taken(&full.proved, move |tables, area| tables.bare_play(&list, area, &mut [0; TOLD_SIZE]).played as u64)?);
            note(step::name(&step), taken(&full.proved, move |tables, area| tables.bare(&step, area))?);
        }
    }
    let mut text = String::new();
    for (name, taken) in &most {
        let _ = writeln!(text, "catalog_{name}: {} KiB", taken / 1_024);
    }
    let most = most.into_values().max().unwrap_or_default();
    let said = format!("{text}stack: a call takes at most {} KiB; {} KiB are allowed", most / 1_024, LIMIT / 1_024);
    if most <= LIMIT {
        Ok(said)
    } else {
        Err(said)
    }
}

/// Bytes of the stack that a call takes, in whole pages.
fn taken(full: &Proved, call: impl FnOnce(&mut Proved, &mut [u64]) -> u64 + Send + 'static) -> Result<usize, String> {
    let (mut tables, mut area) = (full.clone(), vec![1; ROOM]);
    let thread = thread::Builder::new().stack_size(STACK).spawn(move || {
        let frame = black_box(0_u8);
        let from = std::ptr::from_ref(black_box(&frame)).addr();
        let before = touched_below(from)?;
        black_box(call(&mut tables, &mut area));
        let after = touched_below(from)?;
        if before > OWN {
            return Err(format!("stack: {before} bytes were touched before the call"));
        }
        Ok(after)
    });
    thread.and_then(|thread| thread.join().map_err(|_| std::io::Error::other("the thread panicked"))).map_err(|e| format!("stack: {e}"))?
}

/// How far below an address of this thread's stack the lowest page lies that was ever touched.
fn touched_below(from: usize) -> Result<usize, String> {
    let maps = std::fs::read_to_string("/proc/self/maps").map_err(|e| format!("/proc/self/maps: {e}"))?;
    let ranges = maps.lines().filter_map(|line| line.split(' ').next()?.split_once('-'));
    let mut ranges = ranges.filter_map(|(start, end)| Some(usize::from_str_radix(start, 16).ok()?..usize::from_str_radix(end, 16).ok()?));
    let stack = ranges.find(|range| range.contains(&from)).ok_or("stack: the thread's stack is not in /proc/self/maps")?;
    let pages = page_words(stack.start / PAGE, (from - stack.start) / PAGE + 1).map_err(|e| format!("/proc/self/pagemap: {e}"))?;
    // The highest two bits: the page is there, or is swapped out.
    let lowest = pages.iter().position(|word| word >> 62 != 0).ok_or("stack: no page of it was touched")?;
    Ok(from - (stack.start + lowest * PAGE))
}

/// The words of /proc/self/pagemap, one for each page.
fn page_words(first: usize, count: usize) -> std::io::Result<Vec<u64>> {
    let mut file = File::open("/proc/self/pagemap")?;
    file.seek(SeekFrom::Start(8 * first as u64))?;
    let mut bytes = vec![0; 8 * count];
    file.read_exact(&mut bytes)?;
    Ok(bytes.as_chunks::<8>().0.iter().map(|word| u64::from_le_bytes(*word)).collect())
}
