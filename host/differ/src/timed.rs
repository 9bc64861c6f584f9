//! Compiled calls timed on tables that are written anew before each, always in the same places.

use crate::limits::ROOM;
use crate::proved::Proved;
use crate::step::Step;
use std::hint::black_box;
use std::sync::LazyLock;
use std::thread;
use std::time::{Duration, Instant};

static START: LazyLock<Instant> = LazyLock::new(Instant::now);

/// How long this thread has run, by the scheduler's account, which is brought up to date when a thread yields: other work on the machine does not count.
/// The clock's time where there is no such account.
fn now() -> Duration {
    thread::yield_now();
    let account = std::fs::read_to_string("/proc/thread-self/schedstat").ok();
    let run = account.and_then(|text| text.split(' ').next()?.parse().ok());
    run.map_or_else(|| START.elapsed(), Duration::from_nanos)
}

fn since_and_until<Made>(what: impl FnOnce() -> Made) -> Duration {
    let since = now();
    let made = black_box(what());
    let time = now() - since;
    drop(made);
    time
}

/// The time that it takes, without that of looking at the account.
pub fn time<Made>(what: impl FnOnce() -> Made) -> Duration {
    static LOOKING: LazyLock<Duration> = LazyLock::new(|| (0..100).map(|_| since_and_until(|| ())).min().unwrap_or_default());
    since_and_until(what).saturating_sub(*LOOKING)
}

pub struct Timed {
    full: Proved,
    copy: Proved,
    area: Vec<u64>,
}

impl Timed {
    /// The area is written, so that no call is the first to touch it.
    pub fn new(full: Proved) -> Timed {
        Timed { copy: full.clone(), full, area: vec![1; ROOM] }
    }

    fn on_copy(&mut self, what: impl FnOnce(&mut Proved, &mut [u64]) -> u64) -> Duration {
        self.copy.write_over(&self.full);
        time(|| what(&mut self.copy, &mut self.area))
    }

    pub fn step(&mut self, step: &Step) -> Duration {
        self.on_copy(|tables, area| tables.bare(step, area))
    }

    /// The check alone.
    pub fn check(&mut self) -> Duration {
        self.on_copy(|tables, _| tables.first_unsound())
    }

    /// Every used word and name byte read once.
    pub fn pass(&mut self) -> Duration {
        self.on_copy(|tables, _| tables.sum())
    }

    pub fn is_accepted(&mut self, step: &Step) -> bool {
        self.copy.write_over(&self.full);
        self.copy.bare(step, &mut self.area) == 0
    }
}
