//! What a list of calls is played against: any catalogue on lent runs.

use crate::runs::FIRST_NAMES;
use second::dice::damage;
use second::{Call, Counts, Outcome, Reading, Words};

pub trait Catalogue {
    /// A run of so many words, or bytes, all of them the same.
    fn lend(&mut self, run: usize, length: usize, fill: u64);

    /// Writes a word or a byte; nothing where the run is not so long.
    fn set(&mut self, run: usize, index: usize, value: u64);

    fn set_counts(&mut self, counts: Counts);

    /// Plays a call. The counts that it hands back are those of the next.
    fn perform(&mut self, call: &Call, area: &mut [u64]) -> Outcome;

    fn read(&mut self, reading: &Reading, area: &mut [u64]) -> Outcome;

    fn counts(&self) -> Counts;

    /// Every word of the nine runs, then every byte of the three.
    fn each_word(&self, take: &mut dyn FnMut(u64));
}

/// The second implementation with its tables.
#[derive(Clone, Default)]
pub struct Second {
    pub words: Words,
    pub counts: Counts,
}

impl Catalogue for Second {
    fn lend(&mut self, run: usize, length: usize, fill: u64) {
        match run {
            0..FIRST_NAMES => *damage::runs(&mut self.words)[run] = vec![fill; length],
            _ => *damage::name_runs(&mut self.words)[run - FIRST_NAMES] = vec![fill as u8; length],
        }
    }

    fn set(&mut self, run: usize, index: usize, value: u64) {
        match run {
            0..FIRST_NAMES => {
                if let Some(word) = damage::runs(&mut self.words)[run].get_mut(index) {
                    *word = value;
                }
            }
            _ => {
                if let Some(byte) = damage::name_runs(&mut self.words)[run - FIRST_NAMES].get_mut(index) {
                    *byte = value as u8;
                }
            }
        }
    }

    fn set_counts(&mut self, counts: Counts) {
        self.counts = counts;
    }

    fn perform(&mut self, call: &Call, area: &mut [u64]) -> Outcome {
        let given = second::perform(&mut self.words, &self.counts, call, area);
        self.counts = given.counts;
        given
    }

    fn read(&mut self, reading: &Reading, area: &mut [u64]) -> Outcome {
        second::read(&self.words, &self.counts, reading, area)
    }

    fn counts(&self) -> Counts {
        self.counts
    }

    fn each_word(&self, take: &mut dyn FnMut(u64)) {
        crate::runs::word_runs(&self.words).into_iter().flatten().for_each(|word| take(*word));
        crate::runs::name_runs(&self.words).into_iter().flatten().for_each(|byte| take(u64::from(*byte)));
    }
}
