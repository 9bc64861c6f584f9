//! Runs lent for a list: of several sizes, ragged, full of old words, with counts that mean nothing.

use crate::choices::{edge, pick, rarely, Pick};
use crate::runs::{self, FIRST_NAMES, SIZES};
use crate::script::Line;
use proptest::array::{uniform12, uniform9};
use proptest::prelude::*;
use proptest::sample::select;
use second::ABSENT;

#[derive(Clone, Debug)]
pub struct Lent {
    is_lent: [bool; 12],
    /// Places for records of each sort.
    places: [usize; 9],
    /// Words of each run after those places, up to one more than another would take.
    spare: [Option<Pick>; 12],
    fills: [u64; 12],
    counts: [Option<u64>; 9],
}

fn places() -> impl Strategy<Value = [usize; 9]> {
    prop_oneof![
        1 => uniform9(0..5_usize),
        3 => uniform9(prop_oneof![1 => 0..5_usize, 4 => 20..60_usize]),
        2 => uniform9(4..12_usize),
        2 => uniform9(6..18_usize),
        3 => uniform9(20..60_usize),
        2 => uniform9(90..200_usize),
    ]
}

fn any_word() -> impl Strategy<Value = u64> {
    prop_oneof![select(&[0, 1, ABSENT][..]), any::<u64>()]
}

pub fn lent() -> impl Strategy<Value = Lent> {
    // Nearly all at first; shrinking leaves out those that a find does not need.
    let is_lent = uniform12(proptest::bool::weighted(0.995));
    let spare = uniform12(rarely(3, pick()));
    let counts = uniform9(rarely(3, prop_oneof![edge(), any_word()]));
    (is_lent, places(), spare, uniform12(any_word()), counts).prop_map(|(is_lent, places, spare, fills, counts)| Lent {
        is_lent,
        places,
        spare,
        fills,
        counts,
    })
}

impl Lent {
    /// A line for each run that has words, and one for the counts if they are not 0.
    pub fn lines(&self) -> Vec<Line> {
        let line = |run: usize| {
            let spare = self.spare[run].map_or(0, |pick| pick.below(SIZES[run] + 2));
            let length = self.places[runs::table_of(run)] * SIZES[run] + spare;
            let fill = if run < FIRST_NAMES { self.fills[run] } else { self.fills[run] & 0xff };
            (self.is_lent[run] && length > 0).then_some(Line::Lend { run, length, fill })
        };
        let counts = self.counts.map(|count| count.unwrap_or(0));
        (0..SIZES.len()).filter_map(line).chain((counts != [0; 9]).then_some(Line::Counts(counts))).collect()
    }
}
