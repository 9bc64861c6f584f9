//! What the check says of tables at the limits and one past them: the compiled one and the second implementation.

use crate::contents::{self, CONTENTS, FACTORS};
use crate::proved;
use crate::runs;
use second::lent::{COLUMN_LIMIT, RECORD_LIMIT};
use second::{load, Counts, Words};

/// What the hashes of `contents` are made for.
const HASHES: &str = include_str!("../../../crates/sorting/src/colliding.rt");

/// Lines of 'Sound tables': counts within the limits, and the limit of a table's columns.
const COUNTS_LINE: u64 = 1;
const COLUMNS_LINE: u64 = 11;

/// An error where either names another line than is wanted.
fn hold(what: &str, words: &Words, counts: &Counts, wanted: u64) -> Result<(), String> {
    let line = proved::first_unsound(runs::word_runs(words), runs::name_runs(words), counts);
    let other = load(words, counts).map_or_else(|unsound| u64::from(unsound.rule), |_| 0);
    match line == wanted && other == wanted {
        true => Ok(()),
        false => Err(format!("{what}: line {line} fails first, and {other} from the second; {wanted} is wanted")),
    }
}

/// Each content full; the sample with one record more of each kind in turn; a table with as many columns as it may have, and one more.
pub fn run() -> Result<String, String> {
    if let Some(factor) = FACTORS.iter().find(|factor| !HASHES.contains(&format!("_FACTOR: u64 = {factor};"))) {
        return Err(format!("the check has no hash with the factor {factor}, and contents of one hash are made for it"));
    }
    contents::have_one_hash()?;
    for content in CONTENTS {
        let (words, counts) = content.tables(RECORD_LIMIT);
        hold(content.says, &words, &counts, 0)?;
    }
    let mut words = contents::past_the_limits();
    hold("the sample with room for more", &words, &contents::full(0), 0)?;
    for (run, name) in (1..).zip(&runs::RUNS[..runs::FIRST_NAMES]) {
        hold(&format!("one more of {name}"), &words, &contents::full(run), COUNTS_LINE)?;
    }
    for (columns, line) in [(COLUMN_LIMIT, 0), (COLUMN_LIMIT + 1, COLUMNS_LINE)] {
        let (of_one, counts) = contents::one_table(columns);
        words.columns = of_one;
        hold(&format!("a table of {columns} columns"), &words, &counts, line)?;
    }
    Ok(format!("check-limits: {} contents at the limits are sound, and one record more is not", CONTENTS.len()))
}
