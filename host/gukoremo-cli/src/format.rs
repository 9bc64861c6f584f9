//! A catalogue as the bytes of a file, and back.
//!
//! All numbers are 64 bits, lowest byte first. The header: the eight bytes `gukoremo`, the version, the checksum of all that stands elsewhere in the file,
//! the nine used counts, and for each of the twelve runs its length and how much of it is kept. Then the kept parts, run after run. What is not kept of a run
//! is zeros. So any tables come back word for word.

use crate::checksum;
use crate::failure::{code, Failure};
use crate::runs::{self, Run, RunView};
use gukoremo::{Counts, OwnedTables};
use std::path::Path;

const MAGIC: &[u8; 8] = b"gukoremo";
pub const VERSION: u64 = 1;
/// Magic, version, checksum; counts; lengths and kept lengths.
const HEADER_WORDS: usize = 3 + 9 + 2 * runs::COUNT;
const HEADER: usize = 8 * HEADER_WORDS;
const CHECKSUM_AT: usize = 16;

pub fn encode(tables: &OwnedTables, counts: Counts) -> Vec<u8> {
    let views = runs::views(tables);
    let mut bytes = Vec::with_capacity(HEADER + 8 * 1024);
    bytes.extend_from_slice(MAGIC);
    let mut put = |word: u64| bytes.extend_from_slice(&word.to_le_bytes());
    put(VERSION);
    put(0);
    runs::words_of(counts).iter().for_each(|count| put(*count as u64));
    for view in &views {
        put(length(view) as u64);
        put(kept(view) as u64);
    }
    for view in &views {
        match view {
            RunView::Words(words) => words[..kept(view)].iter().for_each(|word| bytes.extend_from_slice(&word.to_le_bytes())),
            RunView::Bytes(names) => bytes.extend_from_slice(&names[..kept(view)]),
        }
    }
    let sum = sum_of(&bytes);
    bytes[CHECKSUM_AT..CHECKSUM_AT + 8].copy_from_slice(&sum.to_le_bytes());
    bytes
}

fn length(view: &RunView<'_>) -> usize {
    match view {
        RunView::Words(words) => words.len(),
        RunView::Bytes(bytes) => bytes.len(),
    }
}

/// The length without the zeros at its end.
fn kept(view: &RunView<'_>) -> usize {
    match view {
        RunView::Words(words) => words.iter().rposition(|word| *word != 0).map_or(0, |last| last + 1),
        RunView::Bytes(bytes) => bytes.iter().rposition(|byte| *byte != 0).map_or(0, |last| last + 1),
    }
}

/// The checksum of all but its own place.
fn sum_of(bytes: &[u8]) -> u64 {
    checksum::of(&[&bytes[..CHECKSUM_AT], &bytes[CHECKSUM_AT + 8..]])
}

/// The most bytes that a file can have.
pub fn longest() -> usize {
    let of_run = |(name, limit): (&&str, usize)| if name.ends_with("_names") { limit } else { 8 * limit };
    HEADER + runs::NAMES.iter().zip(runs::LIMITS).map(of_run).sum::<usize>()
}

/// The catalogue in these bytes, or why there is none. Nothing of a file is believed before its checksum has been found right.
pub fn decode(path: &Path, bytes: &[u8]) -> Result<(OwnedTables, Counts), Failure> {
    let path = path.display();
    // a file that was cut within that word begins with a part of it
    let begins = bytes.starts_with(MAGIC) || (!bytes.is_empty() && MAGIC.starts_with(bytes));
    if !begins {
        return Err(Failure::new(code::DATA, format!("{path} is no catalogue of gukoremo."))
            .why("it does not begin with the word gukoremo.")
            .advice("give the path of a file that 'gukoremo init' made."));
    }
    let damaged = |why: String| {
        Failure::new(code::DATA, format!("{path} is damaged, and nothing of it is used."))
            .why(why)
            .advice("take a copy of the file from before the damage; gukoremo itself replaces the file whole and leaves no part of one.")
    };
    if bytes.len() > longest() {
        return Err(damaged(format!("it is too large: no catalogue has more than {} bytes.", longest())));
    }
    if bytes.len() < HEADER {
        return Err(damaged(format!("it ends after {} bytes, within its header of {HEADER}.", bytes.len())));
    }
    let word = |at: usize| bytes[8 * at..8 * at + 8].iter().rev().fold(0, |word: u64, byte| word << 8 | *byte as u64);
    if word(1) != VERSION {
        return Err(Failure::new(code::DATA, format!("{path} has version {}, and this gukoremo reads version {VERSION}.", word(1)))
            .advice("use the gukoremo that wrote it, or one that is newer."));
    }
    let size = |at: usize| usize::try_from(word(at)).unwrap_or(usize::MAX);
    let mut lengths = [(0, 0); runs::COUNT];
    let mut end = HEADER;
    for (at, lengths) in lengths.iter_mut().enumerate() {
        *lengths = (size(12 + 2 * at), size(13 + 2 * at));
        if lengths.0 > runs::LIMITS[at] || lengths.1 > lengths.0 {
            return Err(damaged(format!("its header gives the {} a length that no catalogue has.", runs::NAMES[at])));
        }
        end += if runs::NAMES[at].ends_with("_names") { lengths.1 } else { 8 * lengths.1 };
    }
    if bytes.len() != end {
        let how = if bytes.len() < end { "truncated" } else { "too long" };
        return Err(damaged(format!("it is {how}: it has {} bytes, and its header asks for {end}.", bytes.len())));
    }
    if sum_of(bytes) != word(2) {
        return Err(damaged(format!("its checksum is {:016x}, and its header says {:016x}.", sum_of(bytes), word(2))));
    }
    let mut tables = OwnedTables::default();
    let mut rest = &bytes[HEADER..];
    for (run, (length, kept)) in runs::all(&mut tables).into_iter().zip(lengths) {
        match run {
            Run::Words(words) => {
                let (part, after) = rest.split_at(8 * kept);
                words.reserve_exact(length);
                words.extend(part.chunks_exact(8).map(|eight| u64::from_le_bytes(eight.try_into().unwrap_or_default())));
                words.resize(length, 0);
                rest = after;
            }
            Run::Bytes(names) => {
                let (part, after) = rest.split_at(kept);
                names.reserve_exact(length);
                names.extend_from_slice(part);
                names.resize(length, 0);
                rest = after;
            }
        }
    }
    Ok((tables, runs::counts_of(std::array::from_fn(|at| size(3 + at)))))
}

#[cfg(test)]
mod tests {
    use super::*;

    fn filled() -> (OwnedTables, Counts) {
        let mut tables = OwnedTables::with_room(runs::room(3));
        tables.snapshots[4] = u64::MAX;
        tables.schema_names[0] = 7;
        tables.scheduled[3] = 5;
        (tables, runs::counts_of([1, 2, 3, 4, 5, 6, 7, 8, usize::MAX]))
    }

    #[test]
    fn comes_back_word_for_word() {
        let (tables, counts) = filled();
        let bytes = encode(&tables, counts);
        let (again, counted) = decode(Path::new("x"), &bytes).expect("what was written");
        assert_eq!((again, counted), (tables, counts));
    }

    #[test]
    fn damage_is_found() {
        let (tables, counts) = filled();
        let bytes = encode(&tables, counts);
        for at in 0..bytes.len() {
            for bit in 0..8 {
                let mut damaged = bytes.clone();
                damaged[at] ^= 1 << bit;
                assert!(decode(Path::new("x"), &damaged).is_err(), "byte {at}, bit {bit}");
            }
            assert!(decode(Path::new("x"), &bytes[..at]).is_err(), "cut at {at}");
        }
        assert!(decode(Path::new("x"), &[&bytes[..], &[0]].concat()).is_err());
    }
}
