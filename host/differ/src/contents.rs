//! Sound tables of any number of records up to the limits, of the contents on which the check is tried and measured.

use crate::runs;
use gukoremo::record::CREATED_SCHEMA;
use second::lent::{COLUMN_LIMIT, NAME_SIZE, NUMBER_LIMIT, POSITION_LIMIT, RECORD_LIMIT};
use second::types::Type;
use second::{Counts, Words, ABSENT};
use std::collections::BTreeSet;

/// One record more than a table may have.
pub const RECORDS: usize = RECORD_LIMIT + 1;

/// Rows of a data file and positions of a delete file: together as many positions as may be used.
pub const ROWS: usize = POSITION_LIMIT / RECORD_LIMIT;

/// The check tells keys apart by two hashes, as crates/sorting/src/colliding.rt has them: a word is mixed, one half of it times a factor, and the next
/// one added; of what comes of the last, mixed once more, some digits are the hash. Of one word by itself the first hash is its last digits.
pub const FACTORS: [u64; 2] = [2_654_435_769, 3_266_489_917];

const fn mixed(word: u64, factor: u64) -> u64 {
    (word & 0xffff_ffff) * factor + (word >> 32)
}

fn hashes(words: &[u64]) -> [u64; 2] {
    let [first, second] =
        FACTORS.map(|factor| mixed(words.iter().fold(0, |digest, word| mixed(digest, factor).wrapping_add(*word)), factor) >> 16 & 0xffff);
    match words {
        [word] => [word & 0xffff, second],
        _ => [first, second],
    }
}

/// A word whose lower half is 0 and whose upper half is below 65,536 has the hashes 0: it ends in zeros, and is mixed to its upper half.
const fn of_hash_zero(upper: u64) -> u64 {
    (upper & 0xffff) << 32
}

/// Names that begin and end with these have one hash, whatever stands between: a byte or two of the upper half of the last word, whose digits are not those
/// of the hash.
const BEFORE: &[u8; 26] = b"11111111111111111111111110";
const AFTER: &[u8; 4] = b"aaaa";
const NAME_BYTES: &[u8; 63] = b"0123456789ABCDEFGHIJKLMNOPQRSTUVWXYZ_abcdefghijklmnopqrstuvwxyz";

/// Seeds of what is random, beside 1 to 6 for the words of UUIDs.
const GAPS: u64 = 100;
const LIVES: u64 = 200;
const SCHEMA: u64 = 300;
const TABLE: u64 = 400;
const BEGIN: u64 = 500;
const DATA_FILE: u64 = 600;
const SCHEDULED: u64 = 700;
const NAMES: u64 = 800;

#[derive(Clone, Copy, PartialEq, Eq)]
enum Ids {
    Dense,
    /// As after expiry.
    Gaps,
    /// Those of files of one hash.
    OneHash,
}

#[derive(Clone, Copy)]
enum Uuids {
    Counting,
    /// Version 7, with a time that rises.
    Rising,
    /// Version 4.
    Random,
    OneHash,
}

#[derive(Clone, Copy)]
enum Names {
    /// Three letters, in the order of the records.
    Letters,
    /// 8 to 32 letters and digits.
    Random,
    /// The longest, one for all records but the first.
    One,
    /// The longest, each another.
    OneHash,
}

/// What tables hold, all of it sound. Where nothing else is said there are as many records of each kind, live throughout: all tables in the first schema; a
/// column, a data file and its statistics in each table; a delete file of each data file, of all its rows.
#[derive(Clone, Copy)]
pub struct Content {
    pub says: &'static str,
    ids: Ids,
    uuids: Uuids,
    names: Names,
    /// Tables in any schema, data files in any table and from any snapshot on, delete files in another order than data files.
    scattered: bool,
    /// Lives of one snapshot each, in any order, but of the first schema, table, column and data file.
    brief: bool,
    /// The delete files are all of the first data file, one after the other, the later with the lower id.
    falling: bool,
    /// As many columns in each table as it may have, and as many delete files, one after the other, of each data file.
    wide: bool,
}

/// What the limits are tried on.
pub const SAMPLE: Content = Content {
    says: "the sample",
    ids: Ids::Dense,
    uuids: Uuids::Counting,
    names: Names::Letters,
    scattered: false,
    brief: false,
    falling: false,
    wide: false,
};

const RANDOM: Content = Content { says: "random UUIDs and names", uuids: Uuids::Random, names: Names::Random, ..SAMPLE };
const OF_FILES: Content = Content { says: "UUIDs and file ids of one hash", ids: Ids::OneHash, uuids: Uuids::OneHash, ..SAMPLE };
const OF_NAMES: Content = Content { says: "names of one hash", names: Names::OneHash, ..SAMPLE };

pub const CONTENTS: [Content; 10] = [
    SAMPLE,
    Content { says: "rising UUIDs", uuids: Uuids::Rising, ..SAMPLE },
    RANDOM,
    Content { says: "the same, gaps in ids, references in any order", ids: Ids::Gaps, scattered: true, ..RANDOM },
    Content { says: "as many columns in a table, and delete files of a data file, as may be", wide: true, ..RANDOM },
    Content { says: "delete files of one data file, later ones with lower ids", falling: true, ..SAMPLE },
    OF_FILES,
    OF_NAMES,
    Content { says: "one name, lives of one snapshot in any order", names: Names::One, brief: true, ..SAMPLE },
    Content { says: "one hash, one name and later delete files with lower ids, together", names: Names::One, brief: true, falling: true, ..OF_FILES },
];

/// A fixed function of a seed and an index, so that the same number can be had again wherever a record refers to another: four times each half times a
/// factor, and the halves of the sum exchanged.
fn random(seed: u64, i: usize) -> u64 {
    let half = |x: u64| (x & 0xffff_ffff, x >> 32);
    (0..4).fold((seed << 32) + i as u64, |x, _| {
        let (low, high) = half(x);
        let (low, high) = half((low * 2_654_435_769).wrapping_add(high * 2_246_822_519));
        ((low << 32) + high).wrapping_add(11_400_714_819_323_198_485)
    })
}

/// The numbers below n in an order by a seed.
fn order(seed: u64, n: usize) -> Vec<usize> {
    let mut order: Vec<usize> = (0..n).collect();
    order.sort_by_key(|i| random(seed, *i));
    order
}

/// An id that rises with j, by gaps: of three kinds, so that the files of three tables have different ones.
fn gapped(kind: u64, j: usize) -> u64 {
    ((3 * j as u64 + kind) << 16) + (random(GAPS, j) & 0xffff)
}

/// The words of all records in a run: those of each, from its number.
fn run<const SIZE: usize>(n: usize, record: impl Fn(usize) -> [u64; SIZE]) -> Vec<u64> {
    (0..n).flat_map(record).collect()
}

impl Content {
    /// n records of each kind, and how many of them are used: of tables and data files fewer where they are wide.
    pub fn tables(&self, n: usize) -> (Words, Counts) {
        let picked = |seed: u64, i: usize| (random(seed, i) % n as u64) as usize;
        let (lives, files, scheduled) = (order(LIVES, n), order(DATA_FILE, n), order(SCHEDULED, n));
        // the end of a life up to the snapshot after j
        let after = |j: usize| if j + 1 == n { ABSENT } else { j as u64 + 1 };
        let begin = |i: usize| if self.brief && i > 0 { lives[i] as u64 } else { self.catalog_id(0) };
        let end = |i: usize| if self.brief && i > 0 { after(lives[i]) } else { ABSENT };
        // of a column: its table, which is also the data file of its statistics, and which of the table's columns it is
        let of_column = |i: usize| if self.wide { i / COLUMN_LIMIT } else { i };
        let column = |i: usize| if self.wide { (i % COLUMN_LIMIT) as u64 } else { 0 };
        // and its order: those of a table stand in the order that calls don't write
        let order_of = |i: usize| if self.wide { COLUMN_LIMIT as u64 - 1 - column(i) } else { 0 };
        // of a data file: its table and its begin
        let table_of = |i: usize| if self.scattered { picked(TABLE, i) } else { i };
        let data_file_begin = |i: usize| if self.scattered { self.catalog_id(picked(BEGIN, i)) } else { begin(i) };
        // of a delete file: its data file and its life
        let data_file_of = |i: usize| match (self.scattered, self.falling) {
            (true, _) => files[i],
            (_, true) => 0,
            _ => of_column(i),
        };
        let delete_file_life = |i: usize| match (self.falling, self.wide) {
            (true, _) => ((n - 1 - i) as u64, after(n - 1 - i)),
            (_, true) => (column(i), after(i % COLUMN_LIMIT)),
            _ => (data_file_begin(data_file_of(i)), end(i)),
        };
        let next = if self.ids == Ids::Dense { 3 * RECORDS as u64 } else { NUMBER_LIMIT };
        let rows = ROWS as u64;
        let delete_file = |i: usize| {
            let (data_file, (begin, end)) = (data_file_of(i), delete_file_life(i));
            let (table, [high, low]) = (self.catalog_id(table_of(data_file)), self.uuid(3, i));
            [self.file_id(1, i), table, begin, end, self.file_id(0, data_file), rows, high, low]
        };
        let words = Words {
            snapshots: run(n, |i| [self.catalog_id(i), i as u64, 0, next, next, CREATED_SCHEMA, 0]),
            schemas: run(n, |i| [self.catalog_id(i), begin(i), end(i)]),
            tables: run(n, |i| {
                let schema = if self.scattered { picked(SCHEMA, i) } else { 0 };
                [self.catalog_id(i), begin(i), end(i), self.catalog_id(schema), rows * RECORDS as u64]
            }),
            columns: run(n, |i| [column(i) + 1, self.catalog_id(of_column(i)), begin(i), end(i), order_of(i), Type::Int64 as u64, 0]),
            data_files: run(n, |i| {
                let [high, low] = self.uuid(1, i);
                [self.file_id(0, i), self.catalog_id(table_of(i)), data_file_begin(i), end(i), rows, rows * i as u64, high, low]
            }),
            delete_files: run(n, delete_file),
            positions: (0..n).flat_map(|_| 0..rows).collect(),
            // in each file one value of each column
            statistics: run(n, |i| [self.file_id(0, of_column(i)), column(i) + 1, 0, 1, 1, i as u64, i as u64]),
            // they need no order
            scheduled: run(n, |i| {
                let file = if self.ids == Ids::Dense { i } else { scheduled[i] };
                let [high, low] = self.uuid(5, i);
                [self.file_id(2, file), high, low, 0]
            }),
            schema_names: self.names(n),
            table_names: self.names(n),
            column_names: self.names(n),
        };
        let tables = if self.wide { n.div_ceil(COLUMN_LIMIT) } else { n };
        (words, Counts { tables, data_files: tables, positions: ROWS * n, ..Counts::of_each(n) })
    }

    /// Ids of snapshots, schemas and tables.
    fn catalog_id(&self, j: usize) -> u64 {
        match self.ids {
            Ids::Gaps => gapped(0, j),
            _ => j as u64,
        }
    }

    /// Ids of data files, delete files and scheduled files: the kinds 0, 1 and 2.
    fn file_id(&self, kind: u64, j: usize) -> u64 {
        match self.ids {
            Ids::Dense => kind * RECORDS as u64 + j as u64,
            Ids::Gaps => gapped(kind, j),
            Ids::OneHash => of_hash_zero(3 * j as u64 + kind),
        }
    }

    /// The high word of a UUID by a seed, and the low one by the next.
    fn uuid(&self, seed: u64, j: usize) -> [u64; 2] {
        let (high, low) = (random(seed, j), random(seed + 1, j));
        let versioned = |time: u64, version: u64| (time << 16) + (version << 12) + (high & 0xfff);
        let variant = (1 << 63) + (low & 0x3fff_ffff_ffff_ffff);
        match self.uuids {
            Uuids::Counting => [seed, j as u64],
            Uuids::Rising => [versioned(1_700_000_000_000 + j as u64, 7), variant],
            Uuids::Random => [versioned(high >> 16, 4), variant],
            // no two alike, since the factor is odd, and in no order
            Uuids::OneHash => [0, of_hash_zero((seed * RECORDS as u64 + j as u64).wrapping_mul(40_503))],
        }
    }

    fn names(&self, n: usize) -> Vec<u8> {
        (0..n).flat_map(|i| self.name(i)).collect()
    }

    fn name(&self, i: usize) -> [u8; NAME_SIZE] {
        let letter = |each: usize| b'a' + (i / each % 26) as u8;
        match self.names {
            Names::Letters => std::array::from_fn(|k| [letter(676), letter(26), letter(1)].get(k).copied().unwrap_or(0)),
            Names::Random => {
                let length = 8 + random(NAMES, i) as usize % 25;
                let byte = |k: usize| b"0123456789abcdefghijklmnopqrstuvwxyz"[random(NAMES, NAME_SIZE * i + k) as usize % 36];
                std::array::from_fn(|k| if k < length { byte(k) } else { 0 })
            }
            Names::One => [if i == 0 { b'b' } else { b'a' }; NAME_SIZE],
            Names::OneHash => {
                let between = [i / 63 % 63, i % 63].map(|digit| NAME_BYTES[digit]);
                let name: Vec<u8> = [&BEFORE[..], &between, AFTER].concat();
                // the few that are beyond the square begin otherwise, and have another hash
                std::array::from_fn(|k| if k == 0 && i >= 63 * 63 { b'2' } else { name[k] })
            }
        }
    }
}

/// The sample with room for one record more than each table may have, and for one position more.
pub fn past_the_limits() -> Words {
    let (mut words, _) = SAMPLE.tables(RECORDS);
    words.positions.truncate(POSITION_LIMIT + 1);
    words
}

/// Every table full; the kth run, from 1 on, with one record more than it may have.
pub fn full(k: usize) -> Counts {
    let limits = runs::counts(&Counts { positions: POSITION_LIMIT, ..Counts::of_each(RECORD_LIMIT) });
    runs::counts_of(std::array::from_fn(|run| limits[run] + u64::from(run + 1 == k)))
}

/// One table of so many columns and no file: the columns, and what is used.
pub fn one_table(columns: usize) -> (Vec<u64>, Counts) {
    let words = run(columns, |i| [i as u64 + 1, 0, 0, ABSENT, i as u64, Type::Int64 as u64, 0]);
    let used = Counts { snapshots: RECORD_LIMIT, schemas: RECORD_LIMIT, tables: 1, columns, scheduled: RECORD_LIMIT, ..Counts::default() };
    (words, used)
}

/// An error where ids, UUIDs or names that are made to have one hash have another.
pub fn have_one_hash() -> Result<(), String> {
    let ids = (0..3).flat_map(|kind| (0..RECORDS).map(move |j| vec![OF_FILES.file_id(kind, j)]));
    let uuids = [1, 3, 5].into_iter().flat_map(|seed| (0..RECORDS).map(move |j| OF_FILES.uuid(seed, j).to_vec()));
    let name = |i: usize| {
        let name = OF_NAMES.name(i);
        let words = name.chunks_exact(8).map(|word| word.iter().fold(0, |word, byte| word << 8 | u64::from(*byte)));
        [0].into_iter().chain(words).collect::<Vec<u64>>()
    };
    let of_one = |keys: &mut dyn Iterator<Item = Vec<u64>>| keys.map(|key| hashes(&key)).collect::<BTreeSet<[u64; 2]>>().len() == 1;
    match of_one(&mut { ids }) && of_one(&mut { uuids }) && of_one(&mut (0..63 * 63).map(name)) {
        true => Ok(()),
        false => Err("contents that are said to have one hash have more".to_string()),
    }
}
