//! Lists of calls and readings as words, and what a list gives. The sources of these, crates/call_lists/src, have contracts and are no Rust as they stand;
//! `tests/header` holds the fields and numbers to them.

use crate::number::{CatalogId, FileId, SnapshotId};
use crate::outcome::Counts;
use crate::record::Uuid;

/// The words that are told of each: its outcome's number, place and length.
pub const TOLD_SIZE: usize = 3;

/// What a list gives: how many of its records were played, the words of all their answers, the catalogue record.
#[repr(C)]
#[derive(Clone, Copy, Debug, PartialEq, Eq)]
pub struct Session {
    /// How many of its records were played: all, or those before the first that asks for nothing.
    pub played: usize,
    /// The words of all their answers.
    pub answered: usize,
    /// The counts after the last.
    pub counts: Counts,
}

/// Where an argument lies in the run of its kind: its first word or byte, and how many.
#[derive(Clone, Copy, Debug, PartialEq, Eq)]
pub struct Span {
    /// The first word or byte.
    pub start: usize,
    /// How many.
    pub length: usize,
}

/// A call or a reading, fields in the order of its words; each reads those that it takes. `catalog` is a schema or a table, `file` a data file or, for the
/// lookup, any file; `words` are columns, statistics, positions or snapshot ids; `name` is a schema's or a table's, `names` are the columns'.
/// The scalar is a signed number, by its word.
///
/// A list ends before a record that asks for nothing: its kind is none of those below or of a change, or it is Fresh and not the first, or a span of it
/// leaves its run, one that is not taken too.
#[derive(Clone, Copy, Debug, PartialEq, Eq)]
pub struct CallRecord {
    /// What is asked for: the kind of a change, in [`crate::record`], or one of those below.
    pub kind: u64,
    /// The time of a call, and that of a cleanup or a reading by time.
    pub time: u64,
    /// The snapshot that is read.
    pub snapshot: SnapshotId,
    /// A schema or a table.
    pub catalog: CatalogId,
    /// A data file or, for the lookup, any file.
    pub file: FileId,
    /// The column that files are filtered by.
    pub column: u64,
    /// The value that files are filtered by.
    pub scalar: u64,
    /// The rows of a new file.
    pub record_count: u64,
    /// The UUID of a new file.
    pub uuid: Uuid,
    /// Columns, statistics, positions or snapshot ids.
    pub words: Span,
    /// The name of a schema or a table.
    pub name: Span,
    /// The places of the column names.
    pub names: Span,
}

impl CallRecord {
    /// The words of a record.
    pub const SIZE: usize = 16;

    /// The word of the kind.
    pub const KIND: usize = 0;

    /// The word of the time.
    pub const TIME: usize = 1;

    /// The word of the snapshot.
    pub const SNAPSHOT: usize = 2;

    /// The word of the schema or table.
    pub const CATALOG: usize = 3;

    /// The word of the file.
    pub const FILE: usize = 4;

    /// The word of the column.
    pub const COLUMN: usize = 5;

    /// The word of the scalar.
    pub const SCALAR: usize = 6;

    /// The word of the record count.
    pub const RECORD_COUNT: usize = 7;

    /// The word of the UUID's high half.
    pub const UUID_HIGH: usize = 8;

    /// The word of the UUID's low half.
    pub const UUID_LOW: usize = 9;

    /// The word of the first of its words.
    pub const WORDS_START: usize = 10;

    /// The word of the number of its words.
    pub const WORDS_LENGTH: usize = 11;

    /// The word of the name's first byte.
    pub const NAME_START: usize = 12;

    /// The word of the name's length.
    pub const NAME_LENGTH: usize = 13;

    /// The word of the first byte of the column names.
    pub const NAMES_START: usize = 14;

    /// The word of the number of bytes of the column names.
    pub const NAMES_LENGTH: usize = 15;

    /// A record of a kind, with 0 in every other word.
    ///
    /// ```
    /// use gukoremo::session::{CallRecord, CLEANED_UP};
    ///
    /// assert_eq!(CallRecord::of(CLEANED_UP).kind, CLEANED_UP);
    /// ```
    pub fn of(kind: u64) -> CallRecord {
        let none = Span { start: 0, length: 0 };
        CallRecord {
            kind,
            time: 0,
            snapshot: SnapshotId(0),
            catalog: CatalogId(0),
            file: FileId(0),
            column: 0,
            scalar: 0,
            record_count: 0,
            uuid: Uuid { high: 0, low: 0 },
            words: none,
            name: none,
            names: none,
        }
    }

    /// Its words.
    ///
    /// ```
    /// use gukoremo::session::{CallRecord, CLEANED_UP};
    ///
    /// let words = CallRecord { time: 150, ..CallRecord::of(CLEANED_UP) }.to_words();
    /// assert_eq!((words[CallRecord::KIND], words[CallRecord::TIME]), (CLEANED_UP, 150));
    /// ```
    pub fn to_words(&self) -> [u64; CallRecord::SIZE] {
        let mut words = [0; CallRecord::SIZE];
        words[Self::KIND] = self.kind;
        words[Self::TIME] = self.time;
        words[Self::SNAPSHOT] = self.snapshot.0;
        words[Self::CATALOG] = self.catalog.0;
        words[Self::FILE] = self.file.0;
        words[Self::COLUMN] = self.column;
        words[Self::SCALAR] = self.scalar;
        words[Self::RECORD_COUNT] = self.record_count;
        words[Self::UUID_HIGH] = self.uuid.high;
        words[Self::UUID_LOW] = self.uuid.low;
        words[Self::WORDS_START] = self.words.start as u64;
        words[Self::WORDS_LENGTH] = self.words.length as u64;
        words[Self::NAME_START] = self.name.start as u64;
        words[Self::NAME_LENGTH] = self.name.length as u64;
        words[Self::NAMES_START] = self.names.start as u64;
        words[Self::NAMES_LENGTH] = self.names.length as u64;
        words
    }
}

/// The kind of an expiry. A commit's kind is that of the change that it makes, in [`crate::record`]; the other calls and the readings have their own.
pub const EXPIRED_SNAPSHOTS: u64 = 100;

/// The kind of a cleanup.
pub const CLEANED_UP: u64 = 101;

/// The kind of Fresh.
pub const MADE_FRESH: u64 = 102;

/// The kind of a list of schemas.
pub const LISTED_SCHEMAS: u64 = 200;

/// The kind of a list of tables.
pub const LISTED_TABLES: u64 = 201;

/// The kind of a list of columns.
pub const LISTED_COLUMNS: u64 = 202;

/// The kind of a table by name.
pub const FOUND_TABLE_BY_NAME: u64 = 203;

/// The kind of a list of files.
pub const LISTED_FILES: u64 = 204;

/// The kind of a list of files by a value.
pub const LISTED_FILTERED_FILES: u64 = 205;

/// The kind of a list of rows.
pub const LISTED_ROWS: u64 = 206;

/// The kind of a snapshot by time.
pub const FOUND_SNAPSHOT_BY_TIME: u64 = 207;

/// The kind of the lookup of a file, which copies its record.
pub const COPIED_FILE: u64 = 208;
