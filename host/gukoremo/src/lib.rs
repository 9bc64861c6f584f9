//! A DuckLake 0.3 snapshot catalogue on lent tables, for safe Rust: the compiled calls of the crates `catalog_*`.
//!
//! A [`Catalog`] is tables, which it owns ([`OwnedTables`]) or is lent ([`Tables`]), with the counts of what is used in them. Its methods are the calls. Each
//! takes any content of the tables, and either does what document 01 says or gives a [`Refusal`] and changes nothing. A [`CallList`] of calls
//! and readings is played as one call. [`Records`] are what lies in the tables, as values: snapshots, names, column types, statistics, positions.
//!
//! ```
//! use gukoremo::{Catalog, CatalogId, ColumnType, Counts, FileId, NewColumn, NewStatistics, OwnedTables, RowId, SnapshotId, Uuid};
//!
//! // room for eight records of each kind; the catalogue begins with the schema `main`, id 0
//! let mut catalog = Catalog::fresh(OwnedTables::with_room(Counts::each(8)), 100)?;
//!
//! // a table, id 1, of one column
//! let columns = [NewColumn { name: "item", column_type: ColumnType::Int64, nulls_allowed: false }];
//! catalog.create_table(110, CatalogId(0), "diary", &columns)?;
//!
//! // a data file, id 0, of three rows; and a delete file, id 1, of the second of them
//! let statistics = [NewStatistics { column: 1, null_count: 0, min: Some(1), max: Some(3) }];
//! catalog.insert(120, CatalogId(1), 3, Uuid::from_u128(1), &statistics)?;
//! catalog.delete(130, FileId(0), Uuid::from_u128(2), &[1])?;
//!
//! // the rows of the table before the delete, and after it
//! assert_eq!(catalog.list_rows(SnapshotId(2), CatalogId(1))?, [0, 1, 2].map(RowId));
//! assert_eq!(catalog.list_rows(SnapshotId(3), CatalogId(1))?, [0, 2].map(RowId));
//! # Ok::<(), gukoremo::Refusal>(())
//! ```
//!
//! Examples at the methods go on from this catalogue.
//!
//! # What is proved
//!
//! The calls are those of the library that `make library` proves and writes. With the feature `unproved` they are those of the second implementation, for a
//! machine without the Rattle kit: the outcomes are the same, as far as tests show, and nothing of them is proved. [`raw::OVER`] says which it is.
//!
//! # Time and stack
//!
//! Each call first checks the tables; a list checks them once, where they are sound and left so by calls. The compiled calls take no heap, and at most 1 MiB
//! of the stack: 622 KiB were measured, for a list on tables at the limits. That has room on a thread with Rust's usual 2 MiB, and not on a much smaller one.
//!
//! # Levels
//!
//! [`raw`] has the same calls with every argument and the whole outcome, answer area and all. All that is unsafe stands there. [`number`], [`outcome`],
//! [`record`] and [`line`](mod@line) are the layout of the tables and the numbers, included from the sources that the proofs are about.
#![deny(unsafe_code)]
#![warn(missing_docs)]

mod answers;
mod arguments;
mod catalog;
mod change;
mod column_type;
mod ids;
/// The lines of document 01's 'Sound tables' by number: [`Line`] has them as values. `SOUND` is none of them.
///
/// This is the source that the proofs are about, whose comments are no doc comments.
#[allow(missing_docs)]
#[path = "../../../crates/soundness/src/line.rt"]
pub mod line;
mod list;
/// Ids, limits and sizes.
///
/// | constant | what it is |
/// |---|---|
/// | `ABSENT` | the word of an end that is not set, and of a delete file that is not there |
/// | `NUMBER_LIMIT` | ids, next ids, row numbers, column orders and schema versions are at most this: 2^62 |
/// | `TABLE_LIMIT` | a table uses at most this many records |
/// | `POSITION_LIMIT` | all delete files together have at most this many positions |
/// | `RECORD_COUNT_LIMIT` | a data file has at most this many rows |
/// | `COLUMN_LIMIT` | a table has at most this many live columns |
/// | `NAME_SIZE` | the bytes of a name's place |
/// | `COLUMN_ARGUMENT_SIZE`, `STATISTICS_ARGUMENT_SIZE` | the words of a new column, and of new statistics |
/// | `HANDED_SIZE` | the words of a file that a cleanup hands out |
///
/// This is the source that the proofs are about, whose comments are no doc comments.
#[allow(missing_docs)]
#[path = "../../../crates/layout/src/number.rt"]
pub mod number;
/// Counts, outcomes, and the refusals by number: [`Refusal`] has them as values. `ACCEPTED` is none of them.
///
/// This is the source that the proofs are about, whose comments are no doc comments.
#[allow(missing_docs)]
#[path = "../../../crates/layout/src/outcome.rt"]
pub mod outcome;
mod plain;
pub mod raw;
mod reader;
/// The records as they lie in the tables: of each the words that it has (`SIZE`), and which word a field is; and the kinds of changes by number. [`Records`]
/// reads them, as [`Snapshot`], [`Schema`], [`Table`], [`Column`], [`DataFile`], [`DeleteFile`], [`Statistics`] and [`Scheduled`], where each field is
/// described; [`Change`] has the kinds as values.
///
/// This is the source that the proofs are about, whose comments are no doc comments.
#[allow(missing_docs)]
#[path = "../../../crates/layout/src/record.rt"]
pub mod record;
mod records;
mod refusal;
mod room;
pub mod session;
mod tables;
mod unsound;
mod uuid;

pub use answers::{CreatedSchema, CreatedTable, Deleted, Handed, Inserted, Listed};
pub use arguments::{NewColumn, NewStatistics};
pub use catalog::{Catalog, ANSWER_LIMIT};
pub use change::Change;
pub use column_type::{ColumnType, UnknownType};
pub use list::CallList;
/// The id of a schema or of a table: they share one counter.
///
/// ```
/// assert_eq!(format!("{0} {0:?}", gukoremo::CatalogId(3)), "3 CatalogId(3)");
/// ```
#[doc(inline)]
pub use number::CatalogId;
/// The id of a data file or of a delete file: they share one counter.
///
/// ```
/// assert!(gukoremo::FileId(2) < gukoremo::FileId(10));
/// ```
#[doc(inline)]
pub use number::FileId;
/// The number of a row in its table.
///
/// ```
/// assert_eq!([0, 2].map(gukoremo::RowId).map(|row| row.0), [0, 2]);
/// ```
#[doc(inline)]
pub use number::RowId;
/// The id of a snapshot.
///
/// ```
/// assert_eq!(format!("{0} {0:?}", gukoremo::SnapshotId(3)), "3 SnapshotId(3)");
/// ```
#[doc(inline)]
pub use number::SnapshotId;
/// How many records of each table, and how many positions, are used, or have places: document 01's catalogue record.
///
/// ```
/// use gukoremo::Counts;
///
/// assert_eq!(Counts { positions: 0, ..Counts::each(4) }.scheduled, 4);
/// ```
#[doc(inline)]
pub use outcome::Counts;
/// What a call of [`raw`] gives: 0 or the refusal's number, its place, the words of the answer, and the counts after it. [`Refusal::judge`] takes it.
#[doc(inline)]
pub use outcome::Outcome;
pub use reader::Records;
/// The UUID of a file, as two words. It is shown and read as the `uuid` crate does, and made of and into a `uuid::Uuid`.
///
/// ```
/// use gukoremo::Uuid;
///
/// let uuid: Uuid = "0198c2a4-0f3e-7abc-8def-0123456789ab".parse()?;
/// assert_eq!(uuid.to_string(), "0198c2a4-0f3e-7abc-8def-0123456789ab");
/// # Ok::<(), Box<dyn std::error::Error>>(())
/// ```
#[doc(inline)]
pub use record::Uuid;
pub use records::{Column, DataFile, DeleteFile, File, Life, Scheduled, Schema, Snapshot, Statistics, Table};
pub use refusal::Refusal;
pub use session::Session;
pub use tables::{Lend, OwnedTables, Tables, TablesView};
pub use unsound::Line;
