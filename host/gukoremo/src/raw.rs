//! The calls with every argument, the whole outcome, and the answer area, of any length.
//!
//! They are the compiled calls, which are proved. With the feature `unproved` they are the second implementation: the same functions with the same outcomes,
//! for a machine without the proved library, and nothing of them is proved.
//!
//! ```
//! use gukoremo::{outcome, raw, Counts, Lend, OwnedTables, SnapshotId};
//!
//! let mut tables = OwnedTables::with_room(Counts::each(4));
//! let made = raw::fresh(tables.lend(), Counts::NONE, 100, &mut []);
//! let mut area = [0; 4];
//! let given = raw::list_schemas(tables.view(), made.counts, SnapshotId(0), &mut area);
//! assert_eq!((given.number, &area[..given.length]), (outcome::ACCEPTED, &[0][..]));
//! ```

// The functions are described where they are given on.
#[cfg(not(feature = "unproved"))]
#[allow(missing_docs)]
mod compiled;
#[cfg(feature = "unproved")]
#[allow(missing_docs)]
mod unproved;

#[cfg(not(feature = "unproved"))]
use compiled as calls;
#[cfg(feature = "unproved")]
use unproved as calls;

/// Scheduled files are handed out: [`Catalog::cleanup`](crate::Catalog::cleanup).
#[doc(inline)]
pub use calls::cleanup;
/// A file on record, whose words are copied to the area: [`Catalog::find_file`](crate::Catalog::find_file).
#[doc(inline)]
pub use calls::copy_file;
/// A new schema: [`Catalog::create_schema`](crate::Catalog::create_schema).
#[doc(inline)]
pub use calls::create_schema;
/// A new table: [`Catalog::create_table`](crate::Catalog::create_table).
#[doc(inline)]
pub use calls::create_table;
/// Rows of a data file are gone, by position: [`Catalog::delete`](crate::Catalog::delete).
#[doc(inline)]
pub use calls::delete;
/// A schema is gone: [`Catalog::drop_schema`](crate::Catalog::drop_schema).
#[doc(inline)]
pub use calls::drop_schema;
/// A table is gone: [`Catalog::drop_table`](crate::Catalog::drop_table).
#[doc(inline)]
pub use calls::drop_table;
/// Snapshots are gone: [`Catalog::expire`](crate::Catalog::expire).
#[doc(inline)]
pub use calls::expire;
/// Whether the tables are sound: [`Catalog::first_unsound`](crate::Catalog::first_unsound).
#[doc(inline)]
pub use calls::first_unsound;
/// An empty catalogue with schema 0, `main`, whatever the tables and the counts are: [`Catalog::fresh`](crate::Catalog::fresh).
#[doc(inline)]
pub use calls::fresh;
/// A new data file: [`Catalog::insert`](crate::Catalog::insert).
#[doc(inline)]
pub use calls::insert;
/// A word for each column of a table: [`Catalog::list_columns`](crate::Catalog::list_columns).
#[doc(inline)]
pub use calls::list_columns;
/// The files of a table: [`Catalog::list_files`](crate::Catalog::list_files).
#[doc(inline)]
pub use calls::list_files;
/// The same of those that may hold a value: [`Catalog::list_filtered_files`](crate::Catalog::list_filtered_files).
#[doc(inline)]
pub use calls::list_filtered_files;
/// A word for each row of a table: [`Catalog::list_rows`](crate::Catalog::list_rows).
#[doc(inline)]
pub use calls::list_rows;
/// A word for each schema: [`Catalog::list_schemas`](crate::Catalog::list_schemas).
#[doc(inline)]
pub use calls::list_schemas;
/// A word for each table of a schema: [`Catalog::list_tables`](crate::Catalog::list_tables).
#[doc(inline)]
pub use calls::list_tables;
/// A list of calls and readings, with the number, place and length of each in the last run: [`Catalog::play`](crate::Catalog::play).
#[doc(inline)]
pub use calls::play;
/// The highest retained snapshot at or before a time: [`Catalog::snapshot_by_time`](crate::Catalog::snapshot_by_time).
#[doc(inline)]
pub use calls::snapshot_by_time;
/// A table, by its name: [`Catalog::table_by_name`](crate::Catalog::table_by_name).
#[doc(inline)]
pub use calls::table_by_name;
/// What the calls are, for a version line: proved or not.
#[doc(inline)]
pub use calls::OVER;
