//! The compiled calls as they stand. What is unsafe is here and nowhere else. The declarations are held to the sources of the calls by `tests/header`.
#![allow(unsafe_code, clippy::too_many_arguments)]

use crate::number::{CatalogId, FileId, SnapshotId};
use crate::outcome::{Counts, Outcome, Terms};
use crate::record::Uuid;
use crate::session::Session;
use crate::tables::{Tables, TablesView};

/// What the calls are, for a version line.
pub const OVER: &str = "over the proved calls";

/// A call that may write the runs: the function that is called here and its parameters, the compiled one and its own after the counts.
macro_rules! change {
    ($(#[$doc:meta])* $name:ident($($argument:ident: $type:ty),*) -> $result:ty = $symbol:ident($($given:expr => $raw:ty),*)) => {
        $(#[$doc])*
        pub fn $name(lent: Tables<'_>, counts: Counts, $($argument: $type),*) -> $result {
            extern "C" {
                fn $symbol(
                    snapshots: *mut u64, snapshots_length: usize, schemas: *mut u64, schemas_length: usize, schema_names: *mut u8, schema_names_length: usize,
                    tables: *mut u64, tables_length: usize, table_names: *mut u8, table_names_length: usize,
                    columns: *mut u64, columns_length: usize, column_names: *mut u8, column_names_length: usize,
                    data_files: *mut u64, data_files_length: usize, delete_files: *mut u64, delete_files_length: usize,
                    positions: *mut u64, positions_length: usize, statistics: *mut u64, statistics_length: usize,
                    scheduled: *mut u64, scheduled_length: usize, counts: Counts, $(_: $raw),*
                ) -> $result;
            }
            // SAFETY: each pointer and length are those of a slice, which is there for the whole call. The runs, the area and the reports are `&mut`, so
            // nothing else reaches them meanwhile and none overlaps another. The call asks for nothing more (it has no `requires`), writes only within
            // them, keeps no pointer, ends, and does not unwind. The declaration is the call's own (tests/header).
            unsafe {
                $symbol(
                    lent.snapshots.as_mut_ptr(), lent.snapshots.len(), lent.schemas.as_mut_ptr(), lent.schemas.len(),
                    lent.schema_names.as_mut_ptr(), lent.schema_names.len(), lent.tables.as_mut_ptr(), lent.tables.len(),
                    lent.table_names.as_mut_ptr(), lent.table_names.len(), lent.columns.as_mut_ptr(), lent.columns.len(),
                    lent.column_names.as_mut_ptr(), lent.column_names.len(), lent.data_files.as_mut_ptr(), lent.data_files.len(),
                    lent.delete_files.as_mut_ptr(), lent.delete_files.len(), lent.positions.as_mut_ptr(), lent.positions.len(),
                    lent.statistics.as_mut_ptr(), lent.statistics.len(), lent.scheduled.as_mut_ptr(), lent.scheduled.len(),
                    counts, $($given),*
                )
            }
        }
    };
}

/// Calls that change tables: what stands between the counts and the area.
macro_rules! changes {
    ($($(#[$doc:meta])* $name:ident($($argument:ident: $type:ty),*) = $symbol:ident($($given:expr => $raw:ty),*);)*) => {
        $(change! {
            $(#[$doc])* $name($($argument: $type,)* area: &mut [u64]) -> Outcome =
                $symbol($($given => $raw,)* area.as_mut_ptr() => *mut u64, area.len() => usize)
        })*
    };
}

/// Calls that play others, readings too, and tell of each, in a run after the area.
macro_rules! plays {
    ($($(#[$doc:meta])* $name:ident($($argument:ident: $type:ty),*) = $symbol:ident($($given:expr => $raw:ty),*);)*) => {
        $(change! {
            $(#[$doc])* $name($($argument: $type,)* area: &mut [u64], told: &mut [u64]) -> Session =
                $symbol($($given => $raw,)* area.as_mut_ptr() => *mut u64, area.len() => usize, told.as_mut_ptr() => *mut u64, told.len() => usize)
        })*
    };
}

/// Calls that write the area alone.
macro_rules! reads {
    ($($(#[$doc:meta])* $name:ident($($argument:ident: $type:ty),*) = $symbol:ident($($given:expr => $raw:ty),*);)*) => {
        extern "C" {
            $(fn $symbol(
                snapshots: *const u64, snapshots_length: usize, schemas: *const u64, schemas_length: usize, schema_names: *const u8, schema_names_length: usize,
                tables: *const u64, tables_length: usize, table_names: *const u8, table_names_length: usize,
                columns: *const u64, columns_length: usize, column_names: *const u8, column_names_length: usize,
                data_files: *const u64, data_files_length: usize, delete_files: *const u64, delete_files_length: usize,
                positions: *const u64, positions_length: usize, statistics: *const u64, statistics_length: usize,
                scheduled: *const u64, scheduled_length: usize, counts: Counts, $(_: $raw,)* area: *mut u64, area_length: usize,
            ) -> Outcome;)*
        }
        $($(#[$doc])*
        pub fn $name(lent: TablesView<'_>, counts: Counts, $($argument: $type,)* area: &mut [u64]) -> Outcome {
            // SAFETY: each pointer and length are those of a slice, which is there for the whole call. The area is `&mut`, so nothing else reaches it and
            // it overlaps nothing. The call asks for nothing more (it has no `requires`), writes only within the area, keeps no pointer, ends, and does
            // not unwind. The declaration is the call's own (tests/header).
            unsafe {
                $symbol(
                    lent.snapshots.as_ptr(), lent.snapshots.len(), lent.schemas.as_ptr(), lent.schemas.len(),
                    lent.schema_names.as_ptr(), lent.schema_names.len(), lent.tables.as_ptr(), lent.tables.len(),
                    lent.table_names.as_ptr(), lent.table_names.len(), lent.columns.as_ptr(), lent.columns.len(),
                    lent.column_names.as_ptr(), lent.column_names.len(), lent.data_files.as_ptr(), lent.data_files.len(),
                    lent.delete_files.as_ptr(), lent.delete_files.len(), lent.positions.as_ptr(), lent.positions.len(),
                    lent.statistics.as_ptr(), lent.statistics.len(), lent.scheduled.as_ptr(), lent.scheduled.len(),
                    counts, $($given,)* area.as_mut_ptr(), area.len(),
                )
            }
        })*
    };
}

/// Calls that write nothing and have no area: they give a number.
macro_rules! judges {
    ($($(#[$doc:meta])* $name:ident() = $symbol:ident();)*) => {
        extern "C" {
            $(fn $symbol(
                snapshots: *const u64, snapshots_length: usize, schemas: *const u64, schemas_length: usize, schema_names: *const u8, schema_names_length: usize,
                tables: *const u64, tables_length: usize, table_names: *const u8, table_names_length: usize,
                columns: *const u64, columns_length: usize, column_names: *const u8, column_names_length: usize,
                data_files: *const u64, data_files_length: usize, delete_files: *const u64, delete_files_length: usize,
                positions: *const u64, positions_length: usize, statistics: *const u64, statistics_length: usize,
                scheduled: *const u64, scheduled_length: usize, counts: Counts,
            ) -> u64;)*
        }
        $($(#[$doc])*
        pub fn $name(lent: TablesView<'_>, counts: Counts) -> u64 {
            // SAFETY: each pointer and length are those of a slice, which is there for the whole call. The call asks for nothing more (it has no
            // `requires`), writes nothing, keeps no pointer, ends, and does not unwind. The declaration is the call's own (tests/header).
            unsafe {
                $symbol(
                    lent.snapshots.as_ptr(), lent.snapshots.len(), lent.schemas.as_ptr(), lent.schemas.len(),
                    lent.schema_names.as_ptr(), lent.schema_names.len(), lent.tables.as_ptr(), lent.tables.len(),
                    lent.table_names.as_ptr(), lent.table_names.len(), lent.columns.as_ptr(), lent.columns.len(),
                    lent.column_names.as_ptr(), lent.column_names.len(), lent.data_files.as_ptr(), lent.data_files.len(),
                    lent.delete_files.as_ptr(), lent.delete_files.len(), lent.positions.as_ptr(), lent.positions.len(),
                    lent.statistics.as_ptr(), lent.statistics.len(), lent.scheduled.as_ptr(), lent.scheduled.len(),
                    counts,
                )
            }
        })*
    };
}

changes! {
    fresh(time: u64) = gukoremo_raw_fresh(time => u64);
    create_schema(time: u64, name: &[u8]) = gukoremo_raw_create_schema(Terms { time } => Terms, name.as_ptr() => *const u8, name.len() => usize);
    drop_schema(time: u64, schema: CatalogId) = gukoremo_raw_drop_schema(Terms { time } => Terms, schema => CatalogId);
    /// Two words for each column, type and nulls_allowed, and a place of 32 bytes for its name.
    create_table(time: u64, schema: CatalogId, name: &[u8], new_columns: &[u64], new_names: &[u8]) = gukoremo_raw_create_table(
        Terms { time } => Terms, schema => CatalogId, name.as_ptr() => *const u8, name.len() => usize, new_columns.as_ptr() => *const u64, new_columns.len() => usize,
        new_names.as_ptr() => *const u8, new_names.len() => usize);
    drop_table(time: u64, table: CatalogId) = gukoremo_raw_drop_table(Terms { time } => Terms, table => CatalogId);
    /// Six words for each live column: column id, null_count, has_min, has_max, min, max.
    insert(time: u64, table: CatalogId, record_count: u64, uuid: Uuid, new_statistics: &[u64]) = gukoremo_raw_insert(
        Terms { time } => Terms, table => CatalogId, record_count => u64, uuid => Uuid, new_statistics.as_ptr() => *const u64, new_statistics.len() => usize);
    delete(time: u64, data_file: FileId, uuid: Uuid, new_positions: &[u64]) = gukoremo_raw_delete(
        Terms { time } => Terms, data_file => FileId, uuid => Uuid, new_positions.as_ptr() => *const u64, new_positions.len() => usize);
    expire(ids: &[u64], time: u64) = gukoremo_raw_expire(ids.as_ptr() => *const u64, ids.len() => usize, time => u64);
    /// The answer is three words for each file: id, UUID high, UUID low.
    cleanup(t: u64) = gukoremo_raw_cleanup(t => u64);
}

plays! {
    /// The records of calls and readings, by [`crate::session::CallRecord`], and the runs that their spans lie in.
    play(calls: &[u64], lists: &[u64], names: &[u8]) = gukoremo_raw_play(
        calls.as_ptr() => *const u64, calls.len() => usize, lists.as_ptr() => *const u64, lists.len() => usize,
        names.as_ptr() => *const u8, names.len() => usize);
}

reads! {
    list_schemas(snapshot: SnapshotId) = gukoremo_raw_list_schemas(snapshot => SnapshotId);
    list_tables(snapshot: SnapshotId, schema: CatalogId) = gukoremo_raw_list_tables(snapshot => SnapshotId, schema => CatalogId);
    list_columns(snapshot: SnapshotId, table: CatalogId) = gukoremo_raw_list_columns(snapshot => SnapshotId, table => CatalogId);
    table_by_name(snapshot: SnapshotId, schema: CatalogId, name: &[u8]) = gukoremo_raw_table_by_name(
        snapshot => SnapshotId, schema => CatalogId, name.as_ptr() => *const u8, name.len() => usize);
    /// The answer is two words for each file: data file, delete file or ABSENT.
    list_files(snapshot: SnapshotId, table: CatalogId) = gukoremo_raw_list_files(snapshot => SnapshotId, table => CatalogId);
    list_filtered_files(snapshot: SnapshotId, table: CatalogId, column: u64, scalar: i64) = gukoremo_raw_list_filtered_files(
        snapshot => SnapshotId, table => CatalogId, column => u64, scalar => i64);
    list_rows(snapshot: SnapshotId, table: CatalogId) = gukoremo_raw_list_rows(snapshot => SnapshotId, table => CatalogId);
    snapshot_by_time(t: u64) = gukoremo_raw_snapshot_by_time(t => u64);
    /// The answer is the eight words of a data file's or of a delete file's record.
    copy_file(id: FileId) = gukoremo_raw_find_file(id => FileId);
}

judges! {
    /// The first line of 'Sound tables' that doesn't hold, by the numbers of [`crate::line`].
    first_unsound() = gukoremo_raw_first_unsound();
}
