//! Calls and readings in the words of a list that `catalog_play` takes, and out of them again, as crates/call_lists/specs says.

use crate::step::{self, Argument, Step};
use gukoremo::record::{CREATED_TABLE, INSERTED_INTO_TABLE};
use gukoremo::session::{CallRecord, MADE_FRESH};
use gukoremo::{CallList, CatalogId, FileId, SnapshotId, Uuid};
use second::{Call, Reading};

/// The spans of a record: the words of start and length, and whether it lies in the run of words.
pub const SPANS: [(usize, usize, bool); 3] = [
    (CallRecord::WORDS_START, CallRecord::WORDS_LENGTH, true),
    (CallRecord::NAME_START, CallRecord::NAME_LENGTH, false),
    (CallRecord::NAMES_START, CallRecord::NAMES_LENGTH, false),
];

/// Which of them a step takes.
pub fn takes(step: &Step) -> [bool; 3] {
    let arguments = step::arguments(step);
    [
        arguments.iter().any(|argument| matches!(argument, Argument::Words(_))),
        arguments.iter().any(|argument| matches!(argument, Argument::Name(_))),
        arguments.iter().any(|argument| matches!(argument, Argument::Places(_))),
    ]
}

/// Adds a step to a list.
pub fn push(list: &mut CallList, step: &Step) {
    match step {
        Step::Call(call) => push_call(list, call),
        Step::Reading(reading) => push_reading(list, reading),
    }
}

/// With columns and statistics as they are, which may be none; Fresh anywhere.
fn push_call(list: &mut CallList, call: &Call) {
    let uuid_of = |(high, low): (u64, u64)| Uuid { high, low };
    match call {
        Call::Fresh { time } => list.push(CallRecord { time: *time, ..CallRecord::of(MADE_FRESH) }, &[], &[], &[]),
        Call::CreateSchema { time, name } => list.push_create_schema(*time, name),
        Call::DropSchema { time, schema } => list.push_drop_schema(*time, CatalogId(*schema)),
        Call::CreateTable { time, schema, name, columns, column_names } => {
            list.push(CallRecord { time: *time, catalog: CatalogId(*schema), ..CallRecord::of(CREATED_TABLE) }, columns, name, column_names)
        }
        Call::DropTable { time, table } => list.push_drop_table(*time, CatalogId(*table)),
        Call::Insert { time, table, record_count, uuid, statistics } => {
            let (time, catalog, record_count, uuid) = (*time, CatalogId(*table), *record_count, uuid_of(*uuid));
            list.push(CallRecord { time, catalog, record_count, uuid, ..CallRecord::of(INSERTED_INTO_TABLE) }, statistics, &[], &[])
        }
        Call::Delete { time, data_file, uuid, positions } => list.push_delete(*time, FileId(*data_file), uuid_of(*uuid), positions),
        Call::Expire { ids, time } => list.push_expire(&ids.iter().copied().map(SnapshotId).collect::<Vec<_>>(), *time),
        Call::Cleanup { t } => list.push_cleanup(*t),
    }
}

fn push_reading(list: &mut CallList, reading: &Reading) {
    match reading {
        Reading::Schemas { snapshot } => list.push_list_schemas(SnapshotId(*snapshot)),
        Reading::Tables { snapshot, schema } => list.push_list_tables(SnapshotId(*snapshot), CatalogId(*schema)),
        Reading::Columns { snapshot, table } => list.push_list_columns(SnapshotId(*snapshot), CatalogId(*table)),
        Reading::TableByName { snapshot, schema, name } => list.push_table_by_name(SnapshotId(*snapshot), CatalogId(*schema), name),
        Reading::Files { snapshot, table } => list.push_list_files(SnapshotId(*snapshot), CatalogId(*table)),
        Reading::FilteredFiles { snapshot, table, column, scalar } => {
            list.push_list_filtered_files(SnapshotId(*snapshot), CatalogId(*table), *column, *scalar)
        }
        Reading::Rows { snapshot, table } => list.push_list_rows(SnapshotId(*snapshot), CatalogId(*table)),
        Reading::ByTime { t } => list.push_snapshot_by_time(*t),
        Reading::FindFile { id } => list.push_find_file(FileId(*id)),
    }
}

/// The list as the second implementation takes it.
pub fn second_list(list: &CallList) -> second::CallList<'_> {
    second::CallList { calls: &list.calls, lists: &list.lists, names: &list.names }
}

/// The step that a record of a list is; none where it asks for nothing, or where there is no such record.
pub fn step_at(list: &CallList, i: usize) -> Option<Step> {
    second_list(list).step(i)
}
