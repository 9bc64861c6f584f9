//! A change as a record of a list of calls, and what will be said of it if it is accepted.

use super::change::Change;
use super::live::{Live, Missing};
use crate::list::{Cell, Fields, Said};
use crate::values::columns::Column;
use crate::values::statistics::Statistics;
use gukoremo::{CallList, CatalogId, FileId, NewColumn, NewStatistics, SnapshotId, Uuid};

/// What a change will have done.
pub enum Planned {
    Commit(Said),
    Expiry(Vec<u64>),
    Cleanup,
}

/// Puts a change at the end of a list; what is live moves on with it. A name that is not there leaves both as they are.
pub fn plan(change: &Change, live: &mut Live, list: &mut CallList) -> Result<Planned, Missing> {
    let (time, what, fields) = match change {
        Change::CreateSchema { time, name } => {
            list.push_create_schema(*time, name);
            let id = live.create_schema(name).0;
            (time, format!("schema {name}, id {id}"), vec![("schema", Cell::Number(id))])
        }
        Change::DropSchema { time, schema } => {
            let id = live.schema(schema)?;
            list.push_drop_schema(*time, id);
            live.drop_schema(id);
            (time, format!("schema {schema} dropped"), vec![("schema", Cell::Number(id.0))])
        }
        Change::CreateTable { time, schema, name, columns } => {
            let of_schema = live.schema(schema)?;
            let new: Vec<NewColumn<'_>> = columns.iter().map(new_column).collect();
            list.push_create_table(*time, of_schema, name, &new);
            let id = live.create_table(of_schema, name, columns).0;
            (time, format!("table {schema}.{name}, id {id}"), vec![("table", Cell::Number(id))])
        }
        Change::DropTable { time, table } => {
            let id = live.table(table)?;
            list.push_drop_table(*time, id);
            live.drop_table(id);
            (time, format!("table {table} dropped"), vec![("table", Cell::Number(id.0))])
        }
        Change::Insert { time, table, rows, uuid, statistics } => {
            let id = live.table(table)?;
            list.push_insert(*time, id, *rows, *uuid, &new_statistics(live, id, statistics)?);
            let file = live.insert(id);
            (time, format!("file {} of {rows} rows in {table}, {}", file.0, uuid.path()), file_fields(id, file, *uuid))
        }
        Change::Delete { time, file, positions, uuid } => {
            list.push_delete(*time, *file, *uuid, positions);
            let new = live.next_file_id();
            let what = format!("delete file {} of file {}, {} more deleted, {}", new.0, file.0, positions.len(), uuid.path());
            (time, what, file_fields(live.table_of(*file), new, *uuid))
        }
        Change::Expire { time, snapshots } => {
            list.push_expire(&snapshots.iter().copied().map(SnapshotId).collect::<Vec<SnapshotId>>(), *time);
            return Ok(Planned::Expiry(snapshots.clone()));
        }
        Change::Cleanup { before } => {
            list.push_cleanup(*before);
            return Ok(Planned::Cleanup);
        }
    };
    let snapshot = live.commit().0;
    let first: Fields = vec![("snapshot", Cell::Number(snapshot)), ("time", Cell::Number(*time))];
    Ok(Planned::Commit(Said { sentence: format!("snapshot {snapshot}: {what}"), fields: first.into_iter().chain(fields).collect() }))
}

fn new_column(column: &Column) -> NewColumn<'_> {
    NewColumn { name: &column.name, column_type: column.column_type, nulls_allowed: column.nulls_allowed }
}

/// By ascending column id, as the call asks for; the words of the command may stand in any order.
pub fn new_statistics(live: &Live, table: CatalogId, all: &[Statistics]) -> Result<Vec<NewStatistics>, Missing> {
    let of_column = |one: &Statistics| {
        let column = live.column(table, &one.column)?;
        Ok(NewStatistics { column, null_count: one.nulls, min: one.min, max: one.max })
    };
    let mut new: Vec<NewStatistics> = all.iter().map(of_column).collect::<Result<_, Missing>>()?;
    new.sort_by_key(|one| one.column);
    Ok(new)
}

fn file_fields(table: CatalogId, file: FileId, uuid: Uuid) -> Fields {
    vec![("table", Cell::Number(table.0)), ("file", Cell::Number(file.0)), ("uuid", Cell::Text(uuid.to_string())), ("path", Cell::Text(uuid.path()))]
}
