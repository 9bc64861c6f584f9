//! Create table and drop table.

use crate::commits::{
    change, next_snapshot, time_stands, Change, CREATED_TABLE, DROPPED_TABLE, NO_ANSWER,
};
use crate::lent::{Counts, Words, COLUMN_LIMIT, NAME_SIZE};
use crate::names::Name;
use crate::records::{flag, CatalogId, Column, Life, SnapshotId, Table};
use crate::refusals::{refuse_if, Outcome, Refusal};
use crate::types::Type;

/// A column of the call's list.
struct NewColumn {
    kind: Type,
    nulls_allowed: bool,
    name: Name,
}

/// "Create table: columns get ids 1, 2, … and orders 0, 1, …; next_row_id is 0." The columns are
/// two words each, type and nulls_allowed, with a 32-byte name place each (R17).
#[expect(clippy::too_many_arguments, reason = "the tables, the call's own arguments, the area")]
pub fn create_table(
    words: &mut Words,
    counts: &Counts,
    time: u64,
    schema: CatalogId,
    name: &[u8],
    columns: &[u64],
    column_names: &[u8],
    area: &mut [u64],
) -> Outcome {
    change(words, counts, area, |catalog| {
        let (latest_id, latest) = catalog.latest();
        catalog.schema_at(latest_id, schema).ok_or(Refusal::NotLive)?;
        time_stands(catalog, time)?;
        let name = Name::from_bytes(name).ok_or(Refusal::BadName)?;
        let taken = catalog.tables_at(latest_id, schema).any(|(_, table)| table.name == name);
        refuse_if(taken, Refusal::NameTaken)?;
        let columns = new_columns(columns, column_names).ok_or(Refusal::BadColumns)?;

        let id = latest.next_catalog_id;
        let done = Change { kind: CREATED_TABLE, object: id, new_catalog_ids: 1, new_file_ids: 0 };
        let (now, snapshot) = next_snapshot(catalog, time, done)?;
        catalog.snapshots.insert(now, snapshot);
        let life = Life::from(now);
        catalog.tables.insert(id, Table { life, schema, next_row_id: 0, name });
        for (order, column) in (0..).zip(columns) {
            catalog.columns.insert((id, order + 1), column.record(now, order));
        }
        Ok(NO_ANSWER)
    })
}

impl NewColumn {
    fn record(self, begin: SnapshotId, order: u64) -> Column {
        Column {
            life: Life::from(begin),
            order,
            kind: self.kind,
            nulls_allowed: self.nulls_allowed,
            name: self.name,
        }
    }
}

/// 12: "column list: not 1 to 16, unknown type, bad flag, bad or repeated name." So are ragged
/// runs, and name places that don't match the columns (R17).
fn new_columns(columns: &[u64], names: &[u8]) -> Option<Vec<NewColumn>> {
    let (columns, no_column) = columns.as_chunks::<2>();
    let (names, no_name) = names.as_chunks::<NAME_SIZE>();
    let whole = no_column.is_empty() && no_name.is_empty() && columns.len() == names.len();
    if !whole || !(1..=COLUMN_LIMIT).contains(&columns.len()) {
        return None;
    }
    let mut list: Vec<NewColumn> = Vec::new();
    for ([kind, nulls_allowed], name) in columns.iter().zip(names) {
        let name = Name::from_place(name)?;
        if list.iter().any(|earlier| earlier.name == name) {
            return None;
        }
        let (kind, nulls_allowed) = (Type::from_code(*kind)?, flag(*nulls_allowed)?);
        list.push(NewColumn { kind, nulls_allowed, name });
    }
    Some(list)
}

/// "Drop table: ends the table and its live columns, data files and delete files."
pub fn drop_table(
    words: &mut Words,
    counts: &Counts,
    time: u64,
    table: CatalogId,
    area: &mut [u64],
) -> Outcome {
    change(words, counts, area, |catalog| {
        let latest = catalog.latest_id();
        catalog.table_at(latest, table).ok_or(Refusal::NotLive)?;
        time_stands(catalog, time)?;

        let done =
            Change { kind: DROPPED_TABLE, object: table, new_catalog_ids: 0, new_file_ids: 0 };
        let (now, snapshot) = next_snapshot(catalog, time, done)?;
        catalog.snapshots.insert(now, snapshot);
        let end = |life: &mut Life| {
            if life.is_live_at(latest) {
                life.end = Some(now);
            }
        };
        let dropped = catalog.tables.get_mut(&table);
        dropped.into_iter().for_each(|table| end(&mut table.life));
        let columns = catalog.columns.iter_mut().filter(|((of, _), _)| *of == table);
        columns.for_each(|(_, column)| end(&mut column.life));
        let data_files = catalog.data_files.values_mut().filter(|file| file.table == table);
        data_files.for_each(|file| end(&mut file.life));
        let delete_files = catalog.delete_files.values_mut().filter(|file| file.table == table);
        delete_files.for_each(|file| end(&mut file.life));
        Ok(NO_ANSWER)
    })
}
