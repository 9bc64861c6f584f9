//! "At a retained snapshot: schemas, tables of a schema, columns of a table by column_order, a
//! table by name". Schemas and tables go by ascending id (R25).

use crate::lent::{Counts, Words};
use crate::names::Name;
use crate::readings::{reading, retained};
use crate::records::{CatalogId, SnapshotId};
use crate::refusals::{Outcome, Refusal};

pub fn list_schemas(
    words: &Words,
    counts: &Counts,
    snapshot: SnapshotId,
    area: &mut [u64],
) -> Outcome {
    reading(words, counts, area, |catalog| {
        retained(catalog, snapshot)?;
        let live = catalog.schemas.iter().filter(|(_, schema)| schema.life.is_live_at(snapshot));
        Ok(live.map(|(id, _)| *id).collect())
    })
}

pub fn list_tables(
    words: &Words,
    counts: &Counts,
    snapshot: SnapshotId,
    schema: CatalogId,
    area: &mut [u64],
) -> Outcome {
    reading(words, counts, area, |catalog| {
        retained(catalog, snapshot)?;
        catalog.schema_at(snapshot, schema).ok_or(Refusal::NotLive)?;
        Ok(catalog.tables_at(snapshot, schema).map(|(id, _)| id).collect())
    })
}

pub fn list_columns(
    words: &Words,
    counts: &Counts,
    snapshot: SnapshotId,
    table: CatalogId,
    area: &mut [u64],
) -> Outcome {
    reading(words, counts, area, |catalog| {
        retained(catalog, snapshot)?;
        catalog.table_at(snapshot, table).ok_or(Refusal::NotLive)?;
        let mut columns: Vec<_> = catalog.columns_at(snapshot, table).collect();
        columns.sort_by_key(|(_, column)| column.order);
        Ok(columns.into_iter().map(|(id, _)| id).collect())
    })
}

/// "A badly formed name in a lookup gives 6." So does a schema that isn't live (R32).
pub fn table_by_name(
    words: &Words,
    counts: &Counts,
    snapshot: SnapshotId,
    schema: CatalogId,
    name: &[u8],
    area: &mut [u64],
) -> Outcome {
    reading(words, counts, area, |catalog| {
        retained(catalog, snapshot)?;
        catalog.schema_at(snapshot, schema).ok_or(Refusal::NotLive)?;
        let name = Name::from_bytes(name).ok_or(Refusal::NotLive)?;
        let mut tables = catalog.tables_at(snapshot, schema);
        let (id, _) = tables.find(|(_, table)| table.name == name).ok_or(Refusal::NotLive)?;
        Ok(vec![id])
    })
}
