//! Create schema and drop schema.

use crate::commits::{
    change, next_snapshot, time_stands, Change, CREATED_SCHEMA, DROPPED_SCHEMA, NO_ANSWER,
};
use crate::lent::{Counts, Words};
use crate::names::Name;
use crate::records::{CatalogId, Life, Schema};
use crate::refusals::{refuse_if, Outcome, Refusal};

pub fn create_schema(
    words: &mut Words,
    counts: &Counts,
    time: u64,
    name: &[u8],
    area: &mut [u64],
) -> Outcome {
    change(words, counts, area, |catalog| {
        let (latest_id, latest) = catalog.latest();
        time_stands(catalog, time)?;
        let name = Name::from_bytes(name).ok_or(Refusal::BadName)?;
        let mut live = catalog.schemas.values().filter(|schema| schema.life.is_live_at(latest_id));
        refuse_if(live.any(|schema| schema.name == name), Refusal::NameTaken)?;

        let id = latest.next_catalog_id;
        let done = Change { kind: CREATED_SCHEMA, object: id, new_catalog_ids: 1, new_file_ids: 0 };
        let (now, snapshot) = next_snapshot(catalog, time, done)?;
        catalog.snapshots.insert(now, snapshot);
        catalog.schemas.insert(id, Schema { life: Life::from(now), name });
        Ok(NO_ANSWER)
    })
}

/// "Drop schema: only if no table in it is live."
pub fn drop_schema(
    words: &mut Words,
    counts: &Counts,
    time: u64,
    schema: CatalogId,
    area: &mut [u64],
) -> Outcome {
    change(words, counts, area, |catalog| {
        let latest = catalog.latest_id();
        catalog.schema_at(latest, schema).ok_or(Refusal::NotLive)?;
        time_stands(catalog, time)?;
        let empty = catalog.tables_at(latest, schema).next().is_none();
        refuse_if(!empty, Refusal::SchemaNotEmpty)?;

        let done =
            Change { kind: DROPPED_SCHEMA, object: schema, new_catalog_ids: 0, new_file_ids: 0 };
        let (now, snapshot) = next_snapshot(catalog, time, done)?;
        catalog.snapshots.insert(now, snapshot);
        if let Some(dropped) = catalog.schemas.get_mut(&schema) {
            dropped.life.end = Some(now);
        }
        Ok(NO_ANSWER)
    })
}
