//! Readings by choices: at a retained snapshot, of what is or was there; of anything now and then.

use super::changes::{changed, changes, Change};
use crate::choices::{bound, pick, Pick};
use crate::step::Step;
use proptest::prelude::*;
use second::{Catalog, Reading};

#[derive(Clone, Debug)]
pub struct Choice {
    changes: Vec<Change>,
    kind: Kind,
}

#[derive(Clone, Debug)]
enum Kind {
    ByTime(Pick),
    Schemas(At),
    Tables(At, Pick),
    FindFile(Pick),
    Columns(At, Pick),
    TableByName(At, Pick),
    Files(At, Pick),
    FilteredFiles { at: At, table: Pick, column: Pick, scalar: i64 },
    Rows(At, Pick),
}

/// A snapshot: the latest, or any that is retained.
type At = Option<Pick>;

fn at() -> impl Strategy<Value = At> {
    proptest::option::weighted(0.66, pick())
}

fn kind() -> impl Strategy<Value = Kind> {
    let filtered = (at(), pick(), pick(), bound()).prop_map(|(at, table, column, scalar)| Kind::FilteredFiles { at, table, column, scalar });
    prop_oneof![
        1 => pick().prop_map(Kind::ByTime),
        1 => at().prop_map(Kind::Schemas),
        1 => (at(), pick()).prop_map(|(at, schema)| Kind::Tables(at, schema)),
        1 => pick().prop_map(Kind::FindFile),
        1 => (at(), pick()).prop_map(|(at, table)| Kind::Columns(at, table)),
        1 => (at(), pick()).prop_map(|(at, table)| Kind::TableByName(at, table)),
        2 => (at(), pick()).prop_map(|(at, table)| Kind::Files(at, table)),
        2 => filtered,
        2 => (at(), pick()).prop_map(|(at, table)| Kind::Rows(at, table)),
    ]
}

pub fn reading() -> impl Strategy<Value = Choice> {
    (changes(), kind()).prop_map(|(changes, kind)| Choice { changes, kind })
}

impl Choice {
    /// The reading on the catalogue as it is.
    pub fn on(&self, catalog: &Catalog) -> Step {
        changed(&self.changes, Step::Reading(self.kind.on(catalog)))
    }
}

fn key_of<V>(pick: Pick, records: &std::collections::BTreeMap<u64, V>) -> Option<u64> {
    pick.of_newest(records.keys().copied())
}

impl Kind {
    fn on(&self, catalog: &Catalog) -> Reading {
        let snapshot = |at: &At| at.and_then(|pick| key_of(pick, &catalog.snapshots)).unwrap_or(catalog.latest_id());
        let schema = |pick: &Pick| key_of(*pick, &catalog.schemas).unwrap_or(0);
        let table = |pick: &Pick| key_of(*pick, &catalog.tables).unwrap_or(1);
        match self {
            Kind::ByTime(pick) => {
                let snapshot = key_of(*pick, &catalog.snapshots).and_then(|id| catalog.snapshots.get(&id));
                Reading::ByTime { t: snapshot.map_or(0, |snapshot| snapshot.time) }
            }
            Kind::Schemas(at) => Reading::Schemas { snapshot: snapshot(at) },
            Kind::Tables(at, pick) => Reading::Tables { snapshot: snapshot(at), schema: schema(pick) },
            Kind::FindFile(pick) => Reading::FindFile { id: pick.up_to(catalog.latest().1.next_file_id) },
            Kind::Columns(at, pick) => Reading::Columns { snapshot: snapshot(at), table: table(pick) },
            Kind::TableByName(at, pick) => {
                let named = catalog.tables.get(&table(pick));
                let name = named.map_or(Vec::new(), |table| table.name.place().into_iter().take_while(|byte| *byte != 0).collect());
                Reading::TableByName { snapshot: snapshot(at), schema: named.map_or(0, |table| table.schema), name }
            }
            Kind::Files(at, pick) => Reading::Files { snapshot: snapshot(at), table: table(pick) },
            Kind::FilteredFiles { at, table: of, column, scalar } => {
                let table = table(of);
                let columns: Vec<u64> = catalog.columns_of(table).map(|(id, _)| id).collect();
                Reading::FilteredFiles { snapshot: snapshot(at), table, column: column.of(&columns).unwrap_or(1), scalar: *scalar }
            }
            Kind::Rows(at, pick) => Reading::Rows { snapshot: snapshot(at), table: table(pick) },
        }
    }
}
