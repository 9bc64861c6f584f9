//! Calls by choices: mostly such as the catalogue may well accept, whatever it holds when they are played.

use super::changes::{changed, changes, Change};
use super::rows::{self, Deletion, Insertion};
use super::tables::{self, Columns};
use crate::choices::{edge, id, one_in, pick, rarely, time, Id, Live, Pick, Time};
use crate::step::Step;
use proptest::bits;
use proptest::prelude::*;
use proptest::sample::select;
use second::dice::calls::NAMES;
use second::{Call, Catalog};

/// A call: its kind with the choices of it, its time, and what is changed of it.
#[derive(Clone, Debug)]
pub struct Choice {
    changes: Vec<Change>,
    /// Whether it is made though nothing is live that it could work on; else that is made first.
    is_stubborn: bool,
    kind: Kind,
    time: Time,
}

#[derive(Clone, Debug)]
enum Kind {
    CreateSchema { name: &'static [u8] },
    CreateTable { schema: Id, name: &'static [u8], columns: Columns },
    Insert(Insertion),
    Delete(Deletion),
    DropTable(Id),
    DropSchema(Id),
    Expire(Expiry),
    Cleanup { later: u64 },
    Fresh,
}

/// Snapshots to expire.
#[derive(Clone, Debug)]
struct Expiry {
    /// Bits for the retained ones, the seventeenth by the first bit again.
    named: u16,
    names_latest: bool,
    may_be_empty: bool,
    more: Option<Pick>,
    /// Any word may be its time, also one below those of snapshots.
    time: Option<u64>,
}

fn name() -> impl Strategy<Value = &'static [u8]> {
    select(&NAMES[..])
}

fn create_schema() -> impl Strategy<Value = Kind> {
    name().prop_map(|name| Kind::CreateSchema { name })
}

fn create_table() -> impl Strategy<Value = Kind> {
    (id(), name(), tables::columns()).prop_map(|(schema, name, columns)| Kind::CreateTable { schema, name, columns })
}

fn expiry() -> impl Strategy<Value = Expiry> {
    let earlier = prop_oneof![4 => 0..100_u64, 1 => edge()];
    (bits::u16::sampled(0..=6, 0..16), one_in(8), one_in(8), rarely(12, pick()), rarely(8, earlier))
        .prop_map(|(named, names_latest, may_be_empty, more, time)| Expiry { named, names_latest, may_be_empty, more, time })
}

fn kind() -> impl Strategy<Value = Kind> {
    prop_oneof![
        4 => create_schema(),
        12 => create_table(),
        28 => rows::insertion().prop_map(Kind::Insert),
        28 => rows::deletion().prop_map(Kind::Delete),
        4 => id().prop_map(Kind::DropTable),
        4 => id().prop_map(Kind::DropSchema),
        12 => expiry().prop_map(Kind::Expire),
        8 => (0..4_u64).prop_map(|later| Kind::Cleanup { later }),
        1 => Just(Kind::Fresh),
    ]
}

pub fn call() -> impl Strategy<Value = Choice> {
    (changes(), one_in(12), kind(), time()).prop_map(|(changes, is_stubborn, kind, time)| Choice { changes, is_stubborn, kind, time })
}

impl Choice {
    /// The call on the catalogue as it is.
    pub fn on(&self, catalog: &Catalog) -> Step {
        let (live, time) = (Live::on(catalog), self.time.on(catalog));
        let first = self.kind.made_first(&live).filter(|_| !self.is_stubborn);
        changed(&self.changes, Step::Call(first.as_ref().unwrap_or(&self.kind).on(catalog, &live, time)))
    }
}

impl Kind {
    /// A schema, a table or a data file, where none is live and the call works on one.
    fn made_first(&self, live: &Live) -> Option<Kind> {
        let works_on = match self {
            Kind::CreateTable { .. } => 1,
            Kind::Insert(_) => 2,
            Kind::Delete(_) => 3,
            _ => 0,
        };
        if works_on >= 1 && live.schemas.is_empty() {
            return Some(Kind::CreateSchema { name: b"main" });
        }
        if works_on >= 2 && live.tables.is_empty() {
            return Some(Kind::CreateTable { schema: Id::NEWEST, name: b"diary", columns: Columns::two() });
        }
        (works_on >= 3 && live.data_files.is_empty()).then(|| Kind::Insert(Insertion::plain()))
    }

    fn on(&self, catalog: &Catalog, live: &Live, time: u64) -> Call {
        let next = catalog.latest().1.next_catalog_id;
        match self {
            Kind::CreateSchema { name } => Call::CreateSchema { time, name: name.to_vec() },
            Kind::CreateTable { schema, name, columns } => {
                let (schema, name) = (schema.among(&live.schemas, next), name.to_vec());
                Call::CreateTable { time, schema, name, columns: columns.words(), column_names: columns.names() }
            }
            Kind::Insert(insertion) => insertion.on(catalog, live, time),
            Kind::Delete(deletion) => deletion.on(catalog, live, time),
            Kind::DropTable(table) => Call::DropTable { time, table: table.among(&live.tables, next) },
            Kind::DropSchema(schema) => Call::DropSchema { time, schema: schema.among(&live.schemas, next) },
            Kind::Expire(expiry) => expiry.on(catalog, time),
            Kind::Cleanup { later } => Call::Cleanup { t: time.saturating_add(*later) },
            Kind::Fresh => Call::Fresh { time },
        }
    }
}

impl Expiry {
    fn on(&self, catalog: &Catalog, time: u64) -> Call {
        let latest = catalog.latest_id();
        let named = catalog.snapshots.keys().zip((0..16).cycle()).filter(|(_, bit)| self.named >> bit & 1 == 1).map(|(id, _)| *id);
        let mut ids: Vec<u64> = named.filter(|id| self.names_latest || *id != latest).collect();
        if ids.is_empty() && !self.may_be_empty {
            ids.extend(catalog.snapshots.keys().next());
        }
        ids.extend(self.more.map(|more| more.up_to(latest.saturating_add(1))));
        Call::Expire { ids, time: self.time.unwrap_or(time) }
    }
}
