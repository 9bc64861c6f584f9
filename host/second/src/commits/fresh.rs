//! "Fresh: snapshot 0, schema_version 0, next_catalog_id 1, next_file_id 0, kind 1, object 0;
//! schema 0 `main`, begin 0. It ignores the used counts it is given, writes just these two records
//! and the name, and frees nothing."

use std::collections::BTreeMap;

use crate::catalog::Catalog;
use crate::commits::CREATED_SCHEMA;
use crate::lent::{Counts, Words};
use crate::names::Name;
use crate::records::{Life, Schema, Snapshot};
use crate::refusals::{accepted, Outcome, Refusal};
use crate::store::store;

/// "Fresh can meet only 2." It answers nothing and leaves the area as it is (R53).
pub fn fresh(words: &mut Words, counts: &Counts, time: u64, _area: &mut [u64]) -> Outcome {
    let catalog = fresh_catalog(time);
    if catalog.counts().first_beyond(&words.places()).is_some() {
        return Refusal::NoRoom.outcome(counts);
    }
    // As if nothing had been used: so nothing is freed.
    accepted(0, store(&catalog, words, &Counts::default()))
}

fn fresh_catalog(time: u64) -> Catalog {
    let snapshot = Snapshot {
        time,
        schema_version: 0,
        next_catalog_id: 1,
        next_file_id: 0,
        change_kind: CREATED_SCHEMA,
        change_object: 0,
    };
    let name = Name::from_bytes(b"main").expect("a good name");
    Catalog {
        snapshots: BTreeMap::from([(0, snapshot)]),
        schemas: BTreeMap::from([(0, Schema { life: Life::from(0), name })]),
        ..Catalog::default()
    }
}
