//! Inserts with their statistics, and deletes with their positions, by choices.

use crate::choices::{bound, id, pick, rarely, uuid, Id, Live, Pick, Uuid};
use proptest::bits;
use proptest::collection::vec;
use proptest::prelude::*;
use second::lent::RECORD_COUNT_LIMIT;
use second::records::Column;
use second::types::Type;
use second::{Call, Catalog};

#[derive(Clone, Debug)]
pub struct Insertion {
    table: Id,
    record_count: u64,
    uuid: Uuid,
    /// For the table's columns, from the first again where they are more.
    statistics: Vec<Statistics>,
}

/// What is said of a column's values.
#[derive(Clone, Debug)]
struct Statistics {
    nulls: Pick,
    min: Option<End>,
    max: Option<End>,
}

/// A bound: a value, or one beside the lowest or the highest of the column's type.
#[derive(Clone, Copy, Debug)]
enum End {
    Value(i64),
    Lowest(i64),
    Highest(i64),
}

impl End {
    fn of(self, kind: Type) -> i64 {
        match self {
            End::Value(value) => value,
            End::Lowest(beside) => kind.values().start().saturating_add(beside),
            End::Highest(beside) => kind.values().end().saturating_add(beside),
        }
    }
}

/// As many rows as there may be is seldom, since all of them are read.
fn record_count() -> impl Strategy<Value = u64> {
    prop_oneof![400 => 1..10_u64, 10 => Just(0), 10 => Just(RECORD_COUNT_LIMIT + 1), 1 => Just(RECORD_COUNT_LIMIT)]
}

/// Bounds that suit every type.
fn narrow() -> impl Strategy<Value = Statistics> {
    let min = proptest::option::weighted(0.75, (0..2_i64).prop_map(End::Value));
    let max = proptest::option::weighted(0.75, Just(End::Value(1)));
    (pick(), min, max).prop_map(|(nulls, min, max)| Statistics { nulls, min, max })
}

/// Bounds at the ends of the column's type, or of any.
fn wide() -> impl Strategy<Value = Statistics> {
    let any_end = || bound().prop_map(End::Value);
    let min = proptest::option::of(prop_oneof![2 => (-1..=1_i64).prop_map(End::Lowest), 1 => any_end()]);
    let max = proptest::option::of(prop_oneof![2 => (-1..=1_i64).prop_map(End::Highest), 1 => any_end()]);
    (min, max).prop_map(|(min, max)| Statistics { nulls: Pick(0), min, max })
}

pub fn insertion() -> impl Strategy<Value = Insertion> {
    let statistics = vec(prop_oneof![2 => narrow(), 1 => wide()], 1..=3);
    (id(), record_count(), uuid(), statistics).prop_map(|(table, record_count, uuid, statistics)| Insertion { table, record_count, uuid, statistics })
}

impl Insertion {
    /// A few rows of which nothing is said.
    pub fn plain() -> Insertion {
        Insertion { table: Id::NEWEST, record_count: 6, uuid: Uuid::NEW, statistics: vec![Statistics { nulls: Pick(0), min: None, max: None }] }
    }

    pub fn on(&self, catalog: &Catalog, live: &Live, time: u64) -> Call {
        let table = self.table.among(&live.tables, catalog.latest().1.next_catalog_id);
        let columns = catalog.columns_of(table).zip(self.statistics.iter().cycle());
        let statistics = columns.flat_map(|((id, column), statistics)| statistics.on(id, column, self.record_count)).collect();
        Call::Insert { time, table, record_count: self.record_count, uuid: self.uuid.on(catalog), statistics }
    }
}

impl Statistics {
    /// No bounds where every value is null, and 0 where there is no bound.
    fn on(&self, id: u64, column: &Column, record_count: u64) -> [u64; 6] {
        let nulls = if column.nulls_allowed { self.nulls.below(record_count as usize + 1) as u64 } else { 0 };
        let given = |end: Option<End>| end.filter(|_| nulls != record_count).map(|end| end.of(column.kind));
        let (min, max) = (given(self.min), given(self.max));
        [id, nulls, u64::from(min.is_some()), u64::from(max.is_some()), min.unwrap_or(0) as u64, max.unwrap_or(0) as u64]
    }
}

#[derive(Clone, Debug)]
pub struct Deletion {
    data_file: Id,
    uuid: Uuid,
    /// Bits for the first of the positions that are not yet deleted.
    positions: u16,
    one_more: Option<OneMore>,
}

#[derive(Clone, Debug)]
enum OneMore {
    /// One that is deleted already.
    Gone(Pick),
    /// Any, at the end.
    Any(Pick),
}

pub fn deletion() -> impl Strategy<Value = Deletion> {
    let one_more = prop_oneof![pick().prop_map(OneMore::Gone), pick().prop_map(OneMore::Any)];
    (id(), uuid(), bits::u16::sampled(1..=4, 0..12), rarely(6, one_more)).prop_map(|(data_file, uuid, positions, one_more)| Deletion {
        data_file,
        uuid,
        positions,
        one_more,
    })
}

impl Deletion {
    pub fn on(&self, catalog: &Catalog, live: &Live, time: u64) -> Call {
        let data_file = self.data_file.among(&live.data_files, catalog.latest().1.next_file_id);
        let record_count = catalog.data_files.get(&data_file).map_or(3, |file| file.record_count);
        let delete_file = catalog.delete_files_at(catalog.latest_id()).get(&data_file).copied();
        let gone: Vec<u64> =
            delete_file.and_then(|id| catalog.delete_files.get(&id)).into_iter().flat_map(|file| file.positions.iter().copied()).collect();
        let left: Vec<u64> = (0..record_count.min(12)).filter(|position| gone.binary_search(position).is_err()).collect();
        let mut positions: Vec<u64> = (0..left.len()).filter(|at| self.positions >> at & 1 == 1).map(|at| left[at]).collect();
        if positions.is_empty() {
            positions.extend(left.first());
        }
        match self.one_more {
            Some(OneMore::Gone(pick)) => {
                positions.extend(pick.of(&gone));
                positions.sort_unstable();
            }
            Some(OneMore::Any(pick)) => positions.push(pick.up_to(record_count.saturating_add(1))),
            None => {}
        }
        Call::Delete { time, data_file, uuid: self.uuid.on(catalog), positions }
    }
}
