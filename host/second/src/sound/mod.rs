//! "Sound means:" ten lines, one after another, and the sentence on a table's live columns that
//! stands above them (R11).

use std::collections::BTreeMap;

use crate::lent::Run;

pub mod draft;
pub mod ids;
pub mod lives;
pub mod names;
pub mod positions;
pub mod ranges;
pub mod rows;
pub mod snapshots;
pub mod statistics;

/// Which rule fails first, and where.
#[derive(Clone, Copy, Debug, PartialEq, Eq)]
pub struct Unsound {
    /// 1 to 10 is a line of 'Sound tables'; 11 is "A table has 1 to 16 live columns at each
    /// retained snapshot where it lives."
    pub rule: u8,
    pub table: Run,
    /// The record's place in its table; none where the rule is about the table as a whole.
    pub record: Option<usize>,
}

impl Unsound {
    pub(crate) fn at(rule: u8, table: Run, record: usize) -> Unsound {
        Unsound { rule, table, record: Some(record) }
    }

    pub(crate) fn whole(rule: u8, table: Run) -> Unsound {
        Unsound { rule, table, record: None }
    }
}

/// A rule asked of one record.
pub(crate) fn want(holds: bool, rule: u8, table: Run, record: usize) -> Result<(), Unsound> {
    if holds {
        Ok(())
    } else {
        Err(Unsound::at(rule, table, record))
    }
}

/// The place of a record in its table: as many stand before it as have a lower id.
pub(crate) fn place<Key: Ord, Record>(records: &BTreeMap<Key, Record>, key: &Key) -> usize {
    records.range(..key).count()
}
