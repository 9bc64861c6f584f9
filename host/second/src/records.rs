//! The records of the lent tables, without their keys: a record is found by its id.

use std::collections::BTreeSet;

use crate::lent::ABSENT;
use crate::names::Name;
use crate::types::Type;

/// "The standard keeps four counters, for snapshot, catalog, file and row numbers".
pub type SnapshotId = u64;
pub type CatalogId = u64;
pub type FileId = u64;
pub type RowId = u64;
pub type ColumnId = u64;

/// High word, low word.
pub type Uuid = (u64, u64);

/// A begin and an end; no end is ABSENT.
#[derive(Clone, Copy, Debug, PartialEq, Eq)]
pub struct Life {
    pub begin: SnapshotId,
    pub end: Option<SnapshotId>,
}

impl Life {
    /// "New records begin at the new snapshot, end ABSENT."
    pub fn from(begin: SnapshotId) -> Life {
        Life { begin, end: None }
    }

    /// "A record is *live at s* when begin ≤ s and (end is ABSENT or s < end)."
    pub fn is_live_at(&self, snapshot: SnapshotId) -> bool {
        self.begin <= snapshot && self.end.is_none_or(|end| snapshot < end)
    }

    /// Every number of this life is one of the other's (R9).
    pub fn lies_within(&self, outer: &Life) -> bool {
        outer.begin <= self.begin && self.end_word() <= outer.end_word()
    }

    /// "a common live snapshot number", retained or not (R9). Both lives have begin < end.
    pub fn meets(&self, other: &Life) -> bool {
        self.begin < other.end_word() && other.begin < self.end_word()
    }

    pub fn end_word(&self) -> u64 {
        self.end.unwrap_or(ABSENT)
    }
}

/// "snapshot: id, time (microseconds since 1970, every word allowed), schema_version,
/// next_catalog_id, next_file_id, change kind, change object"
#[derive(Clone, Debug, PartialEq, Eq)]
pub struct Snapshot {
    pub time: u64,
    pub schema_version: u64,
    pub next_catalog_id: CatalogId,
    pub next_file_id: FileId,
    pub change_kind: u64,
    pub change_object: CatalogId,
}

/// "schema: id, begin, end; and a name"
#[derive(Clone, Debug, PartialEq, Eq)]
pub struct Schema {
    pub life: Life,
    pub name: Name,
}

/// "table: id, begin, end, schema id, next_row_id; and a name"
#[derive(Clone, Debug, PartialEq, Eq)]
pub struct Table {
    pub life: Life,
    pub schema: CatalogId,
    pub next_row_id: RowId,
    pub name: Name,
}

/// "column: id, table id, begin, end, column_order, type, nulls_allowed (0 or 1); and a name"
#[derive(Clone, Debug, PartialEq, Eq)]
pub struct Column {
    pub life: Life,
    pub order: u64,
    pub kind: Type,
    pub nulls_allowed: bool,
    pub name: Name,
}

/// "data file: id, table id, begin, end, record_count, row_id_start, UUID high word, UUID low word"
#[derive(Clone, Debug, PartialEq, Eq)]
pub struct DataFile {
    pub table: CatalogId,
    pub life: Life,
    pub record_count: u64,
    pub row_id_start: RowId,
    pub uuid: Uuid,
}

/// "delete file: id, table id, begin, end, data file id, delete_count, UUID high, UUID low"; its
/// delete_count is the number of its positions.
#[derive(Clone, Debug, PartialEq, Eq)]
pub struct DeleteFile {
    pub table: CatalogId,
    pub life: Life,
    pub data_file: FileId,
    pub positions: BTreeSet<u64>,
    pub uuid: Uuid,
}

/// "statistics: data file id, column id, null_count, has_min, has_max (0 or 1); and signed 64-bit
/// (two's complement) min and max, 0 where the flag is 0"
#[derive(Clone, Debug, PartialEq, Eq)]
pub struct Statistics {
    pub null_count: u64,
    pub min: Option<i64>,
    pub max: Option<i64>,
}

/// "scheduled: file id, UUID high, UUID low, schedule_start (a time)"
#[derive(Clone, Debug, PartialEq, Eq)]
pub struct Scheduled {
    pub file: FileId,
    pub uuid: Uuid,
    pub schedule_start: u64,
}

/// A flag is 0 or 1.
pub fn flag(word: u64) -> Option<bool> {
    match word {
        0 => Some(false),
        1 => Some(true),
        _ => None,
    }
}

/// A bound, given or missing: "0 where the flag is 0" (R14).
fn bound(given: u64, word: u64) -> Option<Option<i64>> {
    match (flag(given)?, word) {
        (true, word) => Some(Some(word as i64)),
        (false, 0) => Some(None),
        (false, _) => None,
    }
}

impl Statistics {
    /// Null count, has_min, has_max, min and max, as they stand in a record and in a call's list.
    pub fn from_words([null_count, has_min, has_max, min, max]: [u64; 5]) -> Option<Statistics> {
        let (min, max) = (bound(has_min, min)?, bound(has_max, max)?);
        Some(Statistics { null_count, min, max })
    }

    pub fn words(&self) -> [u64; 5] {
        let given = |bound: Option<i64>| u64::from(bound.is_some());
        let word = |bound: Option<i64>| bound.unwrap_or(0) as u64;
        [self.null_count, given(self.min), given(self.max), word(self.min), word(self.max)]
    }

    /// "null_count ≤ record_count, and 0 where nulls aren't allowed. If all rows are null, min and
    /// max are missing; else either may be missing. Given values lie in the type's range,
    /// min ≤ max."
    pub fn suit(&self, column: &Column, record_count: u64) -> bool {
        let nulls = self.null_count <= record_count;
        let allowed = column.nulls_allowed || self.null_count == 0;
        let all_null = self.null_count == record_count;
        let missing = self.min.is_none() && self.max.is_none();
        let in_range = |bound: Option<i64>| bound.is_none_or(|b| column.kind.values().contains(&b));
        let ordered = self.min.is_none_or(|min| self.max.is_none_or(|max| min <= max));
        let ranges = in_range(self.min) && in_range(self.max) && ordered;
        nulls && allowed && (!all_null || missing) && ranges
    }
}

#[cfg(test)]
mod tests {
    use super::Life;

    fn life(begin: u64, end: u64) -> Life {
        Life { begin, end: Some(end) }
    }

    #[test]
    fn a_record_is_not_live_at_its_own_end() {
        assert!(!life(2, 4).is_live_at(1));
        assert!(life(2, 4).is_live_at(2));
        assert!(life(2, 4).is_live_at(3));
        assert!(!life(2, 4).is_live_at(4));
        assert!(Life::from(2).is_live_at(u64::MAX));
    }

    #[test]
    fn lives_that_only_touch_do_not_meet() {
        assert!(!life(2, 4).meets(&life(4, 6)));
        assert!(!life(4, 6).meets(&life(2, 4)));
        assert!(life(2, 5).meets(&life(4, 6)));
        assert!(Life::from(9).meets(&life(2, 10)));
        assert!(!Life::from(9).meets(&life(2, 9)));
    }

    #[test]
    fn no_end_lies_within_no_end_alone() {
        assert!(Life::from(3).lies_within(&Life::from(3)));
        assert!(!Life::from(3).lies_within(&life(3, 9)));
        assert!(life(3, 9).lies_within(&life(3, 9)));
        assert!(!life(2, 9).lies_within(&life(3, 9)));
        assert!(life(3, 9).lies_within(&Life::from(2)));
    }
}
