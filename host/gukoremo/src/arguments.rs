//! What a new table's columns and a new file's statistics are given as.

use crate::column_type::ColumnType;
use crate::number::{COLUMN_ARGUMENT_SIZE, NAME_SIZE, STATISTICS_ARGUMENT_SIZE};

/// A column of a new table, for [`Catalog::create_table`](crate::Catalog::create_table).
#[derive(Clone, Copy, Debug, PartialEq, Eq)]
pub struct NewColumn<'a> {
    /// 1 to 32 ASCII letters, digits or underscores, which no other column of the table has.
    pub name: &'a str,
    /// What values it has.
    pub column_type: ColumnType,
    /// Whether rows may have no value in it.
    pub nulls_allowed: bool,
}

impl NewColumn<'_> {
    /// The column's words, as [`raw::create_table`](crate::raw::create_table) takes them.
    ///
    /// ```
    /// use gukoremo::{ColumnType, NewColumn};
    ///
    /// assert_eq!(NewColumn { name: "price", column_type: ColumnType::Int64, nulls_allowed: true }.words(), [4, 1]);
    /// ```
    pub fn words(&self) -> [u64; COLUMN_ARGUMENT_SIZE] {
        [self.column_type.code(), self.nulls_allowed as u64]
    }

    /// The place of its name. A name that no place can hold gives an empty one: the call refuses that as it refuses every bad name.
    ///
    /// ```
    /// use gukoremo::{ColumnType, NewColumn};
    ///
    /// assert!(NewColumn { name: "price", column_type: ColumnType::Int64, nulls_allowed: true }.place().starts_with(b"price\0"));
    /// ```
    pub fn place(&self) -> [u8; NAME_SIZE] {
        let mut place = [0; NAME_SIZE];
        if let Some(front) = place.get_mut(..self.name.len()) {
            front.copy_from_slice(self.name.as_bytes());
        }
        place
    }
}

/// The statistics of a column in a new data file, for [`Catalog::insert`](crate::Catalog::insert).
#[derive(Clone, Copy, Debug, PartialEq, Eq)]
pub struct NewStatistics {
    /// The column's id.
    pub column: u64,
    /// Rows without a value, at most those of the file.
    pub null_count: u64,
    /// At or below every value; none where that is not known, or where every row is null.
    pub min: Option<i64>,
    /// At or above every value; none where that is not known, or where every row is null.
    pub max: Option<i64>,
}

impl NewStatistics {
    /// Their words, as [`raw::insert`](crate::raw::insert) takes them: a bound that is missing has the flag 0 and the word 0.
    ///
    /// ```
    /// use gukoremo::NewStatistics;
    ///
    /// assert_eq!(NewStatistics { column: 2, null_count: 1, min: Some(9), max: None }.words(), [2, 1, 1, 0, 9, 0]);
    /// ```
    pub fn words(&self) -> [u64; STATISTICS_ARGUMENT_SIZE] {
        let bound = |value: Option<i64>| value.unwrap_or(0) as u64;
        [self.column, self.null_count, self.min.is_some() as u64, self.max.is_some() as u64, bound(self.min), bound(self.max)]
    }
}
