//! What a snapshot changed.

use crate::number::CatalogId;
use crate::record::{CREATED_SCHEMA, CREATED_TABLE, DELETED_FROM_TABLE, DROPPED_SCHEMA, DROPPED_TABLE, INSERTED_INTO_TABLE};
use std::fmt;

/// The change that a snapshot made, with the schema or the table that it was made to. It is shown with the published name: `inserted_into_table 1`.
///
/// ```
/// use gukoremo::{Catalog, CatalogId, Change, Counts, OwnedTables};
///
/// let mut catalog = Catalog::fresh(OwnedTables::with_room(Counts::each(4)), 100)?;
/// let made = catalog.create_schema(110, "sales")?;
/// assert_eq!(made.snapshot.change, Change::CreatedSchema(CatalogId(1)));
/// assert_eq!(made.snapshot.change.to_string(), "created_schema 1");
/// # Ok::<(), gukoremo::Refusal>(())
/// ```
#[non_exhaustive]
#[derive(Clone, Copy, Debug, PartialEq, Eq, Hash)]
pub enum Change {
    /// A schema is new.
    CreatedSchema(CatalogId),
    /// A table is new.
    CreatedTable(CatalogId),
    /// A table has a new data file.
    InsertedIntoTable(CatalogId),
    /// A table has a new delete file.
    DeletedFromTable(CatalogId),
    /// A schema is gone.
    DroppedSchema(CatalogId),
    /// A table is gone, and its columns and files with it.
    DroppedTable(CatalogId),
    /// A kind that no change has: of tables that are not sound.
    Unknown {
        /// The kind's number.
        kind: u64,
        /// What it was made to.
        object: CatalogId,
    },
}

impl Change {
    /// The change of a kind's number, by [`crate::record`], and what it was made to.
    ///
    /// ```
    /// use gukoremo::{record, CatalogId, Change};
    ///
    /// assert_eq!(Change::of(record::DROPPED_TABLE, CatalogId(1)), Change::DroppedTable(CatalogId(1)));
    /// ```
    pub fn of(kind: u64, object: CatalogId) -> Change {
        match kind {
            CREATED_SCHEMA => Change::CreatedSchema(object),
            CREATED_TABLE => Change::CreatedTable(object),
            INSERTED_INTO_TABLE => Change::InsertedIntoTable(object),
            DELETED_FROM_TABLE => Change::DeletedFromTable(object),
            DROPPED_SCHEMA => Change::DroppedSchema(object),
            DROPPED_TABLE => Change::DroppedTable(object),
            kind => Change::Unknown { kind, object },
        }
    }

    /// The kind's number, by [`crate::record`].
    ///
    /// ```
    /// use gukoremo::{CatalogId, Change};
    ///
    /// assert_eq!(Change::DroppedTable(CatalogId(1)).kind(), 7);
    /// ```
    pub fn kind(self) -> u64 {
        match self {
            Change::CreatedSchema(_) => CREATED_SCHEMA,
            Change::CreatedTable(_) => CREATED_TABLE,
            Change::InsertedIntoTable(_) => INSERTED_INTO_TABLE,
            Change::DeletedFromTable(_) => DELETED_FROM_TABLE,
            Change::DroppedSchema(_) => DROPPED_SCHEMA,
            Change::DroppedTable(_) => DROPPED_TABLE,
            Change::Unknown { kind, .. } => kind,
        }
    }

    /// The schema or the table.
    ///
    /// ```
    /// use gukoremo::{CatalogId, Change};
    ///
    /// assert_eq!(Change::DroppedTable(CatalogId(1)).object(), CatalogId(1));
    /// ```
    pub fn object(self) -> CatalogId {
        match self {
            Change::CreatedSchema(object)
            | Change::CreatedTable(object)
            | Change::InsertedIntoTable(object)
            | Change::DeletedFromTable(object)
            | Change::DroppedSchema(object)
            | Change::DroppedTable(object)
            | Change::Unknown { object, .. } => object,
        }
    }

    /// The published name of the kind.
    ///
    /// ```
    /// use gukoremo::{CatalogId, Change};
    ///
    /// assert_eq!(Change::DroppedTable(CatalogId(1)).name(), "dropped_table");
    /// ```
    pub fn name(self) -> &'static str {
        match self {
            Change::CreatedSchema(_) => "created_schema",
            Change::CreatedTable(_) => "created_table",
            Change::InsertedIntoTable(_) => "inserted_into_table",
            Change::DeletedFromTable(_) => "deleted_from_table",
            Change::DroppedSchema(_) => "dropped_schema",
            Change::DroppedTable(_) => "dropped_table",
            Change::Unknown { .. } => "unknown",
        }
    }
}

impl fmt::Display for Change {
    fn fmt(&self, f: &mut fmt::Formatter<'_>) -> fmt::Result {
        write!(f, "{} {}", self.name(), self.object())
    }
}

#[cfg(test)]
mod tests {
    use super::Change;
    use crate::CatalogId;

    #[test]
    fn kinds_there_and_back() {
        let names: Vec<&str> =
            (0..9).map(|kind| Change::of(kind, CatalogId(4))).filter(|change| !matches!(change, Change::Unknown { .. })).map(Change::name).collect();
        assert_eq!(names, ["created_schema", "created_table", "inserted_into_table", "deleted_from_table", "dropped_schema", "dropped_table"]);
        for kind in [0, 1, 2, 3, 4, 5, 6, 7, 8, u64::MAX] {
            let change = Change::of(kind, CatalogId(4));
            assert_eq!((change.kind(), change.object()), (kind, CatalogId(4)));
        }
        assert_eq!(Change::of(5, CatalogId(4)), Change::Unknown { kind: 5, object: CatalogId(4) });
    }
}
