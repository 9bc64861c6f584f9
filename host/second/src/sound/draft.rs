//! The used records in the order in which they lie, before anything is known of their ids.

use std::collections::BTreeMap;

use crate::catalog::Catalog;
use crate::records::{
    CatalogId, Column, ColumnId, DataFile, DeleteFile, FileId, Scheduled, Schema, Snapshot,
    SnapshotId, Table,
};

pub struct Draft {
    pub snapshots: Vec<(SnapshotId, Snapshot)>,
    pub schemas: Vec<(CatalogId, Schema)>,
    pub tables: Vec<(CatalogId, Table)>,
    pub columns: Vec<((CatalogId, ColumnId), Column)>,
    pub data_files: Vec<(FileId, DataFile)>,
    pub delete_files: Vec<(FileId, DeleteFile)>,
    pub deletes: Deletes,
    pub statistics: Values,
    pub scheduled: Vec<Scheduled>,
}

/// The delete_count of each delete file and the used positions, not yet dealt out.
pub struct Deletes {
    pub counts: Vec<u64>,
    pub positions: Vec<u64>,
}

/// The words of each statistics record after its ids, not yet read.
pub type Values = Vec<((FileId, ColumnId), [u64; 5])>;

impl Draft {
    /// Maps lose no record, since ids ascend strictly (the fourth line); positions and statistics
    /// come later.
    pub fn into_maps(self) -> (Catalog, Deletes, Values) {
        let catalog = Catalog {
            snapshots: self.snapshots.into_iter().collect(),
            schemas: self.schemas.into_iter().collect(),
            tables: self.tables.into_iter().collect(),
            columns: self.columns.into_iter().collect(),
            data_files: self.data_files.into_iter().collect(),
            delete_files: self.delete_files.into_iter().collect(),
            statistics: BTreeMap::new(),
            scheduled: self.scheduled,
        };
        (catalog, self.deletes, self.statistics)
    }
}
