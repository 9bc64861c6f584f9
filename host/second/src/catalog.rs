//! The tables as maps of records by id. In sound tables ids ascend strictly, so the order of a map
//! is the order of its table; the scheduled table has no order rule (R13) and stays a list.

use std::collections::BTreeMap;

use crate::lent::Counts;
use crate::records::{
    CatalogId, Column, ColumnId, DataFile, DeleteFile, FileId, Life, Scheduled, Schema, Snapshot,
    SnapshotId, Statistics, Table, Uuid,
};

#[derive(Clone, Debug, Default, PartialEq, Eq)]
pub struct Catalog {
    pub snapshots: BTreeMap<SnapshotId, Snapshot>,
    pub schemas: BTreeMap<CatalogId, Schema>,
    pub tables: BTreeMap<CatalogId, Table>,
    pub columns: BTreeMap<(CatalogId, ColumnId), Column>,
    pub data_files: BTreeMap<FileId, DataFile>,
    pub delete_files: BTreeMap<FileId, DeleteFile>,
    pub statistics: BTreeMap<(FileId, ColumnId), Statistics>,
    pub scheduled: Vec<Scheduled>,
}

/// Whether some of these snapshots lies in the life: the first at or after its begin does.
pub fn is_retained(life: &Life, snapshots: &BTreeMap<SnapshotId, Snapshot>) -> bool {
    snapshots.range(life.begin..).next().is_some_and(|(id, _)| life.is_live_at(*id))
}

impl Catalog {
    /// How many records of each table, and how many positions, the maps hold.
    pub fn counts(&self) -> Counts {
        Counts {
            snapshots: self.snapshots.len(),
            schemas: self.schemas.len(),
            tables: self.tables.len(),
            columns: self.columns.len(),
            data_files: self.data_files.len(),
            delete_files: self.delete_files.len(),
            positions: self.delete_files.values().map(|file| file.positions.len()).sum(),
            statistics: self.statistics.len(),
            scheduled: self.scheduled.len(),
        }
    }

    /// The latest snapshot; sound tables have one: "at least one snapshot".
    pub fn latest(&self) -> (SnapshotId, &Snapshot) {
        let (id, snapshot) = self.snapshots.last_key_value().expect("at least one snapshot");
        (*id, snapshot)
    }

    pub fn latest_id(&self) -> SnapshotId {
        self.latest().0
    }

    pub fn schema_at(&self, snapshot: SnapshotId, id: CatalogId) -> Option<&Schema> {
        self.schemas.get(&id).filter(|schema| schema.life.is_live_at(snapshot))
    }

    pub fn table_at(&self, snapshot: SnapshotId, id: CatalogId) -> Option<&Table> {
        self.tables.get(&id).filter(|table| table.life.is_live_at(snapshot))
    }

    pub fn data_file_at(&self, snapshot: SnapshotId, id: FileId) -> Option<&DataFile> {
        self.data_files.get(&id).filter(|file| file.life.is_live_at(snapshot))
    }

    /// The tables of a schema, by ascending id.
    pub fn tables_at(
        &self,
        snapshot: SnapshotId,
        schema: CatalogId,
    ) -> impl Iterator<Item = (CatalogId, &Table)> {
        let tables = self.tables.iter().map(|(id, table)| (*id, table));
        tables.filter(move |(_, t)| t.schema == schema && t.life.is_live_at(snapshot))
    }

    /// The columns of a table on record, by ascending id.
    pub fn columns_of(&self, table: CatalogId) -> impl Iterator<Item = (ColumnId, &Column)> {
        let columns = self.columns.range((table, ColumnId::MIN)..=(table, ColumnId::MAX));
        columns.map(|((_, id), column)| (*id, column))
    }

    /// The columns of a table that are live at a snapshot, by ascending id.
    pub fn columns_at(
        &self,
        snapshot: SnapshotId,
        table: CatalogId,
    ) -> impl Iterator<Item = (ColumnId, &Column)> {
        self.columns_of(table).filter(move |(_, column)| column.life.is_live_at(snapshot))
    }

    /// The data files of a table, by ascending id.
    pub fn data_files_at(
        &self,
        snapshot: SnapshotId,
        table: CatalogId,
    ) -> impl Iterator<Item = (FileId, &DataFile)> {
        let files = self.data_files.iter().map(|(id, file)| (*id, file));
        files.filter(move |(_, file)| file.table == table && file.life.is_live_at(snapshot))
    }

    /// The delete file of each data file: "two delete files of one data file have no common live
    /// number", so there is one at most.
    pub fn delete_files_at(&self, snapshot: SnapshotId) -> BTreeMap<FileId, FileId> {
        let live = self.delete_files.iter().filter(|(_, file)| file.life.is_live_at(snapshot));
        live.map(|(id, file)| (file.data_file, *id)).collect()
    }

    /// 14: "UUID in any data file, delete file or scheduled record", live or not (R24).
    pub fn has_uuid(&self, uuid: Uuid) -> bool {
        self.data_files.values().any(|file| file.uuid == uuid)
            || self.delete_files.values().any(|file| file.uuid == uuid)
            || self.scheduled.iter().any(|record| record.uuid == uuid)
    }
}
