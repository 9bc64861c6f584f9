//! What is live at the latest snapshot, by name, and the next ids: what the words of a change are looked up in. It is read from the records as they lie, and moves
//! on with each change that is planned, so that a line of a batch finds what the lines before it make. Ids are given out in order, so what a change will make is
//! known before it is played; that the tables are sound and the change is accepted is for the calls to say.

use crate::file::Lake;
use crate::values::columns::Column;
use crate::values::names::{Reference, TableReference};
use gukoremo::{CatalogId, FileId, SnapshotId};
use std::collections::HashMap;

/// What was looked up and is not there, in words.
#[derive(Debug, PartialEq, Eq)]
pub struct Missing(pub String);

pub struct Live {
    /// The latest snapshot.
    pub at: SnapshotId,
    next_catalog_id: u64,
    next_file_id: u64,
    schemas: HashMap<String, CatalogId>,
    tables: HashMap<(CatalogId, String), CatalogId>,
    columns: HashMap<CatalogId, HashMap<String, u64>>,
    /// The table of each data file.
    files: HashMap<FileId, CatalogId>,
}

impl Live {
    pub fn of(lake: &Lake) -> Live {
        let records = lake.records();
        let latest = records.latest();
        let at = latest.map_or(SnapshotId(0), |latest| latest.id);
        let mut columns: HashMap<CatalogId, HashMap<String, u64>> = HashMap::new();
        for one in records.columns().filter(|one| one.life.is_live_at(at)) {
            columns.entry(one.table).or_default().insert(one.name, one.id);
        }
        Live {
            at,
            next_catalog_id: latest.map_or(0, |latest| latest.next_catalog_id.0),
            next_file_id: latest.map_or(0, |latest| latest.next_file_id.0),
            schemas: records.schemas().filter(|one| one.life.is_live_at(at)).map(|one| (one.name, one.id)).collect(),
            tables: records.tables().filter(|one| one.life.is_live_at(at)).map(|one| ((one.schema, one.name), one.id)).collect(),
            columns,
            files: records.data_files().filter(|one| one.life.is_live_at(at)).map(|one| (one.id, one.table)).collect(),
        }
    }

    // An id is passed on as it is: the call that takes it judges it.

    pub fn schema(&self, reference: &Reference) -> Result<CatalogId, Missing> {
        match reference {
            Reference::Id(id) => Ok(CatalogId(*id)),
            Reference::Name(name) => self.schemas.get(name).copied().ok_or_else(|| Missing(format!("schema {name}"))),
        }
    }

    pub fn table(&self, reference: &TableReference) -> Result<CatalogId, Missing> {
        match reference {
            TableReference::Id(id) => Ok(CatalogId(*id)),
            TableReference::Name(schema, name) => {
                let found = self.tables.get(&(self.schema(schema)?, name.clone()));
                found.copied().ok_or_else(|| Missing(format!("table {reference}")))
            }
        }
    }

    pub fn column(&self, table: CatalogId, reference: &Reference) -> Result<u64, Missing> {
        match reference {
            Reference::Id(id) => Ok(*id),
            Reference::Name(name) => {
                let columns = self.columns.get(&table).ok_or_else(|| Missing(format!("table {}", table.0)))?;
                columns.get(name).copied().ok_or_else(|| Missing(format!("column {name} of table {}", table.0)))
            }
        }
    }

    /// The table of a data file; none that a call would accept is missing.
    pub fn table_of(&self, file: FileId) -> CatalogId {
        self.files.get(&file).copied().unwrap_or(CatalogId(0))
    }

    // What a commit makes

    /// The snapshot of the next commit.
    pub fn commit(&mut self) -> SnapshotId {
        self.at.0 = self.at.0.saturating_add(1);
        self.at
    }

    fn next_catalog_id(&mut self) -> CatalogId {
        let id = CatalogId(self.next_catalog_id);
        self.next_catalog_id = id.0.saturating_add(1);
        id
    }

    pub fn next_file_id(&mut self) -> FileId {
        let id = FileId(self.next_file_id);
        self.next_file_id = id.0.saturating_add(1);
        id
    }

    pub fn create_schema(&mut self, name: &str) -> CatalogId {
        let id = self.next_catalog_id();
        self.schemas.insert(name.to_string(), id);
        id
    }

    pub fn drop_schema(&mut self, schema: CatalogId) {
        self.schemas.retain(|_, id| *id != schema);
    }

    /// "columns get ids 1, 2, …"
    pub fn create_table(&mut self, schema: CatalogId, name: &str, columns: &[Column]) -> CatalogId {
        let id = self.next_catalog_id();
        self.tables.insert((schema, name.to_string()), id);
        self.columns.insert(id, columns.iter().map(|column| column.name.clone()).zip(1..).collect());
        id
    }

    pub fn drop_table(&mut self, table: CatalogId) {
        self.tables.retain(|_, id| *id != table);
        self.columns.remove(&table);
    }

    pub fn insert(&mut self, table: CatalogId) -> FileId {
        let id = self.next_file_id();
        self.files.insert(id, table);
        id
    }
}
