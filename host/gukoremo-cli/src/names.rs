//! The names of schemas and tables on record, by id.

use crate::file::Lake;
use gukoremo::{CatalogId, Change, Snapshot};
use std::collections::HashMap;

pub struct Names {
    schemas: HashMap<CatalogId, String>,
    /// Each with its schema.
    tables: HashMap<CatalogId, (CatalogId, String)>,
}

impl Names {
    pub fn of(lake: &Lake) -> Names {
        Names {
            schemas: lake.records().schemas().map(|schema| (schema.id, schema.name)).collect(),
            tables: lake.records().tables().map(|table| (table.id, (table.schema, table.name))).collect(),
        }
    }

    /// The name of a schema; its id where it is not on record any more.
    pub fn schema(&self, id: CatalogId) -> String {
        self.schemas.get(&id).cloned().unwrap_or_else(|| id.to_string())
    }

    /// The names of a table's schema and of the table.
    pub fn table(&self, id: CatalogId) -> Option<(String, &str)> {
        self.tables.get(&id).map(|(schema, name)| (self.schema(*schema), name.as_str()))
    }

    /// What a snapshot's change is about; none where that is not on record any more.
    pub fn object(&self, snapshot: &Snapshot) -> Option<String> {
        match snapshot.change {
            Change::CreatedSchema(id) | Change::DroppedSchema(id) => self.schemas.get(&id).cloned(),
            change => self.table(change.object()).map(|(schema, name)| format!("{schema}.{name}")),
        }
    }
}
