//! "The row book is fed only each call's arguments and whether it was accepted."

use std::collections::{BTreeMap, BTreeSet};
use std::sync::Arc;

use crate::calls::Call;
use crate::lent::RECORD_COUNT_LIMIT;
use crate::records::{CatalogId, FileId, RowId};

/// The rows of one table on one page, in the order in which they came.
#[derive(Clone, Debug, Default, PartialEq, Eq)]
pub struct TableRows {
    pub rows: Arc<Vec<RowId>>,
    pub next_row: RowId,
}

pub type Page = BTreeMap<CatalogId, TableRows>;

/// A data file's table and first row.
#[derive(Clone, Copy, Debug, PartialEq, Eq)]
struct Registered {
    table: CatalogId,
    first: RowId,
}

#[derive(Clone, Debug)]
pub struct RowBook {
    pages: Vec<Page>,
    next_catalog_id: CatalogId,
    next_file_id: FileId,
    files: BTreeMap<FileId, Registered>,
}

impl Default for RowBook {
    /// "Page 0 has no table; catalog ids count from 1, file ids from 0."
    fn default() -> RowBook {
        RowBook {
            pages: vec![Page::new()],
            next_catalog_id: 1,
            next_file_id: 0,
            files: BTreeMap::new(),
        }
    }
}

impl RowBook {
    pub fn pages(&self) -> &[Page] {
        &self.pages
    }

    /// The ids that the next commit will take.
    pub fn next_catalog_id(&self) -> CatalogId {
        self.next_catalog_id
    }

    pub fn next_file_id(&self) -> FileId {
        self.next_file_id
    }

    /// "Only an accepted commit writes, on a copy of the last page that becomes the next." Drop
    /// schema's page equals the page before (R31). A commit that no page allows is an error.
    pub fn write(&mut self, call: &Call) -> Result<(), String> {
        let mut page = self.pages.last().cloned().unwrap_or_default();
        match call {
            Call::Fresh { .. } | Call::Expire { .. } | Call::Cleanup { .. } => return Ok(()),
            Call::CreateSchema { .. } => self.next_catalog_id += 1,
            Call::CreateTable { .. } => {
                page.insert(self.next_catalog_id, TableRows::default());
                self.next_catalog_id += 1;
            }
            Call::Insert { table, record_count, .. } => {
                self.insert(&mut page, *table, *record_count)?;
            }
            Call::Delete { data_file, positions, .. } => {
                self.delete(&mut page, *data_file, positions)?;
            }
            Call::DropTable { table, .. } => {
                page.remove(table).ok_or("a table was dropped that is not on the last page")?;
            }
            Call::DropSchema { .. } => (),
        }
        self.pages.push(page);
        Ok(())
    }

    /// "Insert registers the next file id under its table, with the table's next row as the file's
    /// first; it appends record_count rows from there and moves next row past them."
    fn insert(&mut self, page: &mut Page, table: CatalogId, count: u64) -> Result<(), String> {
        let rows = page.get_mut(&table).ok_or("rows for a table that is not on the last page")?;
        if count > RECORD_COUNT_LIMIT {
            return Err("more rows than a file may have".to_string());
        }
        let first = rows.next_row;
        rows.next_row = first + count;
        Arc::make_mut(&mut rows.rows).extend(first..first + count);
        self.files.insert(self.next_file_id, Registered { table, first });
        self.next_file_id += 1;
        Ok(())
    }

    /// "Delete registers a file id too and, for each position p, strikes the named file's first + p
    /// from that file's table."
    fn delete(&mut self, page: &mut Page, file: FileId, positions: &[u64]) -> Result<(), String> {
        let Registered { table, first } =
            *self.files.get(&file).ok_or("a deletion from a file that was never registered")?;
        let rows = page.get_mut(&table).ok_or("a deletion from a table not on the last page")?;
        let struck = positions.iter().filter_map(|position| first.checked_add(*position));
        let struck: BTreeSet<RowId> = struck.collect();
        Arc::make_mut(&mut rows.rows).retain(|row| !struck.contains(row));
        self.next_file_id += 1;
        Ok(())
    }
}
