//! What one snapshot shows: "What a snapshot shows is its accepted readings."

use std::collections::BTreeMap;

use crate::calls::{Call, Reading};
use crate::lent::ABSENT;
use crate::records::{CatalogId, ColumnId, FileId};

#[derive(Clone, Debug)]
pub struct Page {
    pub time: u64,
    pub schemas: BTreeMap<CatalogId, Vec<u8>>,
    pub tables: BTreeMap<CatalogId, Table>,
}

#[derive(Clone, Debug)]
pub struct Table {
    pub schema: CatalogId,
    pub name: Vec<u8>,
    pub columns: u64,
    pub files: BTreeMap<FileId, File>,
}

#[derive(Clone, Debug)]
pub struct File {
    pub delete_file: Option<FileId>,
    pub bounds: BTreeMap<ColumnId, Bounds>,
}

#[derive(Clone, Copy, Debug)]
pub struct Bounds {
    pub min: Option<i64>,
    pub max: Option<i64>,
}

impl Page {
    pub fn fresh(time: u64) -> Page {
        let schemas = BTreeMap::from([(0, b"main".to_vec())]);
        Page { time, schemas, tables: BTreeMap::new() }
    }

    /// The page after an accepted commit, which takes these ids if it takes any.
    pub fn after(
        &self,
        call: &Call,
        catalog_id: CatalogId,
        file_id: FileId,
    ) -> Result<Page, String> {
        let mut page = self.clone();
        page.time = super::time(call);
        match call {
            Call::CreateSchema { name, .. } => {
                page.schemas.insert(catalog_id, name.clone());
            }
            Call::CreateTable { schema, name, columns, .. } => {
                let (name, columns) = (name.clone(), columns.len() as u64 / 2);
                let table = Table { schema: *schema, name, columns, files: BTreeMap::new() };
                page.tables.insert(catalog_id, table);
            }
            Call::Insert { table, statistics, .. } => {
                let table = page.tables.get_mut(table).ok_or("an insert into no table")?;
                table.files.insert(file_id, File::new(statistics));
            }
            Call::Delete { data_file, .. } => {
                let mut tables = page.tables.values_mut();
                let file = tables.find_map(|table| table.files.get_mut(data_file));
                file.ok_or("a deletion from no file")?.delete_file = Some(file_id);
            }
            Call::DropTable { table, .. } => {
                page.tables.remove(table).ok_or("a drop of no table")?;
            }
            Call::DropSchema { schema, .. } => {
                page.schemas.remove(schema).ok_or("a drop of no schema")?;
            }
            Call::Fresh { .. } | Call::Expire { .. } | Call::Cleanup { .. } => {
                return Err("no commit".to_string());
            }
        }
        Ok(page)
    }

    /// Data files and delete files in the page's file lists.
    pub fn files(&self) -> impl Iterator<Item = FileId> + '_ {
        let files = self.tables.values().flat_map(|table| &table.files);
        files.flat_map(|(id, file)| [Some(*id), file.delete_file]).flatten()
    }

    /// The answer of a reading at this page's snapshot; none where it is refused with 6.
    pub fn answer(&self, reading: &Reading) -> Option<Vec<u64>> {
        match reading {
            Reading::Schemas { .. } => Some(self.schemas.keys().copied().collect()),
            Reading::Tables { schema, .. } => {
                self.schemas.get(schema)?;
                let tables = self.tables.iter().filter(|(_, table)| table.schema == *schema);
                Some(tables.map(|(id, _)| *id).collect())
            }
            Reading::Columns { table, .. } => Some((1..=self.tables.get(table)?.columns).collect()),
            Reading::TableByName { schema, name, .. } => {
                let mut tables = self.tables.iter();
                let found = tables.find(|(_, t)| t.schema == *schema && t.name == *name)?;
                Some(vec![*found.0])
            }
            Reading::Files { table, .. } => Some(self.tables.get(table)?.list(|_| true)),
            Reading::FilteredFiles { table, column, scalar, .. } => {
                let table = self.tables.get(table)?;
                let known = (1..=table.columns).contains(column);
                known.then(|| table.list(|file| file.may_hold(*column, *scalar)))
            }
            Reading::Rows { .. } | Reading::ByTime { .. } | Reading::FindFile { .. } => None,
        }
    }
}

impl Table {
    fn list(&self, kept: impl Fn(&File) -> bool) -> Vec<u64> {
        let files = self.files.iter().filter(|(_, file)| kept(file));
        files.flat_map(|(id, file)| [*id, file.delete_file.unwrap_or(ABSENT)]).collect()
    }
}

impl File {
    /// From the statistics of the insert: column id, null_count, has_min, has_max, min, max.
    fn new(statistics: &[u64]) -> File {
        let mut bounds = BTreeMap::new();
        for [column, _, has_min, has_max, min, max] in statistics.as_chunks::<6>().0 {
            let min = (*has_min == 1).then_some(*min as i64);
            let max = (*has_max == 1).then_some(*max as i64);
            bounds.insert(*column, Bounds { min, max });
        }
        File { delete_file: None, bounds }
    }

    /// "(min missing or scalar ≥ min) and (max missing or scalar ≤ max)"
    fn may_hold(&self, column: ColumnId, scalar: i64) -> bool {
        self.bounds.get(&column).is_some_and(|Bounds { min, max }| {
            min.is_none_or(|min| min <= scalar) && max.is_none_or(|max| scalar <= max)
        })
    }
}
