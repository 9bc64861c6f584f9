//! Where files lie below the data path: "By default, this path is the name of the schema", then that of the table, then `ducklake-{uuid}.parquet`. A scheduled
//! record has no table, so of its file only the path in the table's folder is known; a list of what is in the storage says the rest.

use crate::failure::{code, Failure};
use crate::file::Lake;
use crate::names::Names;
use gukoremo::CatalogId;
use std::collections::BTreeMap;
use std::fs;
use std::path::Path;

/// Below a list of scheduled files.
pub const NO_TABLE: &str = "A scheduled record does not name its table: a path is below the folder that 'gukoremo expire' said.";

pub fn folder(schema: &str, table: &str) -> String {
    format!("{schema}/{table}/")
}

/// The paths of the data and delete files on record, by id.
pub fn paths(lake: &Lake) -> BTreeMap<u64, String> {
    let names = Names::of(lake);
    let folder_of = |table: CatalogId| names.table(table).map_or(String::new(), |(schema, name)| folder(&schema, name));
    let data = lake.records().data_files().map(|file| (file.id, file.table, file.uuid));
    let files = data.chain(lake.records().delete_files().map(|file| (file.id, file.table, file.uuid)));
    files.map(|(id, table, uuid)| (id.0, format!("{}{}", folder_of(table), uuid.path()))).collect()
}

/// What is in the storage: the sizes of files in bytes, by their path below the data path.
#[derive(Debug, PartialEq, Eq)]
pub struct Storage(BTreeMap<String, u64>);

impl Storage {
    pub fn read(path: &Path) -> Result<Storage, Failure> {
        Storage::parse(&fs::read_to_string(path).map_err(|error| Failure::io(path, "read", error))?)
    }

    /// Lines of a size, a space and a path.
    fn parse(text: &str) -> Result<Storage, Failure> {
        let wrong = |at: usize, why: &str| {
            Failure::new(code::DATA, format!("line {} of the list of what is in the storage: {why}.", at + 1)).advice(
                "give a line for each file: its size in bytes, a space, its path below the data path; as find DATA -type f -printf '%s %P\\n' does.",
            )
        };
        let mut sizes = BTreeMap::new();
        for (at, line) in text.lines().enumerate() {
            let parts = line.split_once(' ').and_then(|(size, path)| Some((i64::try_from(size.parse::<u64>().ok()?).ok()?, path)));
            let (size, path) = parts.filter(|(_, path)| !path.is_empty()).ok_or_else(|| wrong(at, "it is no size and path"))?;
            if sizes.insert(path.to_string(), size as u64).is_some() {
                return Err(wrong(at, &format!("{path} is there twice")));
            }
        }
        Ok(Storage(sizes))
    }

    /// The size of a file on record.
    pub fn size(&self, path: &str) -> Result<u64, Failure> {
        self.0.get(path).copied().ok_or_else(|| missing(path))
    }

    /// The one path that ends in this name.
    pub fn find(&self, name: &str) -> Result<&str, Failure> {
        let found: Vec<&str> = self.0.keys().map(String::as_str).filter(|path| path.rsplit('/').next() == Some(name)).collect();
        match found[..] {
            [] => Err(missing(name)),
            [path] => Ok(path),
            [one, other, ..] => Err(Failure::new(code::DATA, format!("{one} and {other} are both in the storage."))
                .why(format!("{name} is scheduled, and its record does not say in which folder."))
                .advice("leave out of the list the one that is not this catalogue's.")),
        }
    }
}

fn missing(path: &str) -> Failure {
    Failure::new(code::DATA, format!("{path} is not in the list of what is in the storage."))
        .why("the catalogue has that file.")
        .advice("see whether the list is of the whole data path, and whether the file is there.")
}

#[cfg(test)]
mod tests {
    use super::Storage;

    #[test]
    fn lists() {
        let storage = Storage::parse("12 main/diary/a.parquet\n7 main/wall/b c.parquet\n9 other/wall/a.parquet\n").expect("a list");
        assert_eq!(storage.size("main/diary/a.parquet").ok(), Some(12));
        assert_eq!(storage.find("b c.parquet").ok(), Some("main/wall/b c.parquet"));
        assert!(storage.size("a.parquet").is_err() && storage.find("a.parquet").is_err() && storage.find("c.parquet").is_err());
        for bad in ["a.parquet", "12", "12 ", "-1 a", "9223372036854775808 a", "1 a\n\n", "1 a\n2 a"] {
            assert!(Storage::parse(bad).is_err(), "{bad}");
        }
    }
}
