//! What calls answer, and the words that it is read from.

use crate::number::{CatalogId, FileId, ABSENT, HANDED_SIZE};
use crate::record::Uuid;
use crate::records::Snapshot;

/// Words of a file in a file list.
pub(crate) const LISTED_SIZE: usize = 2;

/// What [`Catalog::create_schema`](crate::Catalog::create_schema) made.
#[derive(Clone, Copy, Debug, PartialEq, Eq, Hash)]
pub struct CreatedSchema {
    /// The new snapshot.
    pub snapshot: Snapshot,
    /// The new schema.
    pub schema: CatalogId,
}

/// What [`Catalog::create_table`](crate::Catalog::create_table) made.
#[derive(Clone, Copy, Debug, PartialEq, Eq, Hash)]
pub struct CreatedTable {
    /// The new snapshot.
    pub snapshot: Snapshot,
    /// The new table. Its columns have the ids 1, 2, ...
    pub table: CatalogId,
}

/// What [`Catalog::insert`](crate::Catalog::insert) made.
#[derive(Clone, Copy, Debug, PartialEq, Eq, Hash)]
pub struct Inserted {
    /// The new snapshot.
    pub snapshot: Snapshot,
    /// The new data file.
    pub data_file: FileId,
}

/// What [`Catalog::delete`](crate::Catalog::delete) made.
#[derive(Clone, Copy, Debug, PartialEq, Eq, Hash)]
pub struct Deleted {
    /// The new snapshot.
    pub snapshot: Snapshot,
    /// The new delete file. It has the positions of the one before it, too.
    pub delete_file: FileId,
}

/// A file of a file list, with its delete file at that snapshot.
#[derive(Clone, Copy, Debug, PartialEq, Eq, Hash)]
pub struct Listed {
    /// The data file.
    pub data_file: FileId,
    /// The file of its deleted rows; none where none is deleted.
    pub delete_file: Option<FileId>,
}

impl Listed {
    /// The files of a file list's words.
    ///
    /// ```
    /// use gukoremo::{number, FileId, Listed};
    ///
    /// let listed = Listed::read_all(&[0, 3, 1, number::ABSENT]);
    /// assert_eq!(listed[0], Listed { data_file: FileId(0), delete_file: Some(FileId(3)) });
    /// assert_eq!(listed[1], Listed { data_file: FileId(1), delete_file: None });
    /// ```
    pub fn read_all(words: &[u64]) -> Vec<Listed> {
        let file = |[data_file, delete_file]: &[u64; LISTED_SIZE]| Listed {
            data_file: FileId(*data_file),
            delete_file: (*delete_file != ABSENT).then_some(FileId(*delete_file)),
        };
        words.as_chunks().0.iter().map(file).collect()
    }
}

/// A file that a cleanup hands out: nothing shows it any more.
#[derive(Clone, Copy, Debug, PartialEq, Eq, Hash)]
pub struct Handed {
    /// The file's id, which had been that of a data file or of a delete file.
    pub file: FileId,
    /// What its path is made of.
    pub uuid: Uuid,
}

impl Handed {
    /// The files of a cleanup's words.
    ///
    /// ```
    /// use gukoremo::{FileId, Handed, Uuid};
    ///
    /// assert_eq!(Handed::read_all(&[2, 0, 7]), [Handed { file: FileId(2), uuid: Uuid { high: 0, low: 7 } }]);
    /// ```
    pub fn read_all(words: &[u64]) -> Vec<Handed> {
        let file = |[file, high, low]: &[u64; HANDED_SIZE]| Handed { file: FileId(*file), uuid: Uuid { high: *high, low: *low } };
        words.as_chunks().0.iter().map(file).collect()
    }
}
