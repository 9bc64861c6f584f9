//! The records as they lie in the tables.

use crate::number::{CatalogId, FileId, SnapshotId, NAME_SIZE};
use crate::outcome::Counts;
use crate::record::{ColumnRecord, DataFileRecord, SchemaRecord, TableRecord};
use crate::records::{Column, DataFile, DeleteFile, File, Scheduled, Schema, Snapshot, Statistics, Table};
use crate::tables::TablesView;

/// The used records of the tables, in their order: [`Catalog::records`](crate::Catalog::records) gives them. Examples go on from [the crate's page](crate).
///
/// Nothing is judged here. Any content is read, and no more of it than is there, whatever the counts are; a call's answer or
/// [`Catalog::first_unsound`](crate::Catalog::first_unsound) says whether the tables are sound.
///
/// ```
/// # use gukoremo::{CatalogId, ColumnType, FileId};
/// # let catalog = include!(concat!(env!("CARGO_MANIFEST_DIR"), "/src/diary.in"));
/// // the catalogue of the crate's page
/// let records = catalog.records();
/// assert_eq!(records.latest().map(|snapshot| snapshot.change.to_string()), Some("deleted_from_table 1".to_string()));
/// assert_eq!(records.table(CatalogId(1)).map(|table| table.name), Some("diary".to_string()));
/// let columns: Vec<(String, ColumnType)> = records.columns_of(CatalogId(1)).map(|column| (column.name, column.column_type)).collect();
/// assert_eq!(columns, [("item".to_string(), ColumnType::Int64)]);
/// assert_eq!(records.statistics_of(FileId(0)).next().map(|of_item| (of_item.min, of_item.max)), Some((Some(1), Some(3))));
/// assert_eq!(records.positions_of(FileId(1)), Some(&[1][..]));
/// # Ok::<(), gukoremo::Refusal>(())
/// ```
#[derive(Clone, Copy, Debug)]
pub struct Records<'a> {
    view: TablesView<'a>,
    counts: Counts,
}

impl<'a> TablesView<'a> {
    /// The records of these tables, with the counts of a call on them.
    ///
    /// ```
    /// use gukoremo::{Counts, Lend, OwnedTables};
    ///
    /// // more are counted than there are
    /// let tables = OwnedTables::with_room(Counts::each(2));
    /// assert_eq!(tables.view().records(Counts::each(9)).snapshots().count(), 2);
    /// ```
    pub fn records(self, counts: Counts) -> Records<'a> {
        Records { view: self, counts }
    }
}

/// The used records of a run.
fn used<'a, const SIZE: usize>(words: &'a [u64], count: usize) -> std::iter::Take<std::slice::Iter<'a, [u64; SIZE]>> {
    words.as_chunks().0.iter().take(count)
}

/// A record with the place of its name.
type Named<'a, const SIZE: usize> = (&'a [u64; SIZE], &'a [u8; NAME_SIZE]);

fn named<'a, const SIZE: usize>(words: &'a [u64], names: &'a [u8], count: usize) -> impl Iterator<Item = Named<'a, SIZE>> + 'a {
    used(words, count).zip(names.as_chunks().0)
}

impl<'a> Records<'a> {
    /// The retained snapshots, by ascending id.
    ///
    /// ```
    /// # use gukoremo::SnapshotId;
    /// # let catalog = include!(concat!(env!("CARGO_MANIFEST_DIR"), "/src/diary.in"));
    /// let times: Vec<u64> = catalog.records().snapshots().map(|snapshot| snapshot.time).collect();
    /// assert_eq!(times, [100, 110, 120, 130]);
    /// # Ok::<(), gukoremo::Refusal>(())
    /// ```
    pub fn snapshots(self) -> impl DoubleEndedIterator<Item = Snapshot> + ExactSizeIterator + 'a {
        used(self.view.snapshots, self.counts.snapshots).map(Snapshot::of)
    }

    /// The latest snapshot: sound tables have one.
    ///
    /// ```
    /// # use gukoremo::SnapshotId;
    /// # let catalog = include!(concat!(env!("CARGO_MANIFEST_DIR"), "/src/diary.in"));
    /// assert_eq!(catalog.records().latest().map(|snapshot| snapshot.id), Some(SnapshotId(3)));
    /// # Ok::<(), gukoremo::Refusal>(())
    /// ```
    pub fn latest(self) -> Option<Snapshot> {
        self.snapshots().next_back()
    }

    /// The snapshot of an id.
    ///
    /// ```
    /// # use gukoremo::SnapshotId;
    /// # let catalog = include!(concat!(env!("CARGO_MANIFEST_DIR"), "/src/diary.in"));
    /// assert_eq!(catalog.records().snapshot(SnapshotId(2)).map(|snapshot| snapshot.time), Some(120));
    /// # Ok::<(), gukoremo::Refusal>(())
    /// ```
    pub fn snapshot(self, id: SnapshotId) -> Option<Snapshot> {
        self.snapshots().find(|snapshot| snapshot.id == id)
    }

    /// The schemas, by ascending id.
    ///
    /// ```
    /// # let catalog = include!(concat!(env!("CARGO_MANIFEST_DIR"), "/src/diary.in"));
    /// assert_eq!(catalog.records().schemas().map(|schema| schema.name).collect::<Vec<String>>(), ["main"]);
    /// # Ok::<(), gukoremo::Refusal>(())
    /// ```
    pub fn schemas(self) -> impl Iterator<Item = Schema> + 'a {
        self.named_schemas().map(|(words, place)| Schema::of(words, place))
    }

    /// The schema of an id.
    ///
    /// ```
    /// # use gukoremo::CatalogId;
    /// # let catalog = include!(concat!(env!("CARGO_MANIFEST_DIR"), "/src/diary.in"));
    /// assert_eq!(catalog.records().schema(CatalogId(0)).map(|schema| schema.name), Some("main".to_string()));
    /// # Ok::<(), gukoremo::Refusal>(())
    /// ```
    pub fn schema(self, id: CatalogId) -> Option<Schema> {
        self.named_schemas().find(|(words, _)| words[SchemaRecord::ID] == id.0).map(|(words, place)| Schema::of(words, place))
    }

    /// The tables, by ascending id.
    ///
    /// ```
    /// # let catalog = include!(concat!(env!("CARGO_MANIFEST_DIR"), "/src/diary.in"));
    /// assert_eq!(catalog.records().tables().map(|table| table.name).collect::<Vec<String>>(), ["diary"]);
    /// # Ok::<(), gukoremo::Refusal>(())
    /// ```
    pub fn tables(self) -> impl Iterator<Item = Table> + 'a {
        self.named_tables().map(|(words, place)| Table::of(words, place))
    }

    /// The table of an id.
    ///
    /// ```
    /// # use gukoremo::{CatalogId, RowId};
    /// # let catalog = include!(concat!(env!("CARGO_MANIFEST_DIR"), "/src/diary.in"));
    /// assert_eq!(catalog.records().table(CatalogId(1)).map(|table| table.next_row_id), Some(RowId(3)));
    /// # Ok::<(), gukoremo::Refusal>(())
    /// ```
    pub fn table(self, id: CatalogId) -> Option<Table> {
        self.named_tables().find(|(words, _)| words[TableRecord::ID] == id.0).map(|(words, place)| Table::of(words, place))
    }

    /// The columns, by table and ascending id.
    ///
    /// ```
    /// # let catalog = include!(concat!(env!("CARGO_MANIFEST_DIR"), "/src/diary.in"));
    /// assert_eq!(catalog.records().columns().map(|column| column.name).collect::<Vec<String>>(), ["item"]);
    /// # Ok::<(), gukoremo::Refusal>(())
    /// ```
    pub fn columns(self) -> impl Iterator<Item = Column> + 'a {
        self.named_columns().map(|(words, place)| Column::of(words, place))
    }

    /// The columns of a table, by ascending id.
    ///
    /// ```
    /// # use gukoremo::{CatalogId, ColumnType};
    /// # let catalog = include!(concat!(env!("CARGO_MANIFEST_DIR"), "/src/diary.in"));
    /// let types: Vec<ColumnType> = catalog.records().columns_of(CatalogId(1)).map(|column| column.column_type).collect();
    /// assert_eq!(types, [ColumnType::Int64]);
    /// # Ok::<(), gukoremo::Refusal>(())
    /// ```
    pub fn columns_of(self, table: CatalogId) -> impl Iterator<Item = Column> + 'a {
        let of_table = self.named_columns().filter(move |(words, _)| words[ColumnRecord::TABLE] == table.0);
        of_table.map(|(words, place)| Column::of(words, place))
    }

    /// The data files, by ascending id.
    ///
    /// ```
    /// # let catalog = include!(concat!(env!("CARGO_MANIFEST_DIR"), "/src/diary.in"));
    /// assert_eq!(catalog.records().data_files().map(|file| file.record_count).sum::<u64>(), 3);
    /// # Ok::<(), gukoremo::Refusal>(())
    /// ```
    pub fn data_files(self) -> impl Iterator<Item = DataFile> + 'a {
        used(self.view.data_files, self.counts.data_files).map(DataFile::of)
    }

    /// The data file of an id.
    ///
    /// ```
    /// # use gukoremo::FileId;
    /// # let catalog = include!(concat!(env!("CARGO_MANIFEST_DIR"), "/src/diary.in"));
    /// let file = catalog.records().data_file(FileId(0)).expect("on record");
    /// assert_eq!((file.record_count, file.life.end), (3, None));
    /// # Ok::<(), gukoremo::Refusal>(())
    /// ```
    pub fn data_file(self, id: FileId) -> Option<DataFile> {
        self.data_files().find(|file| file.id == id)
    }

    /// The delete files, by ascending id.
    ///
    /// ```
    /// # use gukoremo::FileId;
    /// # let catalog = include!(concat!(env!("CARGO_MANIFEST_DIR"), "/src/diary.in"));
    /// assert!(catalog.records().delete_files().all(|file| file.data_file == FileId(0)));
    /// # Ok::<(), gukoremo::Refusal>(())
    /// ```
    pub fn delete_files(self) -> impl Iterator<Item = DeleteFile> + 'a {
        used(self.view.delete_files, self.counts.delete_files).map(DeleteFile::of)
    }

    /// The delete file of an id.
    ///
    /// ```
    /// # use gukoremo::FileId;
    /// # let catalog = include!(concat!(env!("CARGO_MANIFEST_DIR"), "/src/diary.in"));
    /// assert_eq!(catalog.records().delete_file(FileId(1)).map(|file| file.delete_count), Some(1));
    /// # Ok::<(), gukoremo::Refusal>(())
    /// ```
    pub fn delete_file(self, id: FileId) -> Option<DeleteFile> {
        self.delete_files().find(|file| file.id == id)
    }

    /// The delete files, each with its positions: "the delete files' positions follow each other in delete file order".
    ///
    /// ```
    /// # let catalog = include!(concat!(env!("CARGO_MANIFEST_DIR"), "/src/diary.in"));
    /// for (file, positions) in catalog.records().deletes() {
    ///     assert_eq!(file.delete_count, positions.len() as u64);
    /// }
    /// # Ok::<(), gukoremo::Refusal>(())
    /// ```
    pub fn deletes(self) -> impl Iterator<Item = (DeleteFile, &'a [u64])> + 'a {
        let positions = self.view.positions;
        let mut rest = &positions[..self.counts.positions.min(positions.len())];
        self.delete_files().map(move |file| {
            let own;
            (own, rest) = rest.split_at(rest.len().min(usize::try_from(file.delete_count).unwrap_or(usize::MAX)));
            (file, own)
        })
    }

    /// The positions of a delete file, ascending.
    ///
    /// ```
    /// # use gukoremo::FileId;
    /// # let catalog = include!(concat!(env!("CARGO_MANIFEST_DIR"), "/src/diary.in"));
    /// assert_eq!(catalog.records().positions_of(FileId(1)), Some(&[1][..]));
    /// # Ok::<(), gukoremo::Refusal>(())
    /// ```
    pub fn positions_of(self, delete_file: FileId) -> Option<&'a [u64]> {
        self.deletes().find(|(file, _)| file.id == delete_file).map(|(_, positions)| positions)
    }

    /// The statistics, by data file and ascending column id.
    ///
    /// ```
    /// # let catalog = include!(concat!(env!("CARGO_MANIFEST_DIR"), "/src/diary.in"));
    /// assert!(catalog.records().statistics().all(|of_column| of_column.null_count == 0));
    /// # Ok::<(), gukoremo::Refusal>(())
    /// ```
    pub fn statistics(self) -> impl Iterator<Item = Statistics> + 'a {
        used(self.view.statistics, self.counts.statistics).map(Statistics::of)
    }

    /// The statistics of a data file, by ascending column id.
    ///
    /// ```
    /// # use gukoremo::FileId;
    /// # let catalog = include!(concat!(env!("CARGO_MANIFEST_DIR"), "/src/diary.in"));
    /// let bounds: Vec<_> = catalog.records().statistics_of(FileId(0)).map(|of_column| (of_column.min, of_column.max)).collect();
    /// assert_eq!(bounds, [(Some(1), Some(3))]);
    /// # Ok::<(), gukoremo::Refusal>(())
    /// ```
    pub fn statistics_of(self, data_file: FileId) -> impl Iterator<Item = Statistics> + 'a {
        self.statistics().filter(move |of_column| of_column.data_file == data_file)
    }

    /// The files that a cleanup may hand out, in the order in which they were scheduled.
    ///
    /// ```
    /// # use gukoremo::{SnapshotId, FileId, Uuid};
    /// # let mut catalog = include!(concat!(env!("CARGO_MANIFEST_DIR"), "/src/diary.in"));
    /// catalog.delete(140, FileId(0), Uuid::from_u128(3), &[0])?;
    /// catalog.expire(&[SnapshotId(3)], 150)?;
    /// assert_eq!(catalog.records().scheduled().map(|file| file.schedule_start).collect::<Vec<u64>>(), [150]);
    /// # Ok::<(), gukoremo::Refusal>(())
    /// ```
    pub fn scheduled(self) -> impl Iterator<Item = Scheduled> + 'a {
        used(self.view.scheduled, self.counts.scheduled).map(Scheduled::of)
    }

    /// The file of the words that a lookup answers in a list: a data file where one on record has their id.
    ///
    /// ```
    /// # use gukoremo::{CallList, File, FileId};
    /// # let mut catalog = include!(concat!(env!("CARGO_MANIFEST_DIR"), "/src/diary.in"));
    /// // the catalogue of the crate's page
    /// let mut list = CallList::new();
    /// list.push_find_file(FileId(1));
    /// let mut area = [0; 8];
    /// let given = catalog.play(&list, &mut area)[0]?.try_into().expect("a record");
    /// assert!(matches!(catalog.records().file_of(given), File::Delete(file) if file.data_file == FileId(0)));
    /// # Ok::<(), gukoremo::Refusal>(())
    /// ```
    pub fn file_of(self, words: &[u64; DataFileRecord::SIZE]) -> File {
        match self.data_file(FileId(words[DataFileRecord::ID])) {
            Some(_) => File::Data(DataFile::of(words)),
            None => File::Delete(DeleteFile::of(words)),
        }
    }

    // Before a name is made text

    fn named_schemas(self) -> impl Iterator<Item = Named<'a, { SchemaRecord::SIZE }>> + 'a {
        named(self.view.schemas, self.view.schema_names, self.counts.schemas)
    }

    fn named_tables(self) -> impl Iterator<Item = Named<'a, { TableRecord::SIZE }>> + 'a {
        named(self.view.tables, self.view.table_names, self.counts.tables)
    }

    fn named_columns(self) -> impl Iterator<Item = Named<'a, { ColumnRecord::SIZE }>> + 'a {
        named(self.view.columns, self.view.column_names, self.counts.columns)
    }
}
