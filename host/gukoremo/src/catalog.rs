//! A catalogue: tables with their counts, and the calls as methods.

use crate::answers::{CreatedSchema, CreatedTable, Deleted, Handed, Inserted, Listed, LISTED_SIZE};
use crate::arguments::{NewColumn, NewStatistics};
use crate::list::CallList;
use crate::number::{CatalogId, FileId, RowId, SnapshotId, COLUMN_LIMIT, HANDED_SIZE};
use crate::outcome::{Counts, Outcome};
use crate::raw;
use crate::reader::Records;
use crate::record::{DataFileRecord, Uuid};
use crate::records::{File, Snapshot};
use crate::refusal::Refusal;
use crate::room::{self, rows_of, Most};
use crate::session::TOLD_SIZE;
use crate::tables::{Lend, Tables, TablesView};
use crate::unsound::Line;

/// As many words as the answer of a reading may have here: 2 GiB of them. The calls of [`crate::raw`] take an area of any length.
pub const ANSWER_LIMIT: usize = 1 << 28;

/// A catalogue in tables that it owns ([`crate::OwnedTables`]) or that are lent to it ([`Tables`]).
///
/// Each commit makes a snapshot, of a time that is not below the latest snapshot's. Each reading is of a retained snapshot. Examples without a beginning go on
/// from [the crate's page](crate).
#[derive(Clone, Debug, PartialEq, Eq)]
pub struct Catalog<T: Lend> {
    lent: T,
    counts: Counts,
}

impl<T: Lend> Catalog<T> {
    /// Fresh: an empty catalogue with schema 0, `main`, whatever the tables hold.
    ///
    /// # Errors
    ///
    /// [`NoRoom`](Refusal::NoRoom) where the tables have no place for a snapshot and a schema.
    ///
    /// ```
    /// use gukoremo::{Catalog, Counts, OwnedTables, SnapshotId};
    ///
    /// let catalog = Catalog::fresh(OwnedTables::with_room(Counts::each(8)), 100)?;
    /// assert_eq!(catalog.list_schemas(SnapshotId(0))?.len(), 1);
    /// # Ok::<(), gukoremo::Refusal>(())
    /// ```
    pub fn fresh(lent: T, time: u64) -> Result<Catalog<T>, Refusal> {
        let mut catalog = Catalog { lent, counts: Counts::NONE };
        catalog.change(|lent, counts| raw::fresh(lent, counts, time, &mut []))?;
        Ok(catalog)
    }

    /// A catalogue that was made before, with the counts that its last call handed back. Nothing is tested here: each call tests the tables.
    ///
    /// ```
    /// # use gukoremo::{Catalog, FileId};
    /// # let catalog = include!(concat!(env!("CARGO_MANIFEST_DIR"), "/src/diary.in"));
    /// let (tables, counts) = catalog.into_parts();
    /// let again = Catalog::resume(tables, counts);
    /// assert!(again.find_file(FileId(1)).is_ok());
    /// # Ok::<(), gukoremo::Refusal>(())
    /// ```
    pub fn resume(lent: T, counts: Counts) -> Catalog<T> {
        Catalog { lent, counts }
    }

    /// How many records of each table are used.
    ///
    /// ```
    /// # let catalog = include!(concat!(env!("CARGO_MANIFEST_DIR"), "/src/diary.in"));
    /// assert_eq!((catalog.counts().snapshots, catalog.counts().data_files), (4, 1));
    /// # Ok::<(), gukoremo::Refusal>(())
    /// ```
    pub fn counts(&self) -> Counts {
        self.counts
    }

    /// The tables, as they lie.
    ///
    /// ```
    /// # let catalog = include!(concat!(env!("CARGO_MANIFEST_DIR"), "/src/diary.in"));
    /// // the first word of the first snapshot is its id
    /// assert_eq!(catalog.view().snapshots[0], 0);
    /// # Ok::<(), gukoremo::Refusal>(())
    /// ```
    pub fn view(&self) -> TablesView<'_> {
        self.lent.view()
    }

    /// The records, as values: snapshots, names, column types, statistics, positions, scheduled files.
    ///
    /// ```
    /// # let catalog = include!(concat!(env!("CARGO_MANIFEST_DIR"), "/src/diary.in"));
    /// let names: Vec<String> = catalog.records().schemas().map(|schema| schema.name).collect();
    /// assert_eq!(names, ["main"]);
    /// # Ok::<(), gukoremo::Refusal>(())
    /// ```
    pub fn records(&self) -> Records<'_> {
        self.lent.view().records(self.counts)
    }

    /// The tables, and the counts to resume with.
    ///
    /// ```
    /// # let catalog = include!(concat!(env!("CARGO_MANIFEST_DIR"), "/src/diary.in"));
    /// let (tables, counts) = catalog.into_parts();
    /// assert_eq!((tables.positions[0], counts.positions), (1, 1));
    /// # Ok::<(), gukoremo::Refusal>(())
    /// ```
    pub fn into_parts(self) -> (T, Counts) {
        (self.lent, self.counts)
    }

    // Commits

    /// A new schema.
    ///
    /// # Errors
    ///
    /// [`NotSound`](Refusal::NotSound), [`TimeFalls`](Refusal::TimeFalls), [`BadName`](Refusal::BadName), [`NameTaken`](Refusal::NameTaken), [`NoRoom`](Refusal::NoRoom),
    /// [`NumberTooLarge`](Refusal::NumberTooLarge).
    ///
    /// ```
    /// # use gukoremo::{CatalogId, Refusal};
    /// # let mut catalog = include!(concat!(env!("CARGO_MANIFEST_DIR"), "/src/diary.in"));
    /// let made = catalog.create_schema(140, "sales")?;
    /// assert_eq!((made.schema, made.snapshot.time), (CatalogId(2), 140));
    /// assert_eq!(catalog.create_schema(150, "sales"), Err(Refusal::NameTaken));
    /// # Ok::<(), gukoremo::Refusal>(())
    /// ```
    pub fn create_schema(&mut self, time: u64, name: impl AsRef<[u8]>) -> Result<CreatedSchema, Refusal> {
        let snapshot = self.commit(|lent, counts| raw::create_schema(lent, counts, time, name.as_ref(), &mut []))?;
        Ok(CreatedSchema { snapshot, schema: snapshot.change.object() })
    }

    /// A schema is gone, "only if no table in it is live".
    ///
    /// # Errors
    ///
    /// [`NotSound`](Refusal::NotSound), [`TimeFalls`](Refusal::TimeFalls), [`NotLive`](Refusal::NotLive), [`SchemaNotEmpty`](Refusal::SchemaNotEmpty), [`NoRoom`](Refusal::NoRoom),
    /// [`NumberTooLarge`](Refusal::NumberTooLarge).
    ///
    /// ```
    /// # use gukoremo::{CatalogId, Change, Refusal};
    /// # let mut catalog = include!(concat!(env!("CARGO_MANIFEST_DIR"), "/src/diary.in"));
    /// assert_eq!(catalog.drop_schema(140, CatalogId(0)), Err(Refusal::SchemaNotEmpty));
    /// let made = catalog.create_schema(140, "sales")?;
    /// assert_eq!(catalog.drop_schema(150, made.schema)?.change, Change::DroppedSchema(made.schema));
    /// # Ok::<(), gukoremo::Refusal>(())
    /// ```
    pub fn drop_schema(&mut self, time: u64, schema: CatalogId) -> Result<Snapshot, Refusal> {
        self.commit(|lent, counts| raw::drop_schema(lent, counts, time, schema, &mut []))
    }

    /// A new table in a schema: "columns get ids 1, 2, …"
    ///
    /// # Errors
    ///
    /// [`NotSound`](Refusal::NotSound), [`TimeFalls`](Refusal::TimeFalls), [`NotLive`](Refusal::NotLive), [`BadName`](Refusal::BadName), [`NameTaken`](Refusal::NameTaken),
    /// [`BadColumns`](Refusal::BadColumns), [`NoRoom`](Refusal::NoRoom), [`NumberTooLarge`](Refusal::NumberTooLarge).
    ///
    /// ```
    /// # use gukoremo::{CatalogId, ColumnType, NewColumn};
    /// # let mut catalog = include!(concat!(env!("CARGO_MANIFEST_DIR"), "/src/diary.in"));
    /// let columns = [
    ///     NewColumn { name: "item", column_type: ColumnType::Int64, nulls_allowed: false },
    ///     NewColumn { name: "paid", column_type: ColumnType::Boolean, nulls_allowed: true },
    /// ];
    /// let made = catalog.create_table(140, CatalogId(0), "wall", &columns)?;
    /// assert_eq!(catalog.list_columns(made.snapshot.id, made.table)?, [1, 2]);
    /// # Ok::<(), gukoremo::Refusal>(())
    /// ```
    pub fn create_table(&mut self, time: u64, schema: CatalogId, name: impl AsRef<[u8]>, columns: &[NewColumn<'_>]) -> Result<CreatedTable, Refusal> {
        let words: Vec<u64> = columns.iter().flat_map(NewColumn::words).collect();
        let places: Vec<u8> = columns.iter().flat_map(NewColumn::place).collect();
        let snapshot = self.commit(|lent, counts| raw::create_table(lent, counts, time, schema, name.as_ref(), &words, &places, &mut []))?;
        Ok(CreatedTable { snapshot, table: snapshot.change.object() })
    }

    /// A table is gone, and its columns and files with it. Older snapshots still show them.
    ///
    /// # Errors
    ///
    /// [`NotSound`](Refusal::NotSound), [`TimeFalls`](Refusal::TimeFalls), [`NotLive`](Refusal::NotLive), [`NoRoom`](Refusal::NoRoom), [`NumberTooLarge`](Refusal::NumberTooLarge).
    ///
    /// ```
    /// # use gukoremo::{CatalogId, Refusal, SnapshotId};
    /// # let mut catalog = include!(concat!(env!("CARGO_MANIFEST_DIR"), "/src/diary.in"));
    /// let dropped = catalog.drop_table(140, CatalogId(1))?;
    /// assert_eq!(catalog.list_rows(dropped.id, CatalogId(1)), Err(Refusal::NotLive));
    /// assert_eq!(catalog.list_rows(SnapshotId(3), CatalogId(1))?.len(), 2);
    /// # Ok::<(), gukoremo::Refusal>(())
    /// ```
    pub fn drop_table(&mut self, time: u64, table: CatalogId) -> Result<Snapshot, Refusal> {
        self.commit(|lent, counts| raw::drop_table(lent, counts, time, table, &mut []))
    }

    /// A data file of that many rows, with statistics for each live column by ascending id.
    ///
    /// # Errors
    ///
    /// [`NotSound`](Refusal::NotSound), [`TimeFalls`](Refusal::TimeFalls), [`NotLive`](Refusal::NotLive), [`BadRecordCount`](Refusal::BadRecordCount), [`UuidTaken`](Refusal::UuidTaken),
    /// [`BadStatistics`](Refusal::BadStatistics), [`NoRoom`](Refusal::NoRoom), [`NumberTooLarge`](Refusal::NumberTooLarge).
    ///
    /// ```
    /// # use gukoremo::{CatalogId, FileId, NewStatistics, RowId, Uuid};
    /// # let mut catalog = include!(concat!(env!("CARGO_MANIFEST_DIR"), "/src/diary.in"));
    /// let statistics = [NewStatistics { column: 1, null_count: 0, min: Some(4), max: None }];
    /// let made = catalog.insert(140, CatalogId(1), 2, Uuid::from_u128(3), &statistics)?;
    /// assert_eq!(made.data_file, FileId(2));
    /// assert_eq!(catalog.list_rows(made.snapshot.id, CatalogId(1))?, [0, 2, 3, 4].map(RowId));
    /// # Ok::<(), gukoremo::Refusal>(())
    /// ```
    pub fn insert(
        &mut self,
        time: u64,
        table: CatalogId,
        record_count: u64,
        uuid: impl Into<Uuid>,
        statistics: &[NewStatistics],
    ) -> Result<Inserted, Refusal> {
        let words: Vec<u64> = statistics.iter().flat_map(NewStatistics::words).collect();
        let snapshot = self.commit(|lent, counts| raw::insert(lent, counts, time, table, record_count, uuid.into(), &words, &mut []))?;
        Ok(Inserted { snapshot, data_file: new_file(snapshot) })
    }

    /// Rows of a live data file are gone, by ascending position in the file.
    ///
    /// # Errors
    ///
    /// [`NotSound`](Refusal::NotSound), [`TimeFalls`](Refusal::TimeFalls), [`NotLive`](Refusal::NotLive), [`UuidTaken`](Refusal::UuidTaken), [`BadPositions`](Refusal::BadPositions),
    /// [`AlreadyDeleted`](Refusal::AlreadyDeleted), [`NoRoom`](Refusal::NoRoom), [`NumberTooLarge`](Refusal::NumberTooLarge).
    ///
    /// ```
    /// # use gukoremo::{CatalogId, FileId, Refusal, RowId, Uuid};
    /// # let mut catalog = include!(concat!(env!("CARGO_MANIFEST_DIR"), "/src/diary.in"));
    /// let made = catalog.delete(140, FileId(0), Uuid::from_u128(3), &[0])?;
    /// assert_eq!(made.delete_file, FileId(2));
    /// assert_eq!(catalog.list_rows(made.snapshot.id, CatalogId(1))?, [RowId(2)]);
    /// let again = catalog.delete(150, FileId(0), Uuid::from_u128(4), &[0, 2]);
    /// assert_eq!(again, Err(Refusal::AlreadyDeleted { index: 0 }));
    /// # Ok::<(), gukoremo::Refusal>(())
    /// ```
    pub fn delete(&mut self, time: u64, data_file: FileId, uuid: impl Into<Uuid>, positions: &[u64]) -> Result<Deleted, Refusal> {
        let snapshot = self.commit(|lent, counts| raw::delete(lent, counts, time, data_file, uuid.into(), positions, &mut []))?;
        Ok(Deleted { snapshot, delete_file: new_file(snapshot) })
    }

    // Maintenance

    /// These snapshots go, by ascending id, and every record that no retained snapshot shows. The files among those are scheduled with the time.
    ///
    /// # Errors
    ///
    /// [`NotSound`](Refusal::NotSound), [`NotRetained`](Refusal::NotRetained), [`BadExpiryList`](Refusal::BadExpiryList), [`ExpiresLatest`](Refusal::ExpiresLatest), [`NoRoom`](Refusal::NoRoom).
    ///
    /// ```
    /// # use gukoremo::{FileId, SnapshotId, Uuid};
    /// # let mut catalog = include!(concat!(env!("CARGO_MANIFEST_DIR"), "/src/diary.in"));
    /// catalog.delete(140, FileId(0), Uuid::from_u128(3), &[0])?;
    /// catalog.expire(&[SnapshotId(3)], 150)?;
    /// // the first delete file was shown by snapshot 3 alone
    /// let scheduled: Vec<FileId> = catalog.records().scheduled().map(|file| file.file).collect();
    /// assert_eq!(scheduled, [FileId(1)]);
    /// # Ok::<(), gukoremo::Refusal>(())
    /// ```
    pub fn expire(&mut self, snapshots: &[SnapshotId], time: u64) -> Result<(), Refusal> {
        let ids: Vec<u64> = snapshots.iter().map(|id| id.0).collect();
        self.change(|lent, counts| raw::expire(lent, counts, &ids, time, &mut []))?;
        Ok(())
    }

    /// Hands out each file scheduled before t, once: nothing shows it any more, and the catalogue forgets it.
    ///
    /// # Errors
    ///
    /// [`NotSound`](Refusal::NotSound).
    ///
    /// ```
    /// # use gukoremo::{FileId, SnapshotId, Uuid};
    /// # let mut catalog = include!(concat!(env!("CARGO_MANIFEST_DIR"), "/src/diary.in"));
    /// catalog.delete(140, FileId(0), Uuid::from_u128(3), &[0])?;
    /// catalog.expire(&[SnapshotId(3)], 150)?;
    /// assert_eq!(catalog.cleanup(150)?, []);
    /// assert_eq!(catalog.cleanup(151)?[0].uuid, Uuid::from_u128(2));
    /// assert_eq!(catalog.cleanup(151)?, []);
    /// # Ok::<(), gukoremo::Refusal>(())
    /// ```
    pub fn cleanup(&mut self, t: u64) -> Result<Vec<Handed>, Refusal> {
        // no more can be due than are scheduled; a count that the tables have no room for is refused whatever the area
        let scheduled = self.counts.scheduled.min(self.lent.view().scheduled.len());
        let mut area = vec![0; scheduled * HANDED_SIZE];
        let length = self.change(|lent, counts| raw::cleanup(lent, counts, t, &mut area))?.length;
        Ok(Handed::read_all(&area[..length]))
    }

    // Lists

    /// Plays a list of calls and readings, each on what the one before left, a refused one too. Of each it gives the answer, which a reading or a cleanup
    /// alone has, or the refusal; nothing from a record on that asks for nothing, as [`crate::session::CallRecord`] says.
    ///
    /// The answers lie in the area one behind another. One that is longer than what is left of it is refused with [`Refusal::ShortAnswerArea`], and the list goes
    /// on; in an area of [`Catalog::room_for`] words none is.
    ///
    /// ```
    /// # use gukoremo::{CallList, CatalogId, SnapshotId};
    /// # let mut catalog = include!(concat!(env!("CARGO_MANIFEST_DIR"), "/src/diary.in"));
    /// let mut list = CallList::new();
    /// list.push_drop_table(140, CatalogId(1));
    /// list.push_list_rows(SnapshotId(3), CatalogId(1));
    /// let mut area = vec![0; catalog.room_for(&list)];
    /// assert_eq!(catalog.play(&list, &mut area), [Ok(&[][..]), Ok(&[0, 2])]);
    /// # Ok::<(), gukoremo::Refusal>(())
    /// ```
    pub fn play<'a>(&mut self, list: &CallList, area: &'a mut [u64]) -> Vec<Result<&'a [u64], Refusal>> {
        let mut told = vec![0; list.len() * TOLD_SIZE];
        let session = raw::play(self.lent.lend(), self.counts, &list.calls, &list.lists, &list.names, area, &mut told);
        self.counts = session.counts;
        let mut answers: &'a [u64] = area;
        let outcome = |told: &[u64]| {
            let (answer, rest) = answers.split_at(told[2] as usize);
            answers = rest;
            Refusal::of(told[0], told[1]).map_or(Ok(answer), Err)
        };
        told.chunks_exact(TOLD_SIZE).take(session.played).map(outcome).collect()
    }

    /// Words of an area in which every answer of a list has room: no reading has more than what is on record before the list and what the calls before it can
    /// add, and no file is handed out twice.
    ///
    /// ```
    /// # use gukoremo::{CallList, CatalogId, SnapshotId};
    /// # let catalog = include!(concat!(env!("CARGO_MANIFEST_DIR"), "/src/diary.in"));
    /// let mut list = CallList::new();
    /// list.push_list_rows(SnapshotId(3), CatalogId(1));
    /// // three rows, of which one is deleted
    /// assert_eq!(catalog.room_for(&list), 3);
    /// # Ok::<(), gukoremo::Refusal>(())
    /// ```
    pub fn room_for(&self, list: &CallList) -> usize {
        room::room_for(list, self.lent.view(), self.counts)
    }

    // Readings

    /// The schemas at a snapshot, by id.
    ///
    /// # Errors
    ///
    /// [`NotSound`](Refusal::NotSound), [`NotRetained`](Refusal::NotRetained).
    ///
    /// ```
    /// # use gukoremo::{CatalogId, SnapshotId};
    /// # let catalog = include!(concat!(env!("CARGO_MANIFEST_DIR"), "/src/diary.in"));
    /// assert_eq!(catalog.list_schemas(SnapshotId(3))?, [CatalogId(0)]);
    /// # Ok::<(), gukoremo::Refusal>(())
    /// ```
    pub fn list_schemas(&self, snapshot: SnapshotId) -> Result<Vec<CatalogId>, Refusal> {
        let words = self.read(self.most().schemas, |lent, counts, area| raw::list_schemas(lent, counts, snapshot, area))?;
        Ok(words.into_iter().map(CatalogId).collect())
    }

    /// The tables of a schema at a snapshot, by id.
    ///
    /// # Errors
    ///
    /// [`NotSound`](Refusal::NotSound), [`NotRetained`](Refusal::NotRetained), [`NotLive`](Refusal::NotLive).
    ///
    /// ```
    /// # use gukoremo::{CatalogId, SnapshotId};
    /// # let catalog = include!(concat!(env!("CARGO_MANIFEST_DIR"), "/src/diary.in"));
    /// assert_eq!(catalog.list_tables(SnapshotId(0), CatalogId(0))?, []);
    /// assert_eq!(catalog.list_tables(SnapshotId(3), CatalogId(0))?, [CatalogId(1)]);
    /// # Ok::<(), gukoremo::Refusal>(())
    /// ```
    pub fn list_tables(&self, snapshot: SnapshotId, schema: CatalogId) -> Result<Vec<CatalogId>, Refusal> {
        let words = self.read(self.most().tables, |lent, counts, area| raw::list_tables(lent, counts, snapshot, schema, area))?;
        Ok(words.into_iter().map(CatalogId).collect())
    }

    /// The ids of a table's columns at a snapshot, by column_order.
    ///
    /// # Errors
    ///
    /// [`NotSound`](Refusal::NotSound), [`NotRetained`](Refusal::NotRetained), [`NotLive`](Refusal::NotLive).
    ///
    /// ```
    /// # use gukoremo::{CatalogId, SnapshotId};
    /// # let catalog = include!(concat!(env!("CARGO_MANIFEST_DIR"), "/src/diary.in"));
    /// assert_eq!(catalog.list_columns(SnapshotId(3), CatalogId(1))?, [1]);
    /// # Ok::<(), gukoremo::Refusal>(())
    /// ```
    pub fn list_columns(&self, snapshot: SnapshotId, table: CatalogId) -> Result<Vec<u64>, Refusal> {
        self.read(COLUMN_LIMIT, |lent, counts, area| raw::list_columns(lent, counts, snapshot, table, area))
    }

    /// The table of a name, in a schema at a snapshot.
    ///
    /// # Errors
    ///
    /// [`NotSound`](Refusal::NotSound), [`NotRetained`](Refusal::NotRetained), [`NotLive`](Refusal::NotLive).
    ///
    /// ```
    /// # use gukoremo::{CatalogId, Refusal, SnapshotId};
    /// # let catalog = include!(concat!(env!("CARGO_MANIFEST_DIR"), "/src/diary.in"));
    /// assert_eq!(catalog.table_by_name(SnapshotId(3), CatalogId(0), "diary"), Ok(CatalogId(1)));
    /// assert_eq!(catalog.table_by_name(SnapshotId(3), CatalogId(0), "wall"), Err(Refusal::NotLive));
    /// # Ok::<(), gukoremo::Refusal>(())
    /// ```
    pub fn table_by_name(&self, snapshot: SnapshotId, schema: CatalogId, name: impl AsRef<[u8]>) -> Result<CatalogId, Refusal> {
        let words = self.read(1, |lent, counts, area| raw::table_by_name(lent, counts, snapshot, schema, name.as_ref(), area))?;
        Ok(CatalogId(words[0]))
    }

    /// The data files of a table at a snapshot, by id, each with its delete file.
    ///
    /// # Errors
    ///
    /// [`NotSound`](Refusal::NotSound), [`NotRetained`](Refusal::NotRetained), [`NotLive`](Refusal::NotLive).
    ///
    /// ```
    /// # use gukoremo::{CatalogId, FileId, Listed, SnapshotId};
    /// # let catalog = include!(concat!(env!("CARGO_MANIFEST_DIR"), "/src/diary.in"));
    /// let file = Listed { data_file: FileId(0), delete_file: Some(FileId(1)) };
    /// assert_eq!(catalog.list_files(SnapshotId(3), CatalogId(1))?, [file]);
    /// // before the delete
    /// assert_eq!(catalog.list_files(SnapshotId(2), CatalogId(1))?[0].delete_file, None);
    /// # Ok::<(), gukoremo::Refusal>(())
    /// ```
    pub fn list_files(&self, snapshot: SnapshotId, table: CatalogId) -> Result<Vec<Listed>, Refusal> {
        let words = self.read(LISTED_SIZE * self.most().data_files, |lent, counts, area| raw::list_files(lent, counts, snapshot, table, area))?;
        Ok(Listed::read_all(&words))
    }

    /// The files that may hold a row with that value in the column, by their statistics.
    ///
    /// # Errors
    ///
    /// [`NotSound`](Refusal::NotSound), [`NotRetained`](Refusal::NotRetained), [`NotLive`](Refusal::NotLive).
    ///
    /// ```
    /// # use gukoremo::{CatalogId, SnapshotId};
    /// # let catalog = include!(concat!(env!("CARGO_MANIFEST_DIR"), "/src/diary.in"));
    /// // the file has items from 1 to 3
    /// assert_eq!(catalog.list_filtered_files(SnapshotId(3), CatalogId(1), 1, 2)?.len(), 1);
    /// assert_eq!(catalog.list_filtered_files(SnapshotId(3), CatalogId(1), 1, 4)?, []);
    /// # Ok::<(), gukoremo::Refusal>(())
    /// ```
    pub fn list_filtered_files(&self, snapshot: SnapshotId, table: CatalogId, column: u64, scalar: i64) -> Result<Vec<Listed>, Refusal> {
        let words = self.read(LISTED_SIZE * self.most().data_files, |lent, counts, area| {
            raw::list_filtered_files(lent, counts, snapshot, table, column, scalar, area)
        })?;
        Ok(Listed::read_all(&words))
    }

    /// The rows of a table at a snapshot, those of each file after those of the file before.
    ///
    /// # Errors
    ///
    /// [`NotSound`](Refusal::NotSound), [`NotRetained`](Refusal::NotRetained), [`NotLive`](Refusal::NotLive); and [`ShortAnswerArea`](Refusal::ShortAnswerArea) where there are more than
    /// [`ANSWER_LIMIT`] rows, or no memory for them.
    ///
    /// ```
    /// # use gukoremo::{CatalogId, RowId, SnapshotId};
    /// # let catalog = include!(concat!(env!("CARGO_MANIFEST_DIR"), "/src/diary.in"));
    /// assert_eq!(catalog.list_rows(SnapshotId(3), CatalogId(1))?, [0, 2].map(RowId));
    /// # Ok::<(), gukoremo::Refusal>(())
    /// ```
    pub fn list_rows(&self, snapshot: SnapshotId, table: CatalogId) -> Result<Vec<RowId>, Refusal> {
        let words = self.read(rows_of(self.records(), snapshot, table), |lent, counts, area| raw::list_rows(lent, counts, snapshot, table, area))?;
        Ok(words.into_iter().map(RowId).collect())
    }

    /// The highest retained snapshot at or before t.
    ///
    /// # Errors
    ///
    /// [`NotSound`](Refusal::NotSound), [`NoSnapshotByThen`](Refusal::NoSnapshotByThen).
    ///
    /// ```
    /// # use gukoremo::{Refusal, SnapshotId};
    /// # let catalog = include!(concat!(env!("CARGO_MANIFEST_DIR"), "/src/diary.in"));
    /// assert_eq!(catalog.snapshot_by_time(125), Ok(SnapshotId(2)));
    /// assert_eq!(catalog.snapshot_by_time(99), Err(Refusal::NoSnapshotByThen));
    /// # Ok::<(), gukoremo::Refusal>(())
    /// ```
    pub fn snapshot_by_time(&self, t: u64) -> Result<SnapshotId, Refusal> {
        let words = self.read(1, |lent, counts, area| raw::snapshot_by_time(lent, counts, t, area))?;
        Ok(SnapshotId(words[0]))
    }

    /// The data file or delete file of an id that is on record, live or ended.
    ///
    /// # Errors
    ///
    /// [`NotSound`](Refusal::NotSound), [`NotLive`](Refusal::NotLive).
    ///
    /// ```
    /// # use gukoremo::{File, FileId};
    /// # let catalog = include!(concat!(env!("CARGO_MANIFEST_DIR"), "/src/diary.in"));
    /// assert!(matches!(catalog.find_file(FileId(0))?, File::Data(file) if file.record_count == 3));
    /// assert!(matches!(catalog.find_file(FileId(1))?, File::Delete(file) if file.delete_count == 1));
    /// # Ok::<(), gukoremo::Refusal>(())
    /// ```
    pub fn find_file(&self, id: FileId) -> Result<File, Refusal> {
        let mut record = [0; DataFileRecord::SIZE];
        Refusal::judge(raw::copy_file(self.lent.view(), self.counts, id, &mut record))?;
        // the tables are sound, so the id is in one of the two, once
        Ok(self.records().file_of(&record))
    }

    /// What the tables are not sound for: the first line of 'Sound tables' that doesn't hold. Of tables that calls are refused for with
    /// [`Refusal::NotSound`] there is one, and of others none.
    ///
    /// ```
    /// # use gukoremo::{Catalog, Line};
    /// # let catalog = include!(concat!(env!("CARGO_MANIFEST_DIR"), "/src/diary.in"));
    /// assert_eq!(catalog.first_unsound(), None);
    /// let (mut tables, counts) = catalog.into_parts();
    /// tables.data_files[0] = 7;
    /// // there is no such file: the next one would be 2
    /// assert_eq!(Catalog::resume(tables, counts).first_unsound(), Some(Line::NextIds));
    /// # Ok::<(), gukoremo::Refusal>(())
    /// ```
    pub fn first_unsound(&self) -> Option<Line> {
        Line::of(raw::first_unsound(self.lent.view(), self.counts))
    }

    // How calls are made

    /// A call on the tables; the counts that it hands back are the next call's.
    fn change(&mut self, call: impl FnOnce(Tables<'_>, Counts) -> Outcome) -> Result<Outcome, Refusal> {
        let given = Refusal::judge(call(self.lent.lend(), self.counts))?;
        self.counts = given.counts;
        Ok(given)
    }

    /// A commit, and the snapshot that it made, which is the latest.
    fn commit(&mut self, call: impl FnOnce(Tables<'_>, Counts) -> Outcome) -> Result<Snapshot, Refusal> {
        self.change(call)?;
        Ok(self.records().latest().expect("an accepted commit leaves its snapshot"))
    }

    /// A reading, on an area with room for the most words that its answer can have, so that one call is enough.
    fn read(&self, most: usize, call: impl FnOnce(TablesView<'_>, Counts, &mut [u64]) -> Outcome) -> Result<Vec<u64>, Refusal> {
        let mut area = Vec::new();
        // what can't be held is asked for with no room at all: if nothing else is amiss, that is the refusal
        if most <= ANSWER_LIMIT && area.try_reserve_exact(most).is_ok() {
            area.resize(most, 0);
        }
        let given = Refusal::judge(call(self.lent.view(), self.counts, &mut area))?;
        area.truncate(given.length);
        Ok(area)
    }

    fn most(&self) -> Most {
        Most::of(self.lent.view(), self.counts)
    }
}

/// The file that a commit made: the last id that was given out.
fn new_file(snapshot: Snapshot) -> FileId {
    FileId(snapshot.next_file_id.0 - 1)
}
