//! Lists of calls and readings, which [`crate::Catalog::play`] plays as one call.

use crate::arguments::{NewColumn, NewStatistics};
use crate::number::{CatalogId, FileId, SnapshotId};
use crate::record::{Uuid, CREATED_SCHEMA, CREATED_TABLE, DELETED_FROM_TABLE, DROPPED_SCHEMA, DROPPED_TABLE, INSERTED_INTO_TABLE};
use crate::session::{
    CallRecord, Span, CLEANED_UP, COPIED_FILE, EXPIRED_SNAPSHOTS, FOUND_SNAPSHOT_BY_TIME, FOUND_TABLE_BY_NAME, LISTED_COLUMNS, LISTED_FILES,
    LISTED_FILTERED_FILES, LISTED_ROWS, LISTED_SCHEMAS, LISTED_TABLES, MADE_FRESH,
};

/// Calls and readings in the order in which they are played, each with what the method of [`Catalog`](crate::Catalog) of its name takes. One may name what
/// another before it makes: ids are given out in order. Examples without a beginning go on from [the crate's page](crate).
///
/// ```
/// use gukoremo::{CallList, Catalog, CatalogId, Counts, OwnedTables, SnapshotId};
///
/// let mut list = CallList::fresh(100);
/// list.push_create_schema(110, "sales");
/// list.push_list_schemas(SnapshotId(1));
/// list.push_drop_schema(120, CatalogId(1));
/// list.push_list_schemas(SnapshotId(2));
///
/// let tables = OwnedTables::with_room(Counts { snapshots: 3, schemas: 2, ..Counts::NONE });
/// let mut catalog = Catalog::resume(tables, Counts::NONE);
/// let mut area = vec![0; catalog.room_for(&list)];
/// let given = catalog.play(&list, &mut area);
///
/// // Of each its answer: schemas 0, which is `main`, and 1, and then 0 alone.
/// assert_eq!(given, [Ok(&[][..]), Ok(&[]), Ok(&[0, 1]), Ok(&[]), Ok(&[0])]);
/// ```
#[derive(Clone, Debug, Default, PartialEq, Eq)]
pub struct CallList {
    /// The records of the calls and readings.
    pub calls: Vec<u64>,
    /// Columns, statistics, positions and snapshot ids.
    pub lists: Vec<u64>,
    /// Names and name places.
    pub names: Vec<u8>,
}

impl CallList {
    /// A list for a catalogue that is there.
    ///
    /// ```
    /// assert!(gukoremo::CallList::new().is_empty());
    /// ```
    pub fn new() -> CallList {
        CallList::default()
    }

    /// A list that begins with Fresh, whatever the tables hold. Fresh stands nowhere else in a list.
    ///
    /// ```
    /// use gukoremo::{CallList, Catalog, Counts, OwnedTables};
    ///
    /// let mut catalog = Catalog::resume(OwnedTables::with_room(Counts::each(4)), Counts::NONE);
    /// assert_eq!(catalog.play(&CallList::fresh(100), &mut []), [Ok(&[][..])]);
    /// assert_eq!(catalog.counts().schemas, 1);
    /// ```
    pub fn fresh(time: u64) -> CallList {
        let mut list = CallList::new();
        list.push_plain(CallRecord { time, ..CallRecord::of(MADE_FRESH) });
        list
    }

    /// How many calls and readings it has.
    ///
    /// ```
    /// assert_eq!(gukoremo::CallList::fresh(100).len(), 1);
    /// ```
    pub fn len(&self) -> usize {
        self.calls.len() / CallRecord::SIZE
    }

    /// Whether it has none.
    ///
    /// ```
    /// assert!(!gukoremo::CallList::fresh(100).is_empty());
    /// ```
    pub fn is_empty(&self) -> bool {
        self.len() == 0
    }

    // Commits

    /// A new schema.
    ///
    /// ```
    /// # use gukoremo::{CallList, CatalogId, SnapshotId};
    /// # let mut catalog = include!(concat!(env!("CARGO_MANIFEST_DIR"), "/src/diary.in"));
    /// let mut list = CallList::new();
    /// list.push_create_schema(140, "sales");
    /// list.push_list_schemas(SnapshotId(4));
    /// let mut area = vec![0; catalog.room_for(&list)];
    /// assert_eq!(catalog.play(&list, &mut area), [Ok(&[][..]), Ok(&[0, 2])]);
    /// # Ok::<(), gukoremo::Refusal>(())
    /// ```
    pub fn push_create_schema(&mut self, time: u64, name: impl AsRef<[u8]>) {
        self.push(CallRecord { time, ..CallRecord::of(CREATED_SCHEMA) }, &[], name.as_ref(), &[]);
    }

    /// A schema is gone.
    ///
    /// ```
    /// # use gukoremo::{CallList, CatalogId, Refusal};
    /// # let mut catalog = include!(concat!(env!("CARGO_MANIFEST_DIR"), "/src/diary.in"));
    /// let mut list = CallList::new();
    /// list.push_drop_schema(140, CatalogId(0));
    /// let mut area = vec![0; catalog.room_for(&list)];
    /// assert_eq!(catalog.play(&list, &mut area), [Err(Refusal::SchemaNotEmpty)]);
    /// # Ok::<(), gukoremo::Refusal>(())
    /// ```
    pub fn push_drop_schema(&mut self, time: u64, schema: CatalogId) {
        self.push_plain(CallRecord { time, catalog: schema, ..CallRecord::of(DROPPED_SCHEMA) });
    }

    /// A new table in a schema.
    ///
    /// ```
    /// # use gukoremo::{CallList, CatalogId, ColumnType, NewColumn, SnapshotId};
    /// # let mut catalog = include!(concat!(env!("CARGO_MANIFEST_DIR"), "/src/diary.in"));
    /// let mut list = CallList::new();
    /// let columns = [NewColumn { name: "item", column_type: ColumnType::Int64, nulls_allowed: false }];
    /// list.push_create_table(140, CatalogId(0), "wall", &columns);
    /// list.push_table_by_name(SnapshotId(4), CatalogId(0), "wall");
    /// let mut area = vec![0; catalog.room_for(&list)];
    /// assert_eq!(catalog.play(&list, &mut area), [Ok(&[][..]), Ok(&[2])]);
    /// # Ok::<(), gukoremo::Refusal>(())
    /// ```
    pub fn push_create_table(&mut self, time: u64, schema: CatalogId, name: impl AsRef<[u8]>, columns: &[NewColumn<'_>]) {
        let words: Vec<u64> = columns.iter().flat_map(NewColumn::words).collect();
        let places: Vec<u8> = columns.iter().flat_map(NewColumn::place).collect();
        self.push(CallRecord { time, catalog: schema, ..CallRecord::of(CREATED_TABLE) }, &words, name.as_ref(), &places);
    }

    /// A table is gone, and its columns and files with it.
    ///
    /// ```
    /// # use gukoremo::{CallList, CatalogId, Refusal, SnapshotId};
    /// # let mut catalog = include!(concat!(env!("CARGO_MANIFEST_DIR"), "/src/diary.in"));
    /// let mut list = CallList::new();
    /// list.push_drop_table(140, CatalogId(1));
    /// list.push_list_files(SnapshotId(4), CatalogId(1));
    /// let mut area = vec![0; catalog.room_for(&list)];
    /// assert_eq!(catalog.play(&list, &mut area), [Ok(&[][..]), Err(Refusal::NotLive)]);
    /// # Ok::<(), gukoremo::Refusal>(())
    /// ```
    pub fn push_drop_table(&mut self, time: u64, table: CatalogId) {
        self.push_plain(CallRecord { time, catalog: table, ..CallRecord::of(DROPPED_TABLE) });
    }

    /// A data file of that many rows, with statistics for each live column by ascending id.
    ///
    /// ```
    /// # use gukoremo::{CallList, CatalogId, NewStatistics, SnapshotId, Uuid};
    /// # let mut catalog = include!(concat!(env!("CARGO_MANIFEST_DIR"), "/src/diary.in"));
    /// let mut list = CallList::new();
    /// let statistics = [NewStatistics { column: 1, null_count: 0, min: None, max: None }];
    /// list.push_insert(140, CatalogId(1), 2, Uuid::from_u128(3), &statistics);
    /// list.push_list_rows(SnapshotId(4), CatalogId(1));
    /// let mut area = vec![0; catalog.room_for(&list)];
    /// assert_eq!(catalog.play(&list, &mut area), [Ok(&[][..]), Ok(&[0, 2, 3, 4])]);
    /// # Ok::<(), gukoremo::Refusal>(())
    /// ```
    pub fn push_insert(&mut self, time: u64, table: CatalogId, record_count: u64, uuid: impl Into<Uuid>, statistics: &[NewStatistics]) {
        let (words, uuid): (Vec<u64>, Uuid) = (statistics.iter().flat_map(NewStatistics::words).collect(), uuid.into());
        self.push(CallRecord { time, catalog: table, record_count, uuid, ..CallRecord::of(INSERTED_INTO_TABLE) }, &words, &[], &[]);
    }

    /// Rows of a live data file are gone, by ascending position in the file.
    ///
    /// ```
    /// # use gukoremo::{CallList, CatalogId, FileId, Refusal, Uuid};
    /// # let mut catalog = include!(concat!(env!("CARGO_MANIFEST_DIR"), "/src/diary.in"));
    /// let mut list = CallList::new();
    /// list.push_delete(140, FileId(0), Uuid::from_u128(3), &[0]);
    /// list.push_delete(150, FileId(0), Uuid::from_u128(4), &[0, 2]);
    /// let mut area = vec![0; catalog.room_for(&list)];
    /// assert_eq!(catalog.play(&list, &mut area), [Ok(&[][..]), Err(Refusal::AlreadyDeleted { index: 0 })]);
    /// # Ok::<(), gukoremo::Refusal>(())
    /// ```
    pub fn push_delete(&mut self, time: u64, data_file: FileId, uuid: impl Into<Uuid>, positions: &[u64]) {
        let uuid = uuid.into();
        self.push(CallRecord { time, file: data_file, uuid, ..CallRecord::of(DELETED_FROM_TABLE) }, positions, &[], &[]);
    }

    // Maintenance

    /// These snapshots go, by ascending id, and every record that no retained snapshot shows.
    ///
    /// ```
    /// # use gukoremo::{CallList, Refusal, SnapshotId};
    /// # let mut catalog = include!(concat!(env!("CARGO_MANIFEST_DIR"), "/src/diary.in"));
    /// let mut list = CallList::new();
    /// list.push_expire(&[SnapshotId(2)], 140);
    /// list.push_list_schemas(SnapshotId(2));
    /// let mut area = vec![0; catalog.room_for(&list)];
    /// assert_eq!(catalog.play(&list, &mut area), [Ok(&[][..]), Err(Refusal::NotRetained)]);
    /// # Ok::<(), gukoremo::Refusal>(())
    /// ```
    pub fn push_expire(&mut self, snapshots: &[SnapshotId], time: u64) {
        let ids: Vec<u64> = snapshots.iter().map(|id| id.0).collect();
        self.push(CallRecord { time, ..CallRecord::of(EXPIRED_SNAPSHOTS) }, &ids, &[], &[]);
    }

    /// The answer is three words for each file that is handed out, as [`crate::Handed::read_all`] takes them.
    ///
    /// ```
    /// # use gukoremo::{CallList, FileId, Handed, SnapshotId, Uuid};
    /// # let mut catalog = include!(concat!(env!("CARGO_MANIFEST_DIR"), "/src/diary.in"));
    /// let mut list = CallList::new();
    /// list.push_delete(140, FileId(0), Uuid::from_u128(3), &[0]);
    /// list.push_expire(&[SnapshotId(3)], 150);
    /// list.push_cleanup(151);
    /// let mut area = vec![0; catalog.room_for(&list)];
    /// let handed = Handed::read_all(catalog.play(&list, &mut area)[2]?);
    /// assert_eq!(handed, [Handed { file: FileId(1), uuid: Uuid::from_u128(2) }]);
    /// # Ok::<(), gukoremo::Refusal>(())
    /// ```
    pub fn push_cleanup(&mut self, t: u64) {
        self.push_plain(CallRecord { time: t, ..CallRecord::of(CLEANED_UP) });
    }

    // Readings

    /// The answer is a word for each schema.
    ///
    /// ```
    /// # use gukoremo::{CallList, SnapshotId};
    /// # let mut catalog = include!(concat!(env!("CARGO_MANIFEST_DIR"), "/src/diary.in"));
    /// let mut list = CallList::new();
    /// list.push_list_schemas(SnapshotId(3));
    /// let mut area = vec![0; catalog.room_for(&list)];
    /// assert_eq!(catalog.play(&list, &mut area), [Ok(&[0][..])]);
    /// # Ok::<(), gukoremo::Refusal>(())
    /// ```
    pub fn push_list_schemas(&mut self, snapshot: SnapshotId) {
        self.push_plain(CallRecord { snapshot, ..CallRecord::of(LISTED_SCHEMAS) });
    }

    /// The answer is a word for each table.
    ///
    /// ```
    /// # use gukoremo::{CallList, CatalogId, SnapshotId};
    /// # let mut catalog = include!(concat!(env!("CARGO_MANIFEST_DIR"), "/src/diary.in"));
    /// let mut list = CallList::new();
    /// list.push_list_tables(SnapshotId(3), CatalogId(0));
    /// let mut area = vec![0; catalog.room_for(&list)];
    /// assert_eq!(catalog.play(&list, &mut area), [Ok(&[1][..])]);
    /// # Ok::<(), gukoremo::Refusal>(())
    /// ```
    pub fn push_list_tables(&mut self, snapshot: SnapshotId, schema: CatalogId) {
        self.push_plain(CallRecord { snapshot, catalog: schema, ..CallRecord::of(LISTED_TABLES) });
    }

    /// The answer is a word for each column.
    ///
    /// ```
    /// # use gukoremo::{CallList, CatalogId, SnapshotId};
    /// # let mut catalog = include!(concat!(env!("CARGO_MANIFEST_DIR"), "/src/diary.in"));
    /// let mut list = CallList::new();
    /// list.push_list_columns(SnapshotId(3), CatalogId(1));
    /// let mut area = vec![0; catalog.room_for(&list)];
    /// assert_eq!(catalog.play(&list, &mut area), [Ok(&[1][..])]);
    /// # Ok::<(), gukoremo::Refusal>(())
    /// ```
    pub fn push_list_columns(&mut self, snapshot: SnapshotId, table: CatalogId) {
        self.push_plain(CallRecord { snapshot, catalog: table, ..CallRecord::of(LISTED_COLUMNS) });
    }

    /// The answer is the table, one word.
    ///
    /// ```
    /// # use gukoremo::{CallList, CatalogId, Refusal, SnapshotId};
    /// # let mut catalog = include!(concat!(env!("CARGO_MANIFEST_DIR"), "/src/diary.in"));
    /// let mut list = CallList::new();
    /// list.push_table_by_name(SnapshotId(3), CatalogId(0), "diary");
    /// list.push_table_by_name(SnapshotId(0), CatalogId(0), "diary");
    /// let mut area = vec![0; catalog.room_for(&list)];
    /// assert_eq!(catalog.play(&list, &mut area), [Ok(&[1][..]), Err(Refusal::NotLive)]);
    /// # Ok::<(), gukoremo::Refusal>(())
    /// ```
    pub fn push_table_by_name(&mut self, snapshot: SnapshotId, schema: CatalogId, name: impl AsRef<[u8]>) {
        self.push(CallRecord { snapshot, catalog: schema, ..CallRecord::of(FOUND_TABLE_BY_NAME) }, &[], name.as_ref(), &[]);
    }

    /// The answer is two words for each file, as [`crate::Listed::read_all`] takes them.
    ///
    /// ```
    /// # use gukoremo::{CallList, CatalogId, FileId, Listed, SnapshotId};
    /// # let mut catalog = include!(concat!(env!("CARGO_MANIFEST_DIR"), "/src/diary.in"));
    /// let mut list = CallList::new();
    /// list.push_list_files(SnapshotId(3), CatalogId(1));
    /// let mut area = vec![0; catalog.room_for(&list)];
    /// let listed = Listed::read_all(catalog.play(&list, &mut area)[0]?);
    /// assert_eq!(listed, [Listed { data_file: FileId(0), delete_file: Some(FileId(1)) }]);
    /// # Ok::<(), gukoremo::Refusal>(())
    /// ```
    pub fn push_list_files(&mut self, snapshot: SnapshotId, table: CatalogId) {
        self.push_plain(CallRecord { snapshot, catalog: table, ..CallRecord::of(LISTED_FILES) });
    }

    /// The same of the files that may hold a row with that value in the column.
    ///
    /// ```
    /// # use gukoremo::{CallList, CatalogId, SnapshotId};
    /// # let mut catalog = include!(concat!(env!("CARGO_MANIFEST_DIR"), "/src/diary.in"));
    /// let mut list = CallList::new();
    /// // the file has items from 1 to 3
    /// list.push_list_filtered_files(SnapshotId(3), CatalogId(1), 1, 3);
    /// list.push_list_filtered_files(SnapshotId(3), CatalogId(1), 1, 4);
    /// let mut area = vec![0; catalog.room_for(&list)];
    /// assert_eq!(catalog.play(&list, &mut area), [Ok(&[0, 1][..]), Ok(&[])]);
    /// # Ok::<(), gukoremo::Refusal>(())
    /// ```
    pub fn push_list_filtered_files(&mut self, snapshot: SnapshotId, table: CatalogId, column: u64, scalar: i64) {
        let scalar = scalar as u64;
        self.push_plain(CallRecord { snapshot, catalog: table, column, scalar, ..CallRecord::of(LISTED_FILTERED_FILES) });
    }

    /// The answer is a word for each row.
    ///
    /// ```
    /// # use gukoremo::{CallList, CatalogId, SnapshotId};
    /// # let mut catalog = include!(concat!(env!("CARGO_MANIFEST_DIR"), "/src/diary.in"));
    /// let mut list = CallList::new();
    /// list.push_list_rows(SnapshotId(2), CatalogId(1));
    /// list.push_list_rows(SnapshotId(3), CatalogId(1));
    /// let mut area = vec![0; catalog.room_for(&list)];
    /// assert_eq!(catalog.play(&list, &mut area), [Ok(&[0, 1, 2][..]), Ok(&[0, 2])]);
    /// # Ok::<(), gukoremo::Refusal>(())
    /// ```
    pub fn push_list_rows(&mut self, snapshot: SnapshotId, table: CatalogId) {
        self.push_plain(CallRecord { snapshot, catalog: table, ..CallRecord::of(LISTED_ROWS) });
    }

    /// The answer is the snapshot, one word.
    ///
    /// ```
    /// # use gukoremo::CallList;
    /// # let mut catalog = include!(concat!(env!("CARGO_MANIFEST_DIR"), "/src/diary.in"));
    /// let mut list = CallList::new();
    /// list.push_snapshot_by_time(125);
    /// let mut area = vec![0; catalog.room_for(&list)];
    /// assert_eq!(catalog.play(&list, &mut area), [Ok(&[2][..])]);
    /// # Ok::<(), gukoremo::Refusal>(())
    /// ```
    pub fn push_snapshot_by_time(&mut self, t: u64) {
        self.push_plain(CallRecord { time: t, ..CallRecord::of(FOUND_SNAPSHOT_BY_TIME) });
    }

    /// The answer is the eight words of a data file or of a delete file, as [`crate::Records::file_of`] takes them.
    ///
    /// ```
    /// # use gukoremo::{CallList, FileId};
    /// # let mut catalog = include!(concat!(env!("CARGO_MANIFEST_DIR"), "/src/diary.in"));
    /// let mut list = CallList::new();
    /// list.push_find_file(FileId(0));
    /// let mut area = vec![0; catalog.room_for(&list)];
    /// // its id, its table, its begin, its end
    /// assert_eq!(catalog.play(&list, &mut area)[0]?[..4], [0, 1, 2, gukoremo::number::ABSENT]);
    /// # Ok::<(), gukoremo::Refusal>(())
    /// ```
    pub fn push_find_file(&mut self, id: FileId) {
        self.push_plain(CallRecord { file: id, ..CallRecord::of(COPIED_FILE) });
    }

    // Records

    /// Any call or reading by its record; its arguments come to the ends of the runs, and its spans are theirs.
    ///
    /// ```
    /// use gukoremo::session::{CallRecord, LISTED_SCHEMAS};
    /// use gukoremo::{CallList, SnapshotId};
    ///
    /// let mut list = CallList::new();
    /// list.push(CallRecord { snapshot: SnapshotId(3), ..CallRecord::of(LISTED_SCHEMAS) }, &[], &[], &[]);
    /// let mut same = CallList::new();
    /// same.push_list_schemas(SnapshotId(3));
    /// assert_eq!(list, same);
    /// ```
    pub fn push(&mut self, record: CallRecord, words: &[u64], name: &[u8], names: &[u8]) {
        let words = put(&mut self.lists, words);
        let name = put(&mut self.names, name);
        let names = put(&mut self.names, names);
        self.calls.extend(CallRecord { words, name, names, ..record }.to_words());
    }

    /// One whose arguments are words of the record.
    fn push_plain(&mut self, record: CallRecord) {
        self.push(record, &[], &[], &[]);
    }
}

/// The span of what is put at the end of a run.
fn put<W: Copy>(run: &mut Vec<W>, argument: &[W]) -> Span {
    let start = run.len();
    run.extend(argument);
    Span { start, length: argument.len() }
}
