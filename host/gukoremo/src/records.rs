//! The records of the tables as values: an end that is not set is none, codes are enums, names are text.

use crate::change::Change;
use crate::column_type::ColumnType;
use crate::number::{CatalogId, FileId, RowId, SnapshotId, ABSENT, NAME_SIZE};
use crate::record::{
    ColumnRecord, DataFileRecord, DeleteFileRecord, ScheduledRecord, SchemaRecord, SnapshotRecord, StatisticsRecord, TableRecord, Uuid,
};

/// From which snapshot on a record is there, and from which on no more.
///
/// ```
/// use gukoremo::{Life, SnapshotId};
///
/// let life = Life { begin: SnapshotId(2), end: Some(SnapshotId(5)) };
/// assert_eq!([1, 2, 4, 5].map(|at| life.is_live_at(SnapshotId(at))), [false, true, true, false]);
/// ```
#[derive(Clone, Copy, Debug, PartialEq, Eq, Hash)]
pub struct Life {
    /// The snapshot that made it.
    pub begin: SnapshotId,
    /// The snapshot that ended it; none while it is live.
    pub end: Option<SnapshotId>,
}

impl Life {
    /// "A record is *live at s* when begin ≤ s and (end is ABSENT or s < end)"
    ///
    /// ```
    /// use gukoremo::{Life, SnapshotId};
    ///
    /// assert!(Life { begin: SnapshotId(2), end: None }.is_live_at(SnapshotId(77)));
    /// ```
    pub fn is_live_at(self, snapshot: SnapshotId) -> bool {
        self.begin <= snapshot && self.end.is_none_or(|end| snapshot < end)
    }

    pub(crate) fn of(begin: u64, end: u64) -> Life {
        Life { begin: SnapshotId(begin), end: (end != ABSENT).then_some(SnapshotId(end)) }
    }
}

/// What stands before the first zero of a name's place.
fn name(place: &[u8; NAME_SIZE]) -> String {
    let name = place.split(|byte| *byte == 0).next().unwrap_or_default();
    String::from_utf8_lossy(name).into_owned()
}

/// A snapshot.
#[derive(Clone, Copy, Debug, PartialEq, Eq, Hash)]
pub struct Snapshot {
    /// Its id. A commit's is one above the latest.
    pub id: SnapshotId,
    /// The time that its commit was given: microseconds since 1970.
    pub time: u64,
    /// One more with each schema or table that is made or dropped.
    pub schema_version: u64,
    /// The id that the next schema or table gets.
    pub next_catalog_id: CatalogId,
    /// The id that the next file gets.
    pub next_file_id: FileId,
    /// What it changed.
    pub change: Change,
}

impl Snapshot {
    pub(crate) fn of(words: &[u64; SnapshotRecord::SIZE]) -> Snapshot {
        Snapshot {
            id: SnapshotId(words[SnapshotRecord::ID]),
            time: words[SnapshotRecord::TIME],
            schema_version: words[SnapshotRecord::SCHEMA_VERSION],
            next_catalog_id: CatalogId(words[SnapshotRecord::NEXT_CATALOG_ID]),
            next_file_id: FileId(words[SnapshotRecord::NEXT_FILE_ID]),
            change: Change::of(words[SnapshotRecord::KIND], CatalogId(words[SnapshotRecord::OBJECT])),
        }
    }
}

/// A schema.
#[derive(Clone, Debug, PartialEq, Eq, Hash)]
pub struct Schema {
    /// Its id; schemas and tables share one counter.
    pub id: CatalogId,
    /// Its life.
    pub life: Life,
    /// Its name.
    pub name: String,
}

impl Schema {
    pub(crate) fn of(words: &[u64; SchemaRecord::SIZE], place: &[u8; NAME_SIZE]) -> Schema {
        Schema { id: CatalogId(words[SchemaRecord::ID]), life: Life::of(words[SchemaRecord::BEGIN], words[SchemaRecord::END]), name: name(place) }
    }
}

/// A table.
#[derive(Clone, Debug, PartialEq, Eq, Hash)]
pub struct Table {
    /// Its id; schemas and tables share one counter.
    pub id: CatalogId,
    /// Its life.
    pub life: Life,
    /// The schema that it is in.
    pub schema: CatalogId,
    /// The row number that the next inserted row gets.
    pub next_row_id: RowId,
    /// Its name.
    pub name: String,
}

impl Table {
    pub(crate) fn of(words: &[u64; TableRecord::SIZE], place: &[u8; NAME_SIZE]) -> Table {
        Table {
            id: CatalogId(words[TableRecord::ID]),
            life: Life::of(words[TableRecord::BEGIN], words[TableRecord::END]),
            schema: CatalogId(words[TableRecord::SCHEMA]),
            next_row_id: RowId(words[TableRecord::NEXT_ROW_ID]),
            name: name(place),
        }
    }
}

/// A column.
#[derive(Clone, Debug, PartialEq, Eq, Hash)]
pub struct Column {
    /// Its id in its table: 1, 2, ...
    pub id: u64,
    /// The table that it is of.
    pub table: CatalogId,
    /// Its life, which is its table's.
    pub life: Life,
    /// Its place among the columns of the table.
    pub order: u64,
    /// Its type.
    pub column_type: ColumnType,
    /// Whether rows may have no value in it.
    pub nulls_allowed: bool,
    /// Its name.
    pub name: String,
}

impl Column {
    pub(crate) fn of(words: &[u64; ColumnRecord::SIZE], place: &[u8; NAME_SIZE]) -> Column {
        Column {
            id: words[ColumnRecord::ID],
            table: CatalogId(words[ColumnRecord::TABLE]),
            life: Life::of(words[ColumnRecord::BEGIN], words[ColumnRecord::END]),
            order: words[ColumnRecord::ORDER],
            column_type: ColumnType::of(words[ColumnRecord::TYPE_CODE]),
            nulls_allowed: words[ColumnRecord::NULLS_ALLOWED] == 1,
            name: name(place),
        }
    }
}

/// A data file.
#[derive(Clone, Copy, Debug, PartialEq, Eq, Hash)]
pub struct DataFile {
    /// Its id; data files and delete files share one counter.
    pub id: FileId,
    /// The table that it is of.
    pub table: CatalogId,
    /// Its life.
    pub life: Life,
    /// How many rows it has, those that are deleted too.
    pub record_count: u64,
    /// The number of its first row. The others follow.
    pub row_id_start: RowId,
    /// What its path is made of.
    pub uuid: Uuid,
}

impl DataFile {
    pub(crate) fn of(words: &[u64; DataFileRecord::SIZE]) -> DataFile {
        DataFile {
            id: FileId(words[DataFileRecord::ID]),
            table: CatalogId(words[DataFileRecord::TABLE]),
            life: Life::of(words[DataFileRecord::BEGIN], words[DataFileRecord::END]),
            record_count: words[DataFileRecord::RECORD_COUNT],
            row_id_start: RowId(words[DataFileRecord::ROW_ID_START]),
            uuid: Uuid { high: words[DataFileRecord::UUID_HIGH], low: words[DataFileRecord::UUID_LOW] },
        }
    }
}

/// A delete file: the positions in a data file of rows that are deleted.
#[derive(Clone, Copy, Debug, PartialEq, Eq, Hash)]
pub struct DeleteFile {
    /// Its id; data files and delete files share one counter.
    pub id: FileId,
    /// The table that it is of.
    pub table: CatalogId,
    /// Its life: the next delete of the same data file ends it.
    pub life: Life,
    /// The data file whose rows are deleted.
    pub data_file: FileId,
    /// How many positions it has.
    pub delete_count: u64,
    /// What its path is made of.
    pub uuid: Uuid,
}

impl DeleteFile {
    pub(crate) fn of(words: &[u64; DeleteFileRecord::SIZE]) -> DeleteFile {
        DeleteFile {
            id: FileId(words[DeleteFileRecord::ID]),
            table: CatalogId(words[DeleteFileRecord::TABLE]),
            life: Life::of(words[DeleteFileRecord::BEGIN], words[DeleteFileRecord::END]),
            data_file: FileId(words[DeleteFileRecord::DATA_FILE]),
            delete_count: words[DeleteFileRecord::DELETE_COUNT],
            uuid: Uuid { high: words[DeleteFileRecord::UUID_HIGH], low: words[DeleteFileRecord::UUID_LOW] },
        }
    }
}

/// The statistics of a column in a data file.
#[derive(Clone, Copy, Debug, PartialEq, Eq, Hash)]
pub struct Statistics {
    /// The data file.
    pub data_file: FileId,
    /// The column's id.
    pub column: u64,
    /// Rows without a value.
    pub null_count: u64,
    /// At or below every value, where it is known.
    pub min: Option<i64>,
    /// At or above every value, where it is known.
    pub max: Option<i64>,
}

impl Statistics {
    pub(crate) fn of(words: &[u64; StatisticsRecord::SIZE]) -> Statistics {
        let bound = |flag: usize, value: usize| (words[flag] == 1).then_some(words[value] as i64);
        Statistics {
            data_file: FileId(words[StatisticsRecord::DATA_FILE]),
            column: words[StatisticsRecord::COLUMN],
            null_count: words[StatisticsRecord::NULL_COUNT],
            min: bound(StatisticsRecord::HAS_MIN, StatisticsRecord::MIN),
            max: bound(StatisticsRecord::HAS_MAX, StatisticsRecord::MAX),
        }
    }
}

/// A file that no retained snapshot shows, until a cleanup hands it out.
#[derive(Clone, Copy, Debug, PartialEq, Eq, Hash)]
pub struct Scheduled {
    /// The file's id, which had been that of a data file or of a delete file.
    pub file: FileId,
    /// What its path is made of.
    pub uuid: Uuid,
    /// The time of the expiry that scheduled it.
    pub schedule_start: u64,
}

impl Scheduled {
    pub(crate) fn of(words: &[u64; ScheduledRecord::SIZE]) -> Scheduled {
        Scheduled {
            file: FileId(words[ScheduledRecord::FILE]),
            uuid: Uuid { high: words[ScheduledRecord::UUID_HIGH], low: words[ScheduledRecord::UUID_LOW] },
            schedule_start: words[ScheduledRecord::SCHEDULE_START],
        }
    }
}

/// A file on record. Examples go on from [the crate's page](crate).
#[derive(Clone, Copy, Debug, PartialEq, Eq, Hash)]
pub enum File {
    /// A data file.
    Data(DataFile),
    /// A delete file.
    Delete(DeleteFile),
}

impl File {
    /// Its id.
    ///
    /// ```
    /// # use gukoremo::FileId;
    /// # let catalog = include!(concat!(env!("CARGO_MANIFEST_DIR"), "/src/diary.in"));
    /// assert_eq!(catalog.find_file(FileId(1))?.id(), FileId(1));
    /// # Ok::<(), gukoremo::Refusal>(())
    /// ```
    pub fn id(&self) -> FileId {
        match self {
            File::Data(file) => file.id,
            File::Delete(file) => file.id,
        }
    }

    /// The table that it is of.
    ///
    /// ```
    /// # use gukoremo::{CatalogId, FileId};
    /// # let catalog = include!(concat!(env!("CARGO_MANIFEST_DIR"), "/src/diary.in"));
    /// assert_eq!(catalog.find_file(FileId(1))?.table(), CatalogId(1));
    /// # Ok::<(), gukoremo::Refusal>(())
    /// ```
    pub fn table(&self) -> CatalogId {
        match self {
            File::Data(file) => file.table,
            File::Delete(file) => file.table,
        }
    }

    /// Its life.
    ///
    /// ```
    /// # use gukoremo::{FileId, SnapshotId};
    /// # let catalog = include!(concat!(env!("CARGO_MANIFEST_DIR"), "/src/diary.in"));
    /// assert_eq!(catalog.find_file(FileId(1))?.life().begin, SnapshotId(3));
    /// # Ok::<(), gukoremo::Refusal>(())
    /// ```
    pub fn life(&self) -> Life {
        match self {
            File::Data(file) => file.life,
            File::Delete(file) => file.life,
        }
    }

    /// What its path is made of.
    ///
    /// ```
    /// # use gukoremo::FileId;
    /// # let catalog = include!(concat!(env!("CARGO_MANIFEST_DIR"), "/src/diary.in"));
    /// assert_eq!(catalog.find_file(FileId(1))?.uuid().path(), "ducklake-00000000-0000-0000-0000-000000000002.parquet");
    /// # Ok::<(), gukoremo::Refusal>(())
    /// ```
    pub fn uuid(&self) -> Uuid {
        match self {
            File::Data(file) => file.uuid,
            File::Delete(file) => file.uuid,
        }
    }
}
