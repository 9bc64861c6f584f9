//! "A table is a lent run of unsigned 64-bit words, one record after another, fields in this order."

/// "ABSENT is 2^64 − 1; in the tables only an end reads as ABSENT, and elsewhere that word is a
/// plain value."
pub const ABSENT: u64 = u64::MAX;

/// "Each table uses at most 4,096 records, positions at most 65,536."
pub const RECORD_LIMIT: usize = 4_096;
pub const POSITION_LIMIT: usize = 65_536;

/// "Ids, next ids, row numbers, column orders and schema versions are at most 2^62."
pub const NUMBER_LIMIT: u64 = 1 << 62;

/// "record_count is 1 to 1,048,576."
pub const RECORD_COUNT_LIMIT: u64 = 1_048_576;

/// "A table has 1 to 16 live columns at each retained snapshot where it lives."
pub const COLUMN_LIMIT: usize = 16;

/// "Names lie in 32-byte places of a byte run beside the table".
pub const NAME_SIZE: usize = 32;

/// Words of a record of each table; a position is one word.
pub const SNAPSHOT_SIZE: usize = 7;
pub const SCHEMA_SIZE: usize = 3;
pub const TABLE_SIZE: usize = 5;
pub const COLUMN_SIZE: usize = 7;
pub const DATA_FILE_SIZE: usize = 8;
pub const DELETE_FILE_SIZE: usize = 8;
pub const STATISTICS_SIZE: usize = 7;
pub const SCHEDULED_SIZE: usize = 4;

/// The lent runs: nine of words, three of name bytes.
#[derive(Clone, Debug, Default, PartialEq, Eq)]
pub struct Words {
    pub snapshots: Vec<u64>,
    pub schemas: Vec<u64>,
    pub tables: Vec<u64>,
    pub columns: Vec<u64>,
    pub data_files: Vec<u64>,
    pub delete_files: Vec<u64>,
    pub positions: Vec<u64>,
    pub statistics: Vec<u64>,
    pub scheduled: Vec<u64>,
    pub schema_names: Vec<u8>,
    pub table_names: Vec<u8>,
    pub column_names: Vec<u8>,
}

/// "A catalogue record, passed in and handed back by value, says how many records of each table
/// are used."
#[repr(C)]
#[derive(Clone, Copy, Debug, Default, PartialEq, Eq)]
pub struct Counts {
    pub snapshots: usize,
    pub schemas: usize,
    pub tables: usize,
    pub columns: usize,
    pub data_files: usize,
    pub delete_files: usize,
    pub positions: usize,
    pub statistics: usize,
    pub scheduled: usize,
}

/// The name of a word run.
#[derive(Clone, Copy, Debug, PartialEq, Eq, PartialOrd, Ord)]
pub enum Run {
    Snapshots,
    Schemas,
    Tables,
    Columns,
    DataFiles,
    DeleteFiles,
    Positions,
    Statistics,
    Scheduled,
}

impl Counts {
    /// The same count for each of the nine.
    pub fn of_each(count: usize) -> Counts {
        Counts {
            snapshots: count,
            schemas: count,
            tables: count,
            columns: count,
            data_files: count,
            delete_files: count,
            positions: count,
            statistics: count,
            scheduled: count,
        }
    }

    pub fn by_run(&self) -> [(Run, usize); 9] {
        [
            (Run::Snapshots, self.snapshots),
            (Run::Schemas, self.schemas),
            (Run::Tables, self.tables),
            (Run::Columns, self.columns),
            (Run::DataFiles, self.data_files),
            (Run::DeleteFiles, self.delete_files),
            (Run::Positions, self.positions),
            (Run::Statistics, self.statistics),
            (Run::Scheduled, self.scheduled),
        ]
    }

    /// The first run of which more is used than there are places.
    pub fn first_beyond(&self, places: &Counts) -> Option<Run> {
        let mut pairs = self.by_run().into_iter().zip(places.by_run());
        pairs.find(|((_, used), (_, lent))| used > lent).map(|((run, _), _)| run)
    }
}

impl Words {
    /// Runs of zeros that lend as many records as asked.
    pub fn lend(places: &Counts) -> Words {
        Words {
            snapshots: vec![0; places.snapshots * SNAPSHOT_SIZE],
            schemas: vec![0; places.schemas * SCHEMA_SIZE],
            tables: vec![0; places.tables * TABLE_SIZE],
            columns: vec![0; places.columns * COLUMN_SIZE],
            data_files: vec![0; places.data_files * DATA_FILE_SIZE],
            delete_files: vec![0; places.delete_files * DELETE_FILE_SIZE],
            positions: vec![0; places.positions],
            statistics: vec![0; places.statistics * STATISTICS_SIZE],
            scheduled: vec![0; places.scheduled * SCHEDULED_SIZE],
            schema_names: vec![0; places.schemas * NAME_SIZE],
            table_names: vec![0; places.tables * NAME_SIZE],
            column_names: vec![0; places.columns * NAME_SIZE],
        }
    }

    /// How many records of each table may be used: the whole records that its runs hold, names
    /// too, and no more than the limit (R1, R2, R3).
    pub fn places(&self) -> Counts {
        let records = |run: &[u64], size: usize| (run.len() / size).min(RECORD_LIMIT);
        let named = |run: &[u64], size: usize, names: &[u8]| {
            records(run, size).min(names.len() / NAME_SIZE)
        };
        Counts {
            snapshots: records(&self.snapshots, SNAPSHOT_SIZE),
            schemas: named(&self.schemas, SCHEMA_SIZE, &self.schema_names),
            tables: named(&self.tables, TABLE_SIZE, &self.table_names),
            columns: named(&self.columns, COLUMN_SIZE, &self.column_names),
            data_files: records(&self.data_files, DATA_FILE_SIZE),
            delete_files: records(&self.delete_files, DELETE_FILE_SIZE),
            positions: self.positions.len().min(POSITION_LIMIT),
            statistics: records(&self.statistics, STATISTICS_SIZE),
            scheduled: records(&self.scheduled, SCHEDULED_SIZE),
        }
    }
}
