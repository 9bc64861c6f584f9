//! The twelve runs: lent for a change, lent for a reading, or owned.

use crate::number::NAME_SIZE;
use crate::outcome::Counts;
use crate::record::{ColumnRecord, DataFileRecord, DeleteFileRecord, ScheduledRecord, SchemaRecord, SnapshotRecord, StatisticsRecord, TableRecord};

/// What a catalogue lies in: it can be lent to calls.
pub trait Lend {
    /// The runs, for readings.
    fn view(&self) -> TablesView<'_>;

    /// The runs, for calls that change them.
    fn lend(&mut self) -> Tables<'_>;
}

/// The three kinds of tables, each with the same runs.
macro_rules! runs {
    ($($(#[$doc:meta])* $run:ident: $word:ty,)*) => {
        /// Runs of 64-bit words and of name bytes, lent to calls that change them. A run may have any length: it lends the whole records in it, and a table
        /// with names as many as both its runs have places for.
        ///
        /// ```
        /// use gukoremo::{Catalog, Counts, Refusal, Tables};
        ///
        /// let (mut snapshots, mut schemas, mut schema_names) = ([0; 7], [0; 3], [0; 32]);
        /// let lent = Tables { snapshots: &mut snapshots, schemas: &mut schemas, schema_names: &mut schema_names, ..Tables::default() };
        /// let mut catalog = Catalog::fresh(lent, 100)?;
        /// // one snapshot is all that there is room for
        /// assert_eq!(catalog.create_schema(110, "sales"), Err(Refusal::NoRoom));
        /// # Ok::<(), Refusal>(())
        /// ```
        #[derive(Debug, Default)]
        pub struct Tables<'a> {
            $($(#[$doc])* pub $run: &'a mut [$word],)*
        }

        /// The same runs, lent to readings.
        #[derive(Clone, Copy, Debug, Default)]
        pub struct TablesView<'a> {
            $($(#[$doc])* pub $run: &'a [$word],)*
        }

        /// Runs on the heap.
        #[derive(Clone, Debug, PartialEq, Eq, Default)]
        pub struct OwnedTables {
            $($(#[$doc])* pub $run: Vec<$word>,)*
        }

        impl Lend for Tables<'_> {
            fn view(&self) -> TablesView<'_> {
                TablesView { $($run: self.$run),* }
            }

            fn lend(&mut self) -> Tables<'_> {
                Tables { $($run: self.$run),* }
            }
        }

        impl Lend for OwnedTables {
            fn view(&self) -> TablesView<'_> {
                TablesView { $($run: &self.$run),* }
            }

            fn lend(&mut self) -> Tables<'_> {
                Tables { $($run: &mut self.$run),* }
            }
        }
    };
}

runs! {
    /// The snapshots, 7 words each.
    snapshots: u64,
    /// The schemas, 3 words each.
    schemas: u64,
    /// The names of the schemas, a place of 32 bytes each.
    schema_names: u8,
    /// The tables, 5 words each.
    tables: u64,
    /// The names of the tables, a place of 32 bytes each.
    table_names: u8,
    /// The columns, 7 words each.
    columns: u64,
    /// The names of the columns, a place of 32 bytes each.
    column_names: u8,
    /// The data files, 8 words each.
    data_files: u64,
    /// The delete files, 8 words each.
    delete_files: u64,
    /// The positions of deleted rows, a word each, delete file after delete file.
    positions: u64,
    /// The statistics, 7 words each.
    statistics: u64,
    /// The files that are scheduled for a cleanup, 4 words each.
    scheduled: u64,
}

impl TablesView<'_> {
    /// How many records of each kind, and how many positions, the tables have places for.
    ///
    /// ```
    /// use gukoremo::{Counts, Lend, OwnedTables};
    ///
    /// assert_eq!(OwnedTables::with_room(Counts::each(8)).view().room(), Counts::each(8));
    /// ```
    pub fn room(self) -> Counts {
        let named = |words: &[u64], size: usize, names: &[u8]| (words.len() / size).min(names.len() / NAME_SIZE);
        Counts {
            snapshots: self.snapshots.len() / SnapshotRecord::SIZE,
            schemas: named(self.schemas, SchemaRecord::SIZE, self.schema_names),
            tables: named(self.tables, TableRecord::SIZE, self.table_names),
            columns: named(self.columns, ColumnRecord::SIZE, self.column_names),
            data_files: self.data_files.len() / DataFileRecord::SIZE,
            delete_files: self.delete_files.len() / DeleteFileRecord::SIZE,
            positions: self.positions.len(),
            statistics: self.statistics.len() / StatisticsRecord::SIZE,
            scheduled: self.scheduled.len() / ScheduledRecord::SIZE,
        }
    }
}

impl OwnedTables {
    /// Tables with places for this many records of each kind, and this many positions.
    ///
    /// # Panics
    ///
    /// Where a run would be longer than any [`Vec`].
    ///
    /// ```
    /// use gukoremo::{Catalog, Counts, OwnedTables};
    ///
    /// let catalog = Catalog::fresh(OwnedTables::with_room(Counts { positions: 128, ..Counts::each(8) }), 100)?;
    /// assert_eq!(catalog.counts(), Counts { snapshots: 1, schemas: 1, ..Counts::NONE });
    /// # Ok::<(), gukoremo::Refusal>(())
    /// ```
    pub fn with_room(room: Counts) -> OwnedTables {
        let mut tables = OwnedTables::default();
        tables.resize(room);
        tables
    }

    /// Gives the tables places for this many records of each kind, and this many positions. Content stays where it is; where a run becomes shorter, what was
    /// behind its end is gone.
    ///
    /// # Panics
    ///
    /// Where a run would be longer than any [`Vec`].
    ///
    /// ```
    /// use gukoremo::{Catalog, Counts, OwnedTables, Refusal};
    ///
    /// let mut catalog = Catalog::fresh(OwnedTables::with_room(Counts::each(1)), 100)?;
    /// assert_eq!(catalog.create_schema(110, "sales"), Err(Refusal::NoRoom));
    ///
    /// let (mut tables, counts) = catalog.into_parts();
    /// tables.resize(Counts::each(2));
    /// let mut catalog = Catalog::resume(tables, counts);
    /// assert!(catalog.create_schema(110, "sales").is_ok());
    /// # Ok::<(), Refusal>(())
    /// ```
    pub fn resize(&mut self, room: Counts) {
        self.snapshots.resize(room.snapshots.saturating_mul(SnapshotRecord::SIZE), 0);
        self.schemas.resize(room.schemas.saturating_mul(SchemaRecord::SIZE), 0);
        self.schema_names.resize(room.schemas.saturating_mul(NAME_SIZE), 0);
        self.tables.resize(room.tables.saturating_mul(TableRecord::SIZE), 0);
        self.table_names.resize(room.tables.saturating_mul(NAME_SIZE), 0);
        self.columns.resize(room.columns.saturating_mul(ColumnRecord::SIZE), 0);
        self.column_names.resize(room.columns.saturating_mul(NAME_SIZE), 0);
        self.data_files.resize(room.data_files.saturating_mul(DataFileRecord::SIZE), 0);
        self.delete_files.resize(room.delete_files.saturating_mul(DeleteFileRecord::SIZE), 0);
        self.positions.resize(room.positions, 0);
        self.statistics.resize(room.statistics.saturating_mul(StatisticsRecord::SIZE), 0);
        self.scheduled.resize(room.scheduled.saturating_mul(ScheduledRecord::SIZE), 0);
    }
}
