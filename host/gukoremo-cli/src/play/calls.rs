//! A line that is a call: its arguments as they stand, as a record of a list of calls; the compiled call and its outcome.

use super::line::Arguments;
use super::stage::Stage;
use gukoremo::record::{CREATED_SCHEMA, CREATED_TABLE, DELETED_FROM_TABLE, DROPPED_SCHEMA, DROPPED_TABLE, INSERTED_INTO_TABLE};
use gukoremo::session::{
    CallRecord, CLEANED_UP, COPIED_FILE, EXPIRED_SNAPSHOTS, FOUND_SNAPSHOT_BY_TIME, FOUND_TABLE_BY_NAME, LISTED_COLUMNS, LISTED_FILES,
    LISTED_FILTERED_FILES, LISTED_ROWS, LISTED_SCHEMAS, LISTED_TABLES, MADE_FRESH,
};
use gukoremo::{raw, CallList, CatalogId, FileId, Lend, Outcome, SnapshotId, Uuid};

/// A call with its arguments. Those that lie in runs of a list stand beside its record.
pub struct Call {
    record: CallRecord,
    words: Vec<u64>,
    name: Vec<u8>,
    names: Vec<u8>,
}

/// The call that a line names; none where it names no call.
pub fn read(given: &mut Arguments<'_>) -> Result<Option<Call>, String> {
    let Some((_, kind)) = KINDS.iter().find(|(name, _)| *name == given.command) else { return Ok(None) };
    let mut call = Call { record: CallRecord::of(*kind), words: Vec::new(), name: Vec::new(), names: Vec::new() };
    call.arguments(given)?;
    given.end()?;
    Ok(Some(call))
}

const KINDS: [(&str, u64); 18] = [
    ("fresh", MADE_FRESH),
    ("create_schema", CREATED_SCHEMA),
    ("drop_schema", DROPPED_SCHEMA),
    ("create_table", CREATED_TABLE),
    ("drop_table", DROPPED_TABLE),
    ("insert", INSERTED_INTO_TABLE),
    ("delete", DELETED_FROM_TABLE),
    ("expire", EXPIRED_SNAPSHOTS),
    ("cleanup", CLEANED_UP),
    ("snapshot_by_time", FOUND_SNAPSHOT_BY_TIME),
    ("copy_file", COPIED_FILE),
    ("list_schemas", LISTED_SCHEMAS),
    ("list_tables", LISTED_TABLES),
    ("list_columns", LISTED_COLUMNS),
    ("list_files", LISTED_FILES),
    ("list_rows", LISTED_ROWS),
    ("list_filtered_files", LISTED_FILTERED_FILES),
    ("table_by_name", FOUND_TABLE_BY_NAME),
];

impl Call {
    /// The words of the line, in their order.
    fn arguments(&mut self, given: &mut Arguments<'_>) -> Result<(), String> {
        let record = &mut self.record;
        match record.kind {
            MADE_FRESH | CLEANED_UP | FOUND_SNAPSHOT_BY_TIME => record.time = given.word("TIME")?,
            CREATED_SCHEMA => {
                record.time = given.word("TIME")?;
                self.name = given.name("NAME")?;
            }
            DROPPED_SCHEMA => {
                record.time = given.word("TIME")?;
                record.catalog = CatalogId(given.word("SCHEMA")?);
            }
            CREATED_TABLE => {
                record.time = given.word("TIME")?;
                record.catalog = CatalogId(given.word("SCHEMA")?);
                self.name = given.name("NAME")?;
                self.words = given.words("columns")?;
                self.names = given.places("column names")?;
            }
            DROPPED_TABLE => {
                record.time = given.word("TIME")?;
                record.catalog = CatalogId(given.word("TABLE")?);
            }
            INSERTED_INTO_TABLE => {
                record.time = given.word("TIME")?;
                record.catalog = CatalogId(given.word("TABLE")?);
                record.record_count = given.word("ROWS")?;
                record.uuid = uuid(given)?;
                self.words = given.words("statistics")?;
            }
            DELETED_FROM_TABLE => {
                record.time = given.word("TIME")?;
                record.file = FileId(given.word("FILE")?);
                record.uuid = uuid(given)?;
                self.words = given.words("positions")?;
            }
            EXPIRED_SNAPSHOTS => {
                self.words = given.words("snapshots")?;
                record.time = given.word("TIME")?;
            }
            COPIED_FILE => record.file = FileId(given.word("FILE")?),
            LISTED_SCHEMAS => record.snapshot = SnapshotId(given.word("SNAPSHOT")?),
            LISTED_FILTERED_FILES => {
                record.snapshot = SnapshotId(given.word("SNAPSHOT")?);
                record.catalog = CatalogId(given.word("TABLE")?);
                record.column = given.word("COLUMN")?;
                record.scalar = given.word("SCALAR")?;
            }
            FOUND_TABLE_BY_NAME => {
                record.snapshot = SnapshotId(given.word("SNAPSHOT")?);
                record.catalog = CatalogId(given.word("SCHEMA")?);
                self.name = given.name("NAME")?;
            }
            kind => {
                record.snapshot = SnapshotId(given.word("SNAPSHOT")?);
                record.catalog = CatalogId(given.word(if kind == LISTED_TABLES { "SCHEMA" } else { "TABLE" })?);
            }
        }
        Ok(())
    }

    /// At the end of a list.
    pub fn push(&self, list: &mut CallList) {
        list.push(self.record, &self.words, &self.name, &self.names);
    }

    /// By itself.
    pub fn play(&self, stage: &mut Stage) -> Outcome {
        let CallRecord { kind, time, snapshot, catalog, file, column, scalar, record_count, uuid, .. } = self.record;
        let (words, name, names) = (&self.words, &self.name, &self.names);
        let (counts, area) = (stage.counts, &mut stage.area[..]);
        if kind < LISTED_SCHEMAS {
            let lent = stage.tables.lend();
            return match kind {
                MADE_FRESH => raw::fresh(lent, counts, time, area),
                CREATED_SCHEMA => raw::create_schema(lent, counts, time, name, area),
                DROPPED_SCHEMA => raw::drop_schema(lent, counts, time, catalog, area),
                CREATED_TABLE => raw::create_table(lent, counts, time, catalog, name, words, names, area),
                DROPPED_TABLE => raw::drop_table(lent, counts, time, catalog, area),
                INSERTED_INTO_TABLE => raw::insert(lent, counts, time, catalog, record_count, uuid, words, area),
                DELETED_FROM_TABLE => raw::delete(lent, counts, time, file, uuid, words, area),
                EXPIRED_SNAPSHOTS => raw::expire(lent, counts, words, time, area),
                _ => raw::cleanup(lent, counts, time, area),
            };
        }
        let lent = stage.tables.view();
        match kind {
            LISTED_SCHEMAS => raw::list_schemas(lent, counts, snapshot, area),
            LISTED_TABLES => raw::list_tables(lent, counts, snapshot, catalog, area),
            LISTED_COLUMNS => raw::list_columns(lent, counts, snapshot, catalog, area),
            FOUND_TABLE_BY_NAME => raw::table_by_name(lent, counts, snapshot, catalog, name, area),
            LISTED_FILES => raw::list_files(lent, counts, snapshot, catalog, area),
            LISTED_FILTERED_FILES => raw::list_filtered_files(lent, counts, snapshot, catalog, column, scalar as i64, area),
            LISTED_ROWS => raw::list_rows(lent, counts, snapshot, catalog, area),
            FOUND_SNAPSHOT_BY_TIME => raw::snapshot_by_time(lent, counts, time, area),
            _ => raw::copy_file(lent, counts, file, area),
        }
    }
}

fn uuid(given: &mut Arguments<'_>) -> Result<Uuid, String> {
    Ok(Uuid { high: given.word("UUID_HIGH")?, low: given.word("UUID_LOW")? })
}
