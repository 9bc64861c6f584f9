//! The maps as words again.

use crate::catalog::Catalog;
use crate::lent::{
    Counts, Words, COLUMN_SIZE, DATA_FILE_SIZE, DELETE_FILE_SIZE, NAME_SIZE, SCHEDULED_SIZE,
    SCHEMA_SIZE, SNAPSHOT_SIZE, STATISTICS_SIZE, TABLE_SIZE,
};
use crate::names::Name;
use crate::records::{DataFile, DeleteFile, FileId};

/// Writes the catalogue over the tables, of which `used` records were used before, and gives the
/// new used counts. A record that did not change is written as it stood.
///
/// Records beyond the lent places are left out; a call judges 2 before it stores.
pub fn store(catalog: &Catalog, words: &mut Words, used: &Counts) -> Counts {
    put(&mut words.snapshots, &snapshots(catalog), used.snapshots);
    put(&mut words.schemas, &schemas(catalog), used.schemas);
    put(&mut words.tables, &tables(catalog), used.tables);
    put(&mut words.columns, &columns(catalog), used.columns);
    put(&mut words.data_files, &data_files(catalog), used.data_files);
    put(&mut words.delete_files, &delete_files(catalog), used.delete_files);
    put(&mut words.positions, &positions(catalog), used.positions);
    put(&mut words.statistics, &statistics(catalog), used.statistics);
    put(&mut words.scheduled, &scheduled(catalog), used.scheduled);

    let schemas = names(catalog.schemas.values().map(|schema| &schema.name));
    put(&mut words.schema_names, &schemas, used.schemas);
    let tables = names(catalog.tables.values().map(|table| &table.name));
    put(&mut words.table_names, &tables, used.tables);
    let columns = names(catalog.columns.values().map(|column| &column.name));
    put(&mut words.column_names, &columns, used.columns);

    catalog.counts()
}

/// "Places that a call frees become 0; all other words past the used counts [...] keep their
/// content." Freed places are those from the new used count to the old one (R6).
fn put<Word: Copy + Default, const SIZE: usize>(
    run: &mut [Word],
    records: &[[Word; SIZE]],
    used: usize,
) {
    let (places, _) = run.as_chunks_mut::<SIZE>();
    for (place, record) in places.iter_mut().zip(records) {
        *place = *record;
    }
    for freed in places.iter_mut().take(used).skip(records.len()) {
        *freed = [Word::default(); SIZE];
    }
}

fn names<'a>(names: impl Iterator<Item = &'a Name>) -> Vec<[u8; NAME_SIZE]> {
    names.map(Name::place).collect()
}

/// "snapshot: id, time [...], schema_version, next_catalog_id, next_file_id, change kind, change
/// object"
fn snapshots(catalog: &Catalog) -> Vec<[u64; SNAPSHOT_SIZE]> {
    let mut records = Vec::new();
    for (id, snapshot) in &catalog.snapshots {
        records.push([
            *id,
            snapshot.time,
            snapshot.schema_version,
            snapshot.next_catalog_id,
            snapshot.next_file_id,
            snapshot.change_kind,
            snapshot.change_object,
        ]);
    }
    records
}

/// "schema: id, begin, end"
fn schemas(catalog: &Catalog) -> Vec<[u64; SCHEMA_SIZE]> {
    let mut records = Vec::new();
    for (id, schema) in &catalog.schemas {
        records.push([*id, schema.life.begin, schema.life.end_word()]);
    }
    records
}

/// "table: id, begin, end, schema id, next_row_id"
fn tables(catalog: &Catalog) -> Vec<[u64; TABLE_SIZE]> {
    let mut records = Vec::new();
    for (id, table) in &catalog.tables {
        let (begin, end) = (table.life.begin, table.life.end_word());
        records.push([*id, begin, end, table.schema, table.next_row_id]);
    }
    records
}

/// "column: id, table id, begin, end, column_order, type, nulls_allowed (0 or 1)"
fn columns(catalog: &Catalog) -> Vec<[u64; COLUMN_SIZE]> {
    let mut records = Vec::new();
    for ((table, id), column) in &catalog.columns {
        let (begin, end) = (column.life.begin, column.life.end_word());
        let (kind, nulls_allowed) = (column.kind.code(), u64::from(column.nulls_allowed));
        records.push([*id, *table, begin, end, column.order, kind, nulls_allowed]);
    }
    records
}

/// "data file: id, table id, begin, end, record_count, row_id_start, UUID high word, UUID low word"
pub fn data_file(id: FileId, file: &DataFile) -> [u64; DATA_FILE_SIZE] {
    let (begin, end) = (file.life.begin, file.life.end_word());
    let (high, low) = file.uuid;
    [id, file.table, begin, end, file.record_count, file.row_id_start, high, low]
}

fn data_files(catalog: &Catalog) -> Vec<[u64; DATA_FILE_SIZE]> {
    catalog.data_files.iter().map(|(id, file)| data_file(*id, file)).collect()
}

/// "delete file: id, table id, begin, end, data file id, delete_count, UUID high, UUID low"
pub fn delete_file(id: FileId, file: &DeleteFile) -> [u64; DELETE_FILE_SIZE] {
    let (begin, end) = (file.life.begin, file.life.end_word());
    let (high, low) = file.uuid;
    [id, file.table, begin, end, file.data_file, file.positions.len() as u64, high, low]
}

fn delete_files(catalog: &Catalog) -> Vec<[u64; DELETE_FILE_SIZE]> {
    catalog.delete_files.iter().map(|(id, file)| delete_file(*id, file)).collect()
}

/// "positions: one word each; the delete files' positions follow each other in delete file order"
fn positions(catalog: &Catalog) -> Vec<[u64; 1]> {
    let files = catalog.delete_files.values();
    files.flat_map(|file| &file.positions).map(|position| [*position]).collect()
}

/// "statistics: data file id, column id, null_count, has_min, has_max (0 or 1); and signed 64-bit
/// (two's complement) min and max"
fn statistics(catalog: &Catalog) -> Vec<[u64; STATISTICS_SIZE]> {
    let mut records = Vec::new();
    for ((file, column), statistics) in &catalog.statistics {
        let [null_count, has_min, has_max, min, max] = statistics.words();
        records.push([*file, *column, null_count, has_min, has_max, min, max]);
    }
    records
}

/// "scheduled: file id, UUID high, UUID low, schedule_start (a time)"
fn scheduled(catalog: &Catalog) -> Vec<[u64; SCHEDULED_SIZE]> {
    let mut records = Vec::new();
    for record in &catalog.scheduled {
        let (high, low) = record.uuid;
        records.push([record.file, high, low, record.schedule_start]);
    }
    records
}
