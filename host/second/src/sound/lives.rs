//! How lives stand to snapshots (3) and to each other (6).

use std::collections::BTreeMap;

use crate::catalog::{is_retained, Catalog};
use crate::lent::Run;
use crate::records::{Life, Snapshot, SnapshotId};
use crate::sound::draft::Draft;
use crate::sound::{want, Unsound};

/// 3: "each begin and each end that isn't ABSENT is at most the latest snapshot id; begin < end;
/// every record is live at some retained snapshot"
pub fn are_retained(draft: &Draft) -> Result<(), Unsound> {
    let snapshots: BTreeMap<_, _> = draft.snapshots.iter().cloned().collect();
    let all = |run: Run, lives: &mut dyn Iterator<Item = Life>| {
        let mut places = lives.enumerate();
        places.try_for_each(|(place, life)| want(lived(&life, &snapshots), 3, run, place))
    };
    all(Run::Schemas, &mut draft.schemas.iter().map(|(_, schema)| schema.life))?;
    all(Run::Tables, &mut draft.tables.iter().map(|(_, table)| table.life))?;
    all(Run::Columns, &mut draft.columns.iter().map(|(_, column)| column.life))?;
    all(Run::DataFiles, &mut draft.data_files.iter().map(|(_, file)| file.life))?;
    all(Run::DeleteFiles, &mut draft.delete_files.iter().map(|(_, file)| file.life))
}

fn lived(life: &Life, snapshots: &BTreeMap<SnapshotId, Snapshot>) -> bool {
    let by_latest = |id| snapshots.last_key_value().is_some_and(|(latest, _)| id <= *latest);
    let ends = life.end.is_none_or(|end| by_latest(end) && life.begin < end);
    by_latest(life.begin) && ends && is_retained(life, snapshots)
}

/// 6: "a table's life lies within its schema's, a column's is its table's, a data file's lies
/// within its table's, a delete file's within its data file's, and their table ids match". The
/// outer record must be on record (R9).
pub fn nest(catalog: &Catalog) -> Result<(), Unsound> {
    for (place, table) in catalog.tables.values().enumerate() {
        let schema = catalog.schemas.get(&table.schema);
        let nests = schema.is_some_and(|schema| table.life.lies_within(&schema.life));
        want(nests, 6, Run::Tables, place)?;
    }
    for (place, ((table, _), column)) in catalog.columns.iter().enumerate() {
        let table = catalog.tables.get(table);
        want(table.is_some_and(|table| column.life == table.life), 6, Run::Columns, place)?;
    }
    for (place, file) in catalog.data_files.values().enumerate() {
        let table = catalog.tables.get(&file.table);
        let nests = table.is_some_and(|table| file.life.lies_within(&table.life));
        want(nests, 6, Run::DataFiles, place)?;
    }
    for (place, file) in catalog.delete_files.values().enumerate() {
        let data_file = catalog.data_files.get(&file.data_file);
        let nests = data_file.is_some_and(|data_file| {
            file.life.lies_within(&data_file.life) && file.table == data_file.table
        });
        want(nests, 6, Run::DeleteFiles, place)?;
    }
    Ok(())
}
