//! Ids in order (4), given out already, and once (5).

use std::collections::BTreeSet;

use crate::catalog::Catalog;
use crate::lent::Run;
use crate::records::{FileId, Uuid};
use crate::sound::draft::Draft;
use crate::sound::{want, Unsound};

/// 4: "ids ascend strictly in schema, table, data file and delete file, columns by (table id,
/// column id), statistics by (data file id, column id)"
pub fn ascend(draft: &Draft) -> Result<(), Unsound> {
    keys_ascend(Run::Schemas, &draft.schemas)?;
    keys_ascend(Run::Tables, &draft.tables)?;
    keys_ascend(Run::Columns, &draft.columns)?;
    keys_ascend(Run::DataFiles, &draft.data_files)?;
    keys_ascend(Run::DeleteFiles, &draft.delete_files)?;
    keys_ascend(Run::Statistics, &draft.statistics)
}

fn keys_ascend<Key: Ord, Record>(run: Run, records: &[(Key, Record)]) -> Result<(), Unsound> {
    let mut pairs = records.windows(2).enumerate();
    pairs.try_for_each(|(place, pair)| want(pair[0].0 < pair[1].0, 4, run, place + 1))
}

/// 5: "schema, table and file ids are below the latest snapshot's next ids; no file id or UUID
/// occurs twice over data files, delete files and scheduled". A scheduled file's id is a file id
/// (R8).
pub fn are_given_out_once(catalog: &Catalog) -> Result<(), Unsound> {
    let (_, latest) = catalog.latest();
    let (next_catalog_id, next_file_id) = (latest.next_catalog_id, latest.next_file_id);
    for (place, id) in catalog.schemas.keys().enumerate() {
        want(*id < next_catalog_id, 5, Run::Schemas, place)?;
    }
    for (place, id) in catalog.tables.keys().enumerate() {
        want(*id < next_catalog_id, 5, Run::Tables, place)?;
    }
    let (mut ids, mut uuids) = (BTreeSet::new(), BTreeSet::new());
    for (run, place, id, uuid) in files(catalog) {
        want(id < next_file_id, 5, run, place)?;
        want(ids.insert(id) && uuids.insert(uuid), 5, run, place)?;
    }
    Ok(())
}

/// Data files, delete files and scheduled records, each with its table and place.
fn files(catalog: &Catalog) -> impl Iterator<Item = (Run, usize, FileId, Uuid)> + '_ {
    let data_files = catalog.data_files.iter().enumerate();
    let data_files = data_files.map(|(place, (id, f))| (Run::DataFiles, place, *id, f.uuid));
    let delete_files = catalog.delete_files.iter().enumerate();
    let delete_files = delete_files.map(|(place, (id, f))| (Run::DeleteFiles, place, *id, f.uuid));
    let scheduled = catalog.scheduled.iter().enumerate();
    let scheduled = scheduled.map(|(place, r)| (Run::Scheduled, place, r.file, r.uuid));
    data_files.chain(delete_files).chain(scheduled)
}
