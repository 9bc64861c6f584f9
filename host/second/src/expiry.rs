//! "Expiry takes snapshot ids and a time. The snapshots go, and every record live at no retained
//! snapshot, with statistics and positions of such files; gaps close, order stays, freed places
//! serve again."

use std::collections::BTreeMap;

use crate::catalog::{is_retained, Catalog};
use crate::commits::{change, NO_ANSWER};
use crate::lent::{Counts, Words};
use crate::records::{FileId, Life, Scheduled, SnapshotId, Uuid};
use crate::refusals::{refuse_if, Outcome, Refusal};

/// 5 is judged over the whole list before 18; an empty list gives 18. The time may be any word
/// (R21).
pub fn expire(
    words: &mut Words,
    counts: &Counts,
    ids: &[SnapshotId],
    time: u64,
    area: &mut [u64],
) -> Outcome {
    change(words, counts, area, |catalog| {
        let all_retained = ids.iter().all(|id| catalog.snapshots.contains_key(id));
        refuse_if(!all_retained, Refusal::NotRetained)?;
        let ascend = ids.windows(2).all(|pair| pair[0] < pair[1]);
        refuse_if(ids.is_empty() || !ascend, Refusal::BadExpiryList)?;
        refuse_if(ids.contains(&catalog.latest_id()), Refusal::ExpiresLatest)?;

        for id in ids {
            catalog.snapshots.remove(id);
        }
        let files = drop_unretained(catalog);
        schedule(catalog, files, time);
        Ok(NO_ANSWER)
    })
}

/// Takes out "every record live at no retained snapshot, with statistics and positions of such
/// files", and gives the files taken out. A file id names one record, so one map holds them.
fn drop_unretained(catalog: &mut Catalog) -> BTreeMap<FileId, Uuid> {
    let Catalog {
        snapshots, schemas, tables, columns, data_files, delete_files, statistics, ..
    } = catalog;
    let stays = |life: &Life| is_retained(life, snapshots);
    schemas.retain(|_, schema| stays(&schema.life));
    tables.retain(|_, table| stays(&table.life));
    columns.retain(|_, column| stays(&column.life));

    let data = data_files.iter().filter(|(_, file)| !stays(&file.life));
    let mut gone: BTreeMap<FileId, Uuid> = data.map(|(id, file)| (*id, file.uuid)).collect();
    let deletes = delete_files.iter().filter(|(_, file)| !stays(&file.life));
    gone.extend(deletes.map(|(id, file)| (*id, file.uuid)));
    data_files.retain(|id, _| !gone.contains_key(id));
    delete_files.retain(|id, _| !gone.contains_key(id));
    statistics.retain(|(file, _), _| !gone.contains_key(file));
    gone
}

/// "Files removed are scheduled by ascending id, schedule_start the given time": data and delete
/// files mixed, after those already there (R22).
fn schedule(catalog: &mut Catalog, files: BTreeMap<FileId, Uuid>, time: u64) {
    let record = |(file, uuid)| Scheduled { file, uuid, schedule_start: time };
    catalog.scheduled.extend(files.into_iter().map(record));
}
