//! 8: "two delete files of one data file have no common live number; the later holds every
//! position of the earlier; positions ascend strictly below record_count; delete_count is 1 or
//! more and the counts add up to the used positions"

use std::collections::BTreeMap;

use crate::catalog::Catalog;
use crate::lent::Run;
use crate::records::{DeleteFile, FileId};
use crate::sound::draft::Deletes;
use crate::sound::{place, want, Unsound};

const RULE: u8 = 8;

/// "delete_count is 1 or more and the counts add up to the used positions": the true sum (R4).
/// Then each delete file takes its positions: "positions ascend strictly below record_count".
pub fn deal_out(catalog: &mut Catalog, deletes: &Deletes) -> Result<(), Unsound> {
    for (place, count) in deletes.counts.iter().enumerate() {
        want(*count >= 1, RULE, Run::DeleteFiles, place)?;
    }
    let sum: u128 = deletes.counts.iter().map(|count| u128::from(*count)).sum();
    if sum != deletes.positions.len() as u128 {
        return Err(Unsound::whole(RULE, Run::Positions));
    }
    let mut rest = deletes.positions.as_slice();
    let files = catalog.delete_files.values_mut().zip(&deletes.counts);
    for (place, (file, count)) in files.enumerate() {
        let (positions, after) = rest.split_at(*count as usize);
        let data_file = catalog.data_files.get(&file.data_file);
        let record_count = data_file.map_or(0, |data_file| data_file.record_count);
        let ascend = positions.windows(2).all(|pair| pair[0] < pair[1]);
        let below = positions.iter().all(|position| *position < record_count);
        want(ascend && below, RULE, Run::DeleteFiles, place)?;
        file.positions = positions.iter().copied().collect();
        rest = after;
    }
    Ok(())
}

/// "two delete files of one data file have no common live number; the later holds every position
/// of the earlier": the later is the one that begins later (R10).
pub fn grow(catalog: &Catalog) -> Result<(), Unsound> {
    let mut by_data_file: BTreeMap<FileId, Vec<(FileId, &DeleteFile)>> = BTreeMap::new();
    for (id, file) in &catalog.delete_files {
        by_data_file.entry(file.data_file).or_default().push((*id, file));
    }
    for files in by_data_file.values_mut() {
        files.sort_by_key(|(id, file)| (file.life.begin, *id));
        for pair in files.windows(2) {
            let ((_, earlier), (id, later)) = (pair[0], pair[1]);
            let grows = earlier.positions.is_subset(&later.positions);
            let follows = !earlier.life.meets(&later.life) && grows;
            want(follows, RULE, Run::DeleteFiles, place(&catalog.delete_files, &id))?;
        }
    }
    Ok(())
}
