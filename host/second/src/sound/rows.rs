//! 9: "row ranges of a table's files ascend with the file id, don't overlap, and end at or below
//! next_row_id"

use std::collections::BTreeMap;

use crate::catalog::Catalog;
use crate::lent::Run;
use crate::records::{CatalogId, RowId};
use crate::sound::{want, Unsound};

const RULE: u8 = 9;

/// A range is from row_id_start up to, not including, row_id_start + record_count; gaps are
/// allowed (R12). The sum passes no word: it is at most 2^62 + 2^20.
pub fn ascend(catalog: &Catalog) -> Result<(), Unsound> {
    let mut ends: BTreeMap<CatalogId, RowId> = BTreeMap::new();
    for (place, file) in catalog.data_files.values().enumerate() {
        let end = file.row_id_start + file.record_count;
        let before = ends.insert(file.table, end).unwrap_or(0);
        let table = catalog.tables.get(&file.table);
        let in_table = table.is_some_and(|table| end <= table.next_row_id);
        want(before <= file.row_id_start && in_table, RULE, Run::DataFiles, place)?;
    }
    Ok(())
}
