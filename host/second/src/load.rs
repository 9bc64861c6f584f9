//! The lent words as maps, if the tables are sound: the rules of 'Sound tables' are judged line by
//! line, and the first that fails is named.

use crate::catalog::Catalog;
use crate::lent::{Counts, Words};
use crate::sound::{ids, lives, names, positions, ranges, rows, snapshots, statistics, Unsound};

pub fn load(words: &Words, counts: &Counts) -> Result<Catalog, Unsound> {
    let draft = ranges::draft(words, counts)?;
    snapshots::ascend(&draft)?;
    lives::are_retained(&draft)?;
    ids::ascend(&draft)?;
    let (mut catalog, deletes, values) = draft.into_maps();
    ids::are_given_out_once(&catalog)?;
    lives::nest(&catalog)?;
    names::differ(&catalog)?;
    positions::deal_out(&mut catalog, &deletes)?;
    positions::grow(&catalog)?;
    rows::ascend(&catalog)?;
    statistics::read(&mut catalog, values)?;
    statistics::cover(&catalog)?;
    statistics::column_counts(&catalog)?;
    Ok(catalog)
}
