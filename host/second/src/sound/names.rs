//! 7: "schemas, tables of one schema and columns of one table with a common live snapshot number
//! have different names, such columns also different orders"

use std::collections::BTreeMap;

use crate::catalog::Catalog;
use crate::lent::Run;
use crate::records::Life;
use crate::sound::{want, Unsound};

const RULE: u8 = 7;

pub fn differ(catalog: &Catalog) -> Result<(), Unsound> {
    let schemas = catalog.schemas.values();
    apart(Run::Schemas, schemas.map(|schema| (schema.name, schema.life)))?;
    let tables = catalog.tables.values();
    apart(Run::Tables, tables.map(|table| ((table.schema, table.name), table.life)))?;
    let columns = catalog.columns.iter();
    apart(Run::Columns, columns.map(|((table, _), column)| ((*table, column.name), column.life)))?;
    let columns = catalog.columns.iter();
    apart(Run::Columns, columns.map(|((table, _), column)| ((*table, column.order), column.life)))
}

/// No two lives under one label have a common number.
fn apart<Label: Ord>(
    run: Run,
    labelled: impl Iterator<Item = (Label, Life)>,
) -> Result<(), Unsound> {
    let mut by_label: BTreeMap<Label, Vec<(Life, usize)>> = BTreeMap::new();
    for (place, (label, life)) in labelled.enumerate() {
        by_label.entry(label).or_default().push((life, place));
    }
    for lives in by_label.values_mut() {
        lives.sort_by_key(|(life, place)| (life.begin, *place));
        for pair in lives.windows(2) {
            let ((earlier, _), (later, place)) = (pair[0], pair[1]);
            want(!earlier.meets(&later), RULE, run, place)?;
        }
    }
    Ok(())
}
