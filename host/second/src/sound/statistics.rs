//! What a data file's columns have (10), and how many columns a table has (11).

use crate::catalog::Catalog;
use crate::lent::{Run, COLUMN_LIMIT};
use crate::records::{ColumnId, DataFile, Statistics};
use crate::sound::draft::Values;
use crate::sound::{want, Unsound};

/// The values of statistics: flags are "0 or 1", bounds "0 where the flag is 0".
pub fn read(catalog: &mut Catalog, values: Values) -> Result<(), Unsound> {
    for (place, (key, words)) in values.into_iter().enumerate() {
        let read = Statistics::from_words(words).ok_or(Unsound::at(10, Run::Statistics, place))?;
        catalog.statistics.insert(key, read);
    }
    Ok(())
}

/// 10: "each data file has one statistics record for each column live at its begin, and no other."
/// The rules of a record's values are `Statistics::suit`.
pub fn cover(catalog: &Catalog) -> Result<(), Unsound> {
    for (place, ((file, column), statistics)) in catalog.statistics.iter().enumerate() {
        let data_file = catalog.data_files.get(file);
        let suits = data_file.is_some_and(|data_file| {
            let column = catalog.columns.get(&(data_file.table, *column));
            let wanted = column.filter(|column| column.life.is_live_at(data_file.life.begin));
            wanted.is_some_and(|column| statistics.suit(column, data_file.record_count))
        });
        want(suits, 10, Run::Statistics, place)?;
    }
    for (place, (id, file)) in catalog.data_files.iter().enumerate() {
        let has = |column: ColumnId| catalog.statistics.contains_key(&(*id, column));
        want(columns_at_begin(catalog, file).all(has), 10, Run::DataFiles, place)?;
    }
    Ok(())
}

fn columns_at_begin<'a>(
    catalog: &'a Catalog,
    file: &DataFile,
) -> impl Iterator<Item = ColumnId> + 'a {
    catalog.columns_at(file.life.begin, file.table).map(|(id, _)| id)
}

/// 11: "A table has 1 to 16 live columns at each retained snapshot where it lives."
pub fn column_counts(catalog: &Catalog) -> Result<(), Unsound> {
    for (place, (id, table)) in catalog.tables.iter().enumerate() {
        let lives: Vec<_> = catalog.columns_of(*id).map(|(_, column)| column.life).collect();
        let from_begin = catalog.snapshots.range(table.life.begin..).map(|(id, _)| *id);
        for snapshot in from_begin.take_while(|snapshot| table.life.is_live_at(*snapshot)) {
            let live = lives.iter().filter(|life| life.is_live_at(snapshot)).count();
            want((1..=COLUMN_LIMIT).contains(&live), 11, Run::Tables, place)?;
        }
    }
    Ok(())
}
