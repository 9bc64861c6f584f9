//! Statistics of a new file: `price=9..14 nulls=1` is the column `price`, lowest value 9, highest 14, one null. A bound that is left out is missing:
//! `price=..`.

use super::names::{self, Reference};
use gukoremo::{Column, NewStatistics};

#[derive(Clone, Debug, PartialEq, Eq)]
pub struct Statistics {
    pub column: Reference,
    pub min: Option<i64>,
    pub max: Option<i64>,
    pub nulls: u64,
}

/// The words of a list; `nulls=N` belongs to the column before it. A column that is itself named `nulls` has two points in its value.
pub fn parse_all<'a>(texts: impl Iterator<Item = &'a str>) -> Result<Vec<Statistics>, String> {
    let mut all: Vec<Statistics> = Vec::new();
    for word in texts.flat_map(str::split_whitespace) {
        let (name, value) = word.split_once('=').ok_or_else(|| wrong(word))?;
        match (value.split_once(".."), all.last_mut()) {
            (Some((min, max)), _) => all.push(Statistics { column: names::parse(name)?, min: bound(min)?, max: bound(max)?, nulls: 0 }),
            (None, Some(last)) if name == "nulls" => last.nulls = super::numbers::number(value)?,
            (None, None) if name == "nulls" => return Err("nulls=N stands after the column that it is of, such as price=9..14 nulls=1".to_string()),
            (None, _) => return Err(wrong(word)),
        }
    }
    Ok(all)
}

fn wrong(word: &str) -> String {
    format!("'{word}' is no statistics of a column, such as price=9..14 or price=.. where bounds are missing, nor nulls=N after one")
}

fn bound(text: &str) -> Result<Option<i64>, String> {
    match text {
        "" => Ok(None),
        _ => text.parse().map(Some).map_err(|_| format!("'{text}' is no number of 64 bits with a sign")),
    }
}

/// The first rule that the statistics of a new file break, with the column: "one for each live column by ascending id", and what 'Sound tables' asks of each. The
/// columns are the table's, with their names; `given` is in the order of the column ids.
pub fn broken_rule(columns: &[Column], rows: u64, given: &[NewStatistics]) -> Option<String> {
    if let Some(other) = given.iter().find(|one| columns.iter().all(|column| column.id != one.column)) {
        return Some(format!("the table has no column {}", other.column));
    }
    columns.iter().find_map(|column| {
        let name = &column.name;
        let mut of_column = given.iter().filter(|one| one.column == column.id);
        match (of_column.next(), of_column.next()) {
            (None, _) => Some(format!("column {name} has no statistics")),
            (_, Some(_)) => Some(format!("column {name} has statistics twice")),
            (Some(one), None) => broken_in(column, rows, one).map(|why| format!("column {name}: {why}")),
        }
    })
}

/// "null_count ≤ record_count, and 0 where nulls aren't allowed. If all rows are null, min and max are missing; else either may be missing. Given values lie in the
/// type's range, min ≤ max."
fn broken_in(column: &Column, rows: u64, one: &NewStatistics) -> Option<String> {
    let nulls = one.null_count;
    if nulls > rows {
        return Some(format!("nulls={nulls} is above the rows of the file, {rows}"));
    }
    if nulls > 0 && !column.nulls_allowed {
        return Some(format!("nulls={nulls}, where nulls are not allowed"));
    }
    if nulls == rows && (one.min.is_some() || one.max.is_some()) {
        return Some("all rows are null, so that it has no lowest and no highest value".to_string());
    }
    let range = column.column_type.range();
    if let Some(value) = [one.min, one.max].into_iter().flatten().find(|value| !range.contains(value)) {
        return Some(format!("{value} is not in {}, which is {} to {}", column.column_type, range.start(), range.end()));
    }
    let above = one.min.zip(one.max).filter(|(min, max)| min > max);
    above.map(|(min, max)| format!("the lowest value, {min}, is above the highest, {max}"))
}

#[cfg(test)]
mod tests {
    use super::parse_all;

    #[test]
    fn forms() {
        let read = parse_all(["item=1..3", "price=-9.. nulls=1", "nulls=..", "nulls=2"].into_iter()).expect("statistics");
        let seen: Vec<_> = read.iter().map(|one| (one.column.to_string(), one.min, one.max, one.nulls)).collect();
        assert_eq!(seen, [("item".to_string(), Some(1), Some(3), 0), ("price".to_string(), Some(-9), None, 1), ("nulls".to_string(), None, None, 2)]);
        for bad in ["price", "price=9", "price=a..b", "nulls=0", "price=1..2..3", "price=99999999999999999999.."] {
            assert!(parse_all([bad].into_iter()).is_err(), "{bad}");
        }
    }
}
