//! The columns of a table by choices: a few mostly, else as many as there may be, and one more.

use crate::choices::one_in;
use proptest::collection::vec;
use proptest::prelude::*;
use second::diary::name_places;
use second::lent::COLUMN_LIMIT;

#[derive(Clone, Debug)]
pub struct Columns {
    /// Type and whether nulls are allowed.
    columns: Vec<(u64, u64)>,
    /// Bytes before the number in a name, up to all that have room.
    length: usize,
    has_name_twice: bool,
}

fn column() -> impl Strategy<Value = (u64, u64)> {
    (prop_oneof![120 => 1..=8_u64, 1 => Just(9), 1 => Just(0)], 0..2_u64)
}

pub fn columns() -> impl Strategy<Value = Columns> {
    let few = vec(column(), 1..=3);
    let columns = prop_oneof![6 => few, 1 => vec(column(), 4..=6), 1 => vec(column(), COLUMN_LIMIT - 1..=COLUMN_LIMIT + 1)];
    let length = prop_oneof![6 => Just(1_usize), 1 => Just(10), 1 => Just(30)];
    (columns, length, one_in(24)).prop_map(|(columns, length, has_name_twice)| Columns { columns, length, has_name_twice })
}

impl Columns {
    pub fn two() -> Columns {
        Columns { columns: vec![(4, 0), (3, 1)], length: 1, has_name_twice: false }
    }

    pub fn words(&self) -> Vec<u64> {
        self.columns.iter().flat_map(|(kind, nulls)| [*kind, *nulls]).collect()
    }

    pub fn names(&self) -> Vec<u8> {
        let mut names: Vec<String> = (0..self.columns.len()).map(|at| format!("{}{at}", "c".repeat(self.length))).collect();
        if self.has_name_twice {
            names[0] = names[names.len() - 1].clone();
        }
        name_places(&names.iter().map(String::as_str).collect::<Vec<&str>>())
    }
}
