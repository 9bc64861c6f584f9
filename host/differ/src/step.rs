//! A call or a reading, and the line that writes it.

pub use second::Step;
use second::{Call, Reading};

/// The name of a call, as include/gukoremo.h has it without `catalog_`.
pub fn name(step: &Step) -> &'static str {
    match step {
        Step::Call(Call::Fresh { .. }) => "fresh",
        Step::Call(Call::CreateSchema { .. }) => "create_schema",
        Step::Call(Call::DropSchema { .. }) => "drop_schema",
        Step::Call(Call::CreateTable { .. }) => "create_table",
        Step::Call(Call::DropTable { .. }) => "drop_table",
        Step::Call(Call::Insert { .. }) => "insert",
        Step::Call(Call::Delete { .. }) => "delete",
        Step::Call(Call::Expire { .. }) => "expire",
        Step::Call(Call::Cleanup { .. }) => "cleanup",
        Step::Reading(Reading::Schemas { .. }) => "list_schemas",
        Step::Reading(Reading::Tables { .. }) => "list_tables",
        Step::Reading(Reading::Columns { .. }) => "list_columns",
        Step::Reading(Reading::TableByName { .. }) => "table_by_name",
        Step::Reading(Reading::Files { .. }) => "list_files",
        Step::Reading(Reading::FilteredFiles { .. }) => "list_filtered_files",
        Step::Reading(Reading::Rows { .. }) => "list_rows",
        Step::Reading(Reading::ByTime { .. }) => "snapshot_by_time",
        Step::Reading(Reading::FindFile { .. }) => "copy_file",
    }
}

/// An argument: a word, a list of words, the bytes of a name, or those of name places.
#[derive(Clone, Debug, PartialEq, Eq)]
pub enum Argument {
    Word(u64),
    Words(Vec<u64>),
    Name(Vec<u8>),
    Places(Vec<u8>),
}

use Argument::{Name, Places, Word, Words};

/// The arguments in the order of the compiled call.
pub fn arguments(step: &Step) -> Vec<Argument> {
    match step.clone() {
        Step::Call(call) => match call {
            Call::Fresh { time } => vec![Word(time)],
            Call::CreateSchema { time, name } => vec![Word(time), Name(name)],
            Call::DropSchema { time, schema } => vec![Word(time), Word(schema)],
            Call::CreateTable { time, schema, name, columns, column_names } => {
                vec![Word(time), Word(schema), Name(name), Words(columns), Places(column_names)]
            }
            Call::DropTable { time, table } => vec![Word(time), Word(table)],
            Call::Insert { time, table, record_count, uuid, statistics } => {
                vec![Word(time), Word(table), Word(record_count), Word(uuid.0), Word(uuid.1), Words(statistics)]
            }
            Call::Delete { time, data_file, uuid, positions } => vec![Word(time), Word(data_file), Word(uuid.0), Word(uuid.1), Words(positions)],
            Call::Expire { ids, time } => vec![Words(ids), Word(time)],
            Call::Cleanup { t } => vec![Word(t)],
        },
        Step::Reading(reading) => match reading {
            Reading::Schemas { snapshot } => vec![Word(snapshot)],
            Reading::Tables { snapshot, schema } => vec![Word(snapshot), Word(schema)],
            Reading::Columns { snapshot, table } | Reading::Files { snapshot, table } | Reading::Rows { snapshot, table } => {
                vec![Word(snapshot), Word(table)]
            }
            Reading::TableByName { snapshot, schema, name } => vec![Word(snapshot), Word(schema), Name(name)],
            Reading::FilteredFiles { snapshot, table, column, scalar } => vec![Word(snapshot), Word(table), Word(column), Word(scalar as u64)],
            Reading::ByTime { t } => vec![Word(t)],
            Reading::FindFile { id } => vec![Word(id)],
        },
    }
}

/// Which argument of a call is a name.
pub fn place_of_name(call: &str) -> Option<usize> {
    match call {
        "create_schema" => Some(1),
        "create_table" | "table_by_name" => Some(2),
        _ => None,
    }
}

/// The step of a name with these arguments; none where they are not of its sorts.
pub fn of(name: &str, arguments: Vec<Argument>) -> Option<Step> {
    let mut rest = arguments.into_iter();
    let mut given = Given(&mut rest);
    let step = match name {
        "fresh" => Step::Call(Call::Fresh { time: given.word()? }),
        "create_schema" => Step::Call(Call::CreateSchema { time: given.word()?, name: given.name()? }),
        "drop_schema" => Step::Call(Call::DropSchema { time: given.word()?, schema: given.word()? }),
        "create_table" => Step::Call(Call::CreateTable {
            time: given.word()?,
            schema: given.word()?,
            name: given.name()?,
            columns: given.words()?,
            column_names: given.places()?,
        }),
        "drop_table" => Step::Call(Call::DropTable { time: given.word()?, table: given.word()? }),
        "insert" => Step::Call(Call::Insert {
            time: given.word()?,
            table: given.word()?,
            record_count: given.word()?,
            uuid: (given.word()?, given.word()?),
            statistics: given.words()?,
        }),
        "delete" => Step::Call(Call::Delete {
            time: given.word()?,
            data_file: given.word()?,
            uuid: (given.word()?, given.word()?),
            positions: given.words()?,
        }),
        "expire" => Step::Call(Call::Expire { ids: given.words()?, time: given.word()? }),
        "cleanup" => Step::Call(Call::Cleanup { t: given.word()? }),
        "list_schemas" => Step::Reading(Reading::Schemas { snapshot: given.word()? }),
        "list_tables" => Step::Reading(Reading::Tables { snapshot: given.word()?, schema: given.word()? }),
        "list_columns" => Step::Reading(Reading::Columns { snapshot: given.word()?, table: given.word()? }),
        "table_by_name" => Step::Reading(Reading::TableByName { snapshot: given.word()?, schema: given.word()?, name: given.name()? }),
        "list_files" => Step::Reading(Reading::Files { snapshot: given.word()?, table: given.word()? }),
        "list_filtered_files" => Step::Reading(Reading::FilteredFiles {
            snapshot: given.word()?,
            table: given.word()?,
            column: given.word()?,
            scalar: given.word()? as i64,
        }),
        "list_rows" => Step::Reading(Reading::Rows { snapshot: given.word()?, table: given.word()? }),
        "snapshot_by_time" => Step::Reading(Reading::ByTime { t: given.word()? }),
        "copy_file" => Step::Reading(Reading::FindFile { id: given.word()? }),
        _ => return None,
    };
    rest.next().is_none().then_some(step)
}

/// Arguments taken one after another, each as its sort.
struct Given<'a>(&'a mut std::vec::IntoIter<Argument>);

impl Given<'_> {
    fn word(&mut self) -> Option<u64> {
        match self.0.next()? {
            Word(word) => Some(word),
            _ => None,
        }
    }

    fn words(&mut self) -> Option<Vec<u64>> {
        match self.0.next()? {
            Words(words) => Some(words),
            _ => None,
        }
    }

    fn name(&mut self) -> Option<Vec<u8>> {
        match self.0.next()? {
            Name(name) => Some(name),
            _ => None,
        }
    }

    fn places(&mut self) -> Option<Vec<u8>> {
        match self.0.next()? {
            Places(places) => Some(places),
            _ => None,
        }
    }
}
