//! The tables of a catalogue as rows of document 000's tables, and SQL asked of SQLite's command, or, where it is timed in lists, of the library.

use crate::catalogue::Second;
use crate::runs::{self, SIZES};
use crate::timed::time;
use rusqlite::types::Value;
use rusqlite::{params_from_iter, Connection};
use second::paths::path;
use second::types::Type;
use second::{Words, ABSENT};
use std::fmt::Write as _;
use std::hint::black_box;
use std::process::{Command, Stdio};
use std::time::Duration;

/// Document 000's own definitions.
pub const SCHEMA: &str = include_str!("../published/schema.sql");

/// Indexes that document 000 does not have, on what its queries and the statements of an insert look for.
pub const INDEXES: &str = "CREATE INDEX of_schema ON ducklake_table (schema_id);
CREATE INDEX of_name ON ducklake_table (table_name);
CREATE INDEX of_columns ON ducklake_column (table_id);
CREATE INDEX of_data_files ON ducklake_data_file (table_id);
CREATE INDEX of_delete_files ON ducklake_delete_file (data_file_id);
CREATE INDEX of_file_statistics ON ducklake_file_column_stats (table_id, column_id);
CREATE INDEX of_table_statistics ON ducklake_table_stats (table_id);
CREATE INDEX of_column_statistics ON ducklake_table_column_stats (table_id, column_id);
CREATE INDEX of_times ON ducklake_snapshot (snapshot_time, snapshot_id);
ANALYZE;
";

/// A number of the tables; ABSENT, which only an end reads as, is NULL.
fn number(word: u64) -> String {
    if word == ABSENT {
        "NULL".to_string()
    } else {
        word.to_string()
    }
}

/// The published name of a type.
fn type_name(code: u64) -> &'static str {
    match Type::from_code(code) {
        Some(Type::Int8) => "int8",
        Some(Type::Int16) => "int16",
        Some(Type::Int32) => "int32",
        Some(Type::Int64) => "int64",
        Some(Type::Uint8) => "uint8",
        Some(Type::Uint16) => "uint16",
        Some(Type::Uint32) => "uint32",
        Some(Type::Boolean) => "boolean",
        None => "",
    }
}

/// A bound as the published text, or NULL.
fn bound(given: u64, word: u64) -> String {
    if given == 1 {
        format!("'{}'", word as i64)
    } else {
        "NULL".to_string()
    }
}

/// The statements that write the used records. Times are numbers of microseconds; what the catalogue does not hold is NULL.
pub fn rows(words: &Words, counts: &second::Counts) -> String {
    let used = runs::counts(counts);
    let records = |run: usize| runs::word_runs(words)[run].chunks_exact(SIZES[run]).take(used[run] as usize);
    let name = |names: &[u8], at: usize| {
        let place = names.chunks_exact(32).nth(at).unwrap_or(&[]);
        place.iter().take_while(|byte| **byte != 0).map(|byte| char::from(*byte)).collect::<String>()
    };
    let mut sql = String::from("BEGIN;\n");
    for record in records(runs::SNAPSHOTS) {
        let _ = writeln!(sql, "INSERT INTO ducklake_snapshot VALUES ({}, {}, {}, {}, {});", record[0], record[1], record[2], record[3], record[4]);
    }
    for (at, record) in records(runs::SCHEMAS).enumerate() {
        let (end, name) = (number(record[2]), name(&words.schema_names, at));
        let _ = writeln!(sql, "INSERT INTO ducklake_schema VALUES ({}, NULL, {}, {end}, '{name}', NULL, NULL);", record[0], record[1]);
    }
    for (at, record) in records(runs::TABLES).enumerate() {
        let (end, name) = (number(record[2]), name(&words.table_names, at));
        let _ = writeln!(sql, "INSERT INTO ducklake_table VALUES ({}, NULL, {}, {end}, {}, '{name}', NULL, NULL);", record[0], record[1], record[3]);
        let _ = writeln!(sql, "INSERT INTO ducklake_table_stats VALUES ({}, NULL, {}, NULL);", record[0], record[4]);
    }
    for (at, record) in records(runs::COLUMNS).enumerate() {
        let (end, name) = (number(record[3]), name(&words.column_names, at));
        let (id, table, begin, order, nulls) = (record[0], record[1], record[2], record[4], record[6]);
        let kind = type_name(record[5]);
        let _ = writeln!(
            sql,
            "INSERT INTO ducklake_column VALUES ({id}, {begin}, {end}, {table}, {order}, '{name}', '{kind}', NULL, NULL, {nulls}, NULL);"
        );
    }
    for record in records(runs::DATA_FILES) {
        let (end, path) = (number(record[3]), path((record[6], record[7])));
        let (id, table, begin, count, first) = (record[0], record[1], record[2], record[4], record[5]);
        let _ = writeln!(
            sql,
            "INSERT INTO ducklake_data_file VALUES ({id}, {table}, {begin}, {end}, {id}, '{path}', 1, 'parquet', {count}, NULL, NULL, {first}, NULL, NULL, NULL, NULL);"
        );
    }
    for record in records(runs::DELETE_FILES) {
        let (end, path) = (number(record[3]), path((record[6], record[7])));
        let (id, table, begin, file, count) = (record[0], record[1], record[2], record[4], record[5]);
        let _ = writeln!(
            sql,
            "INSERT INTO ducklake_delete_file VALUES ({id}, {table}, {begin}, {end}, {file}, '{path}', 1, 'parquet', {count}, NULL, NULL, NULL);"
        );
    }
    for record in records(runs::STATISTICS) {
        let (min, max) = (bound(record[3], record[5]), bound(record[4], record[6]));
        let table = format!("(SELECT table_id FROM ducklake_data_file WHERE data_file_id = {})", record[0]);
        let _ = writeln!(
            sql,
            "INSERT INTO ducklake_file_column_stats VALUES ({}, {table}, {}, NULL, NULL, {}, {min}, {max}, NULL, NULL);",
            record[0], record[1], record[2]
        );
    }
    for record in records(runs::SCHEDULED) {
        let path = path((record[1], record[2]));
        let _ = writeln!(sql, "INSERT INTO ducklake_files_scheduled_for_deletion VALUES ({}, '{path}', 1, {});", record[0], record[3]);
    }
    sql + "COMMIT;\n"
}

/// Every table empty again.
pub fn emptied() -> String {
    let tables = SCHEMA.lines().filter_map(|line| line.strip_prefix("CREATE TABLE ")?.split(' ').next());
    tables.map(|table| format!("DELETE FROM {table};\n")).collect()
}

/// Runs SQL in a database of its own and gives what SQLite prints.
pub fn run(sql: &str) -> Result<String, String> {
    let file = std::env::temp_dir().join(format!("differ-{}.sql", std::process::id()));
    std::fs::write(&file, sql).map_err(|e| format!("{}: {e}", file.display()))?;
    let mut command = Command::new("sqlite3");
    command.args(["-batch", "-bail", "-noheader", "-list", "-separator", " ", "-nullvalue", "NULL", ":memory:"]);
    let output = command.arg(format!(".read {}", file.display())).stdin(Stdio::null()).output();
    let _ = std::fs::remove_file(&file);
    let output = output.map_err(|e| format!("sqlite3: {e}"))?;
    match output.status.success() && output.stderr.is_empty() {
        true => String::from_utf8(output.stdout).map_err(|e| e.to_string()),
        false => Err(format!("sqlite3: {}", String::from_utf8_lossy(&output.stderr))),
    }
}

/// The tables of a catalogue in a database of its own in memory, asked by statements that are prepared once.
pub struct Prepared(Connection);

/// A prepared statement.
pub struct Statement<'a>(rusqlite::Statement<'a>);

/// Values by place.
pub type Values = Vec<Value>;

impl Prepared {
    /// With what the export has beside the rows: of each snapshot its change, of each column what is known over its files.
    pub fn new(tables: &Second, indexes: &str) -> Result<Prepared, String> {
        let more = "BEGIN;\n\
            INSERT INTO ducklake_snapshot_changes (snapshot_id, changes_made) SELECT snapshot_id, 'inserted_into_table:' || snapshot_id FROM ducklake_snapshot;\n\
            INSERT INTO ducklake_table_column_stats SELECT table_id, column_id, max(null_count > 0), false, min(CAST(min_value AS BIGINT)), \
            max(CAST(max_value AS BIGINT)), NULL FROM ducklake_file_column_stats GROUP BY table_id, column_id;\n\
            COMMIT;\n";
        let connection = Connection::open_in_memory().map_err(said)?;
        connection.execute_batch(&format!("{SCHEMA}{}{more}{indexes}", rows(&tables.words, &tables.counts))).map_err(said)?;
        Ok(Prepared(connection))
    }

    /// The time of what is asked of a statement, without that of preparing it.
    pub fn timed(&self, sql: &str, ask: impl FnOnce(&mut Statement)) -> Result<Duration, String> {
        let mut statement = Statement(self.0.prepare(sql).map_err(said)?);
        Ok(time(|| ask(&mut statement)))
    }

    /// The time of one transaction: of these statements all, by turns with the values of each.
    pub fn transaction(&self, statements: &(Vec<&str>, Vec<Vec<Values>>)) -> Result<Duration, String> {
        let mut prepared = statements.0.iter().map(|sql| self.0.prepare(sql)).collect::<Result<Vec<_>, _>>().map_err(said)?;
        let mut done = Ok(());
        let took = time(|| done = self.all(&mut prepared, &statements.1));
        done.map(|()| took).map_err(said)
    }

    fn all(&self, prepared: &mut [rusqlite::Statement], calls: &[Vec<Values>]) -> rusqlite::Result<()> {
        self.0.execute_batch("BEGIN")?;
        for call in calls {
            for (statement, values) in prepared.iter_mut().zip(call) {
                statement.execute(params_from_iter(values))?;
            }
        }
        self.0.execute_batch("COMMIT")
    }

    /// Of each data file the id and its first row.
    pub fn first_rows(&self) -> Result<Vec<(i64, i64)>, String> {
        let mut statement = self.0.prepare("SELECT data_file_id, row_id_start FROM ducklake_data_file ORDER BY data_file_id").map_err(said)?;
        let rows = statement.query_map([], |row| Ok((row.get(0)?, row.get(1)?))).map_err(said)?;
        rows.collect::<Result<_, _>>().map_err(said)
    }
}

impl Statement<'_> {
    /// Reads every value of every row, and gives how many rows there are.
    pub fn rows(&mut self, values: &Values) -> Result<usize, String> {
        let columns = self.0.column_count();
        let mut rows = self.0.query(params_from_iter(values)).map_err(said)?;
        let mut count = 0;
        while let Some(row) = rows.next().map_err(said)? {
            for column in 0..columns {
                black_box(row.get_ref(column).map_err(said)?);
            }
            count += 1;
        }
        Ok(count)
    }
}

fn said(error: rusqlite::Error) -> String {
    format!("SQLite: {error}")
}
