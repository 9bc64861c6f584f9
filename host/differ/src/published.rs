//! Document 000's queries on SQLite, beside the compiled readings of the same tables.
//!
//! Where document 01 decides otherwise (the last table of docs/PAPER-MAP.md) the comparison says so: each such point is a `Decided`, and is counted.

use crate::catalogue::Catalogue;
use crate::moves;
use crate::play::Pair;
use crate::player;
use crate::sqlite::{self, Values};
use crate::step::Step;
use rusqlite::types::Value;
use second::dice::Dice;
use second::paths::path;
use second::records::Table;
use second::{load, Call, Catalog, Reading, ABSENT};
use std::collections::BTreeMap;

/// "Get Current Snapshot".
const CURRENT: &str = "SELECT snapshot_id FROM ducklake_snapshot WHERE snapshot_id = (SELECT max(snapshot_id) FROM ducklake_snapshot);";

/// "List Schemas": the text of document 000 has lost this query; it is the condition of "List Tables" on the table of schemas.
const SCHEMAS: &str =
    "SELECT schema_id FROM ducklake_schema WHERE <SNAPSHOT_ID> >= begin_snapshot AND (<SNAPSHOT_ID> < end_snapshot OR end_snapshot IS NULL);";

/// "List Tables".
const TABLES: &str = "SELECT table_id, table_name FROM ducklake_table WHERE schema_id = <SCHEMA_ID> AND \
    <SNAPSHOT_ID> >= begin_snapshot AND (<SNAPSHOT_ID> < end_snapshot OR end_snapshot IS NULL);";

/// The same of one name: document 01's reading of a table by its name.
const NAMED: &str = "SELECT table_id, table_name FROM ducklake_table WHERE table_name = <TABLE_NAME> AND schema_id = <SCHEMA_ID> AND \
    <SNAPSHOT_ID> >= begin_snapshot AND (<SNAPSHOT_ID> < end_snapshot OR end_snapshot IS NULL);";

/// "Show the Structure of a Table".
const COLUMNS: &str = "SELECT column_id, column_name, column_type FROM ducklake_column WHERE table_id = <TABLE_ID> AND parent_column IS NULL AND \
    <SNAPSHOT_ID> >= begin_snapshot AND (<SNAPSHOT_ID> < end_snapshot OR end_snapshot IS NULL) ORDER BY column_order;";

/// "SELECT": the text of document 000 has lost this query; it says "We need to join the list of data files with the list of delete files (if any)" and names
/// the columns data_file_path and delete_file_path.
const FILES: &str = "SELECT data.path AS data_file_path, del.path AS delete_file_path FROM ducklake_data_file AS data \
    LEFT JOIN (SELECT * FROM ducklake_delete_file WHERE <SNAPSHOT_ID> >= begin_snapshot AND (<SNAPSHOT_ID> < end_snapshot OR end_snapshot IS NULL)) AS del \
    USING (data_file_id) WHERE data.table_id = <TABLE_ID> AND \
    <SNAPSHOT_ID> >= data.begin_snapshot AND (<SNAPSHOT_ID> < data.end_snapshot OR data.end_snapshot IS NULL) ORDER BY file_order;";

/// "SELECT with File Pruning". "The minimum and maximum values for each column are stored as strings and need to be cast".
const PRUNED: &str = "SELECT data_file_id FROM ducklake_file_column_stats WHERE table_id = <TABLE_ID> AND column_id = <COLUMN_ID> AND \
    (<SCALAR> >= CAST(min_value AS BIGINT) OR min_value IS NULL) AND (<SCALAR> <= CAST(max_value AS BIGINT) OR max_value IS NULL);";

/// "Time Travel": the page has no query for the metadata; this is document 01's sentence.
const BY_TIME: &str = "SELECT max(snapshot_id) FROM ducklake_snapshot WHERE snapshot_time <= <TIME>;";

/// Where document 01 decides what the published query leaves open.
#[derive(Clone, Copy, PartialEq, Eq, PartialOrd, Ord)]
pub enum Decided {
    SnapshotNotRetained,
    NothingLive,
    PrunedAndListed,
    NoSnapshotByThen,
}

impl Decided {
    fn says(self) -> &'static str {
        match self {
            Decided::SnapshotNotRetained => "5 at a snapshot that is not retained, of which the query knows nothing",
            Decided::NothingLive => "6 where the schema, table or column is not live, and the query gives no rows",
            Decided::PrunedAndListed => "a pruned file that is not listed at the snapshot: the query asks the statistics alone, and the reader joins",
            Decided::NoSnapshotByThen => "7 where no snapshot is so old, and the query gives no row",
        }
    }
}

/// A query with its places, and what stands in each.
type Asked = (&'static str, Vec<(&'static str, Value)>);

/// The query that a reading condenses; none for rows and for the lookup, of which document 000 has none.
fn asked(reading: &Reading) -> Option<Asked> {
    let number = |word: &u64| Value::Integer(i64::try_from(*word).unwrap_or(i64::MAX));
    let at = |snapshot| ("<SNAPSHOT_ID>", number(snapshot));
    let of = |table| ("<TABLE_ID>", number(table));
    let within = |schema| ("<SCHEMA_ID>", number(schema));
    Some(match reading {
        Reading::Schemas { snapshot } => (SCHEMAS, vec![at(snapshot)]),
        Reading::Tables { snapshot, schema } => (TABLES, vec![at(snapshot), within(schema)]),
        Reading::Columns { snapshot, table } => (COLUMNS, vec![at(snapshot), of(table)]),
        Reading::TableByName { snapshot, schema, name } => {
            let name = Value::Text(String::from_utf8_lossy(name).into_owned());
            (NAMED, vec![at(snapshot), within(schema), ("<TABLE_NAME>", name)])
        }
        Reading::Files { snapshot, table } => (FILES, vec![at(snapshot), of(table)]),
        Reading::FilteredFiles { table, column, scalar, .. } => {
            (PRUNED, vec![of(table), ("<COLUMN_ID>", number(column)), ("<SCALAR>", Value::Integer(*scalar))])
        }
        Reading::ByTime { t: ABSENT } => (CURRENT, vec![]),
        Reading::ByTime { t } => (BY_TIME, vec![("<TIME>", number(t))]),
        Reading::Rows { .. } | Reading::FindFile { .. } => return None,
    })
}

/// The query as text.
pub fn query(reading: &Reading) -> Option<String> {
    let (query, values) = asked(reading)?;
    Some(values.iter().fold(query.to_string(), |query, (place, value)| query.replace(place, &value_text(value))))
}

/// The query to be prepared, the same for all readings of a kind, and the values by place.
pub fn prepared(reading: &Reading) -> Option<(String, Values)> {
    let (query, values) = asked(reading)?;
    let query = values.iter().enumerate().fold(query.to_string(), |query, (i, (place, _))| query.replace(place, &format!("?{}", i + 1)));
    Some((query, values.into_iter().map(|(_, value)| value).collect()))
}

/// What an insert writes, by "Snapshot Creation" and "INSERT": the columns that the export fills, and bounds compared as numbers.
const INSERT: [&str; 6] = [
    "INSERT INTO ducklake_snapshot VALUES (?, ?, ?, ?, ?)",
    "INSERT INTO ducklake_snapshot_changes (snapshot_id, changes_made) VALUES (?, ?)",
    "INSERT INTO ducklake_data_file (data_file_id, table_id, begin_snapshot, end_snapshot, file_order, path, path_is_relative, file_format, record_count, \
     row_id_start) VALUES (?1, ?2, ?3, NULL, ?1, ?4, true, 'parquet', ?5, ?6)",
    "UPDATE ducklake_table_stats SET record_count = record_count + ?2, next_row_id = next_row_id + ?2 WHERE table_id = ?1",
    "UPDATE ducklake_table_column_stats SET contains_null = contains_null OR ?3 > 0, contains_nan = contains_nan, \
     min_value = min(CAST(min_value AS BIGINT), ?4), max_value = max(CAST(max_value AS BIGINT), ?5) WHERE table_id = ?1 AND column_id = ?2",
    "INSERT INTO ducklake_file_column_stats (data_file_id, table_id, column_id, value_count, null_count, min_value, max_value, contains_nan) \
     VALUES (?, ?, ?, ?, ?, ?, ?, false)",
];

/// The statements of inserts with statistics of one column, and for each insert the values of each. What the client has to know, ids and first rows, it has
/// counted before.
pub fn insert_statements(catalog: &Catalog, steps: &[Step]) -> (Vec<&'static str>, Vec<Vec<Values>>) {
    let (mut snapshot, latest) = catalog.latest();
    let mut file = latest.next_file_id;
    let mut rows: BTreeMap<u64, u64> = catalog.tables.iter().map(|(id, table)| (*id, table.next_row_id)).collect();
    let mut calls = Vec::new();
    for step in steps {
        let Step::Call(Call::Insert { time, table, record_count, uuid, statistics }) = step else { continue };
        let [column, nulls, _, _, min, max] = statistics[..] else { continue };
        let first = rows.entry(*table).or_default();
        snapshot += 1;
        let numbers = |words: &[u64]| words.iter().map(|word| Value::Integer(*word as i64)).collect::<Values>();
        let text = |text: String| vec![Value::Text(text)];
        calls.push(vec![
            numbers(&[snapshot, *time, latest.schema_version, latest.next_catalog_id, file + 1]),
            [numbers(&[snapshot]), text(format!("inserted_into_table:{table}"))].concat(),
            [numbers(&[file, *table, snapshot]), text(path(*uuid)), numbers(&[*record_count, *first])].concat(),
            numbers(&[*table, *record_count]),
            numbers(&[*table, column, nulls, min, max]),
            [numbers(&[file, *table, column, *record_count, nulls]), text(min.to_string()), text(max.to_string())].concat(),
        ]);
        *first += record_count;
        file += 1;
    }
    (INSERT.to_vec(), calls)
}

/// A reading with its query.
struct Question {
    reading: Reading,
    query: String,
}

/// Queries and readings compared, and the points where document 01 decides.
#[derive(Default)]
struct Compared {
    queries: u64,
    decided: BTreeMap<Decided, u64>,
}

/// So many random catalogues.
pub fn run(count: &str) -> Result<String, String> {
    let count: u64 = count.parse().map_err(|_| format!("no count: {count}"))?;
    let mut states = Vec::new();
    for seed in 0..count {
        let calls = 20 + 3 * (seed as usize % 30);
        let (pair, _) = player::play_alone(&moves::list_of(90_000 + seed, calls))?;
        states.push((pair, Dice(seed)));
    }
    let mut sql = sqlite::SCHEMA.to_string();
    let mut asked = Vec::new();
    for (pair, dice) in &mut states {
        let Ok(catalog) = load(&pair.second.words, &pair.second.counts) else { continue };
        if catalog.latest().1.time > i64::MAX as u64 {
            continue;
        }
        let questions = questions(&catalog, dice);
        sql += &sqlite::emptied();
        sql += &sqlite::rows(&pair.second.words, &pair.second.counts);
        for question in &questions {
            sql += &format!("SELECT '?';\n{}\n", question.query);
        }
        asked.push((pair.clone(), catalog, questions));
    }
    let said = sqlite::run(&sql)?;
    let mut answers = said.split("?\n").skip(1);
    let mut compared = Compared::default();
    for (mut pair, catalog, questions) in asked {
        for question in questions {
            let answer = answers.next().ok_or("SQLite gave fewer answers than there were queries")?;
            compared.queries += 1;
            compared.compare(&mut pair, &catalog, &question, answer).map_err(|how| format!("{:?}\n{}\n{how}", question.reading, question.query))?;
        }
    }
    let decided = compared.decided.iter().map(|(point, count)| format!("\n  {count} times {}", point.says())).collect::<String>();
    match compared.queries {
        0 => Err("no query was asked".to_string()),
        queries => {
            Ok(format!("document 01 decides:{decided}\npublished: {queries} queries of document 000 on SQLite agree with the compiled readings"))
        }
    }
}

/// The current snapshot, times, and readings of every sort at some retained snapshots and at one that may not be.
fn questions(catalog: &Catalog, dice: &mut Dice) -> Vec<Question> {
    let latest = catalog.latest_id();
    let mut readings = vec![Reading::ByTime { t: ABSENT }];
    for snapshot in catalog.snapshots.values() {
        readings.extend([snapshot.time.saturating_sub(1), snapshot.time, snapshot.time + 1].map(|t| Reading::ByTime { t }));
    }
    let mut snapshots: Vec<u64> = catalog.snapshots.keys().copied().filter(|_| dice.one_in(4)).chain([latest]).collect();
    if dice.one_in(4) {
        snapshots.push(dice.below(latest + 2));
    }
    for snapshot in snapshots {
        at_snapshot(catalog, dice, snapshot, &mut readings);
    }
    readings.into_iter().filter_map(|reading| query(&reading).map(|query| Question { reading, query })).collect()
}

fn at_snapshot(catalog: &Catalog, dice: &mut Dice, snapshot: u64, readings: &mut Vec<Reading>) {
    readings.push(Reading::Schemas { snapshot });
    readings.extend(catalog.schemas.keys().copied().chain([77]).map(|schema| Reading::Tables { snapshot, schema }));
    for (id, record) in &catalog.tables {
        let table = *id;
        let name = name(record);
        readings.extend([Reading::Columns { snapshot, table }, Reading::Files { snapshot, table }]);
        readings.push(Reading::TableByName { snapshot, schema: record.schema, name });
        for (column, _) in catalog.columns_of(table) {
            let scalar = [-129, -128, -1, 0, 1, 2, 127, 255, 300, 65_535, i64::MIN, i64::MAX][dice.index(12)];
            readings.push(Reading::FilteredFiles { snapshot, table, column, scalar });
        }
    }
}

/// SQLite reads the lowest number as a real one unless it is computed.
fn value_text(value: &Value) -> String {
    match value {
        Value::Integer(i64::MIN) => format!("({} - 1)", i64::MIN + 1),
        Value::Integer(number) => format!("({number})"),
        Value::Text(text) => format!("'{text}'"),
        _ => "NULL".to_string(),
    }
}

/// A table's name without the zeros behind it.
pub fn name(table: &Table) -> Vec<u8> {
    table.name.place().into_iter().take_while(|byte| *byte != 0).collect()
}

impl Compared {
    fn decide(&mut self, point: Decided) {
        *self.decided.entry(point).or_default() += 1;
    }

    /// The query's rows beside the reading's answer.
    fn compare(&mut self, pair: &mut Pair, catalog: &Catalog, question: &Question, answer: &str) -> Result<(), String> {
        let mut area = vec![0; 10_000];
        let outcome = pair.proved.read(&question.reading, &mut area);
        let rows: Vec<&str> = answer.lines().collect();
        match outcome.number {
            0 => return self.accepted(pair, catalog, &question.reading, &area[..outcome.length], &rows),
            5 => self.decide(Decided::SnapshotNotRetained),
            // A column that is not live at the snapshot may have statistics; a table then has no files there either.
            6 if rows.is_empty() || matches!(question.reading, Reading::FilteredFiles { .. }) => self.decide(Decided::NothingLive),
            7 if rows == ["NULL"] => self.decide(Decided::NoSnapshotByThen),
            number => return Err(format!("refused with {number}, and the query gives {rows:?}")),
        }
        Ok(())
    }

    fn accepted(&mut self, pair: &mut Pair, catalog: &Catalog, reading: &Reading, answer: &[u64], rows: &[&str]) -> Result<(), String> {
        let ids: Vec<u64> = rows.iter().filter_map(|row| row.split(' ').next()?.parse().ok()).collect();
        let same = match reading {
            Reading::Files { .. } => rows.iter().map(|row| row.to_string()).eq(answer.as_chunks::<2>().0.iter().map(|file| paths(catalog, file))),
            Reading::FilteredFiles { snapshot, table, .. } => {
                let mut area = vec![0; 10_000];
                let listed = pair.proved.read(&Reading::Files { snapshot: *snapshot, table: *table }, &mut area);
                let listed: Vec<[u64; 2]> = area[..listed.length].as_chunks::<2>().0.to_vec();
                let joined: Vec<u64> = listed.iter().filter(|file| ids.contains(&file[0])).flatten().copied().collect();
                if ids.len() * 2 != joined.len() {
                    self.decide(Decided::PrunedAndListed);
                }
                joined == answer
            }
            _ => ids == answer,
        };
        match same {
            true => Ok(()),
            false => Err(format!("the reading gives {answer:?}, the query {rows:?}")),
        }
    }
}

/// The paths of a listed file, as the published query gives them.
fn paths(catalog: &Catalog, [data_file, delete_file]: &[u64; 2]) -> String {
    let data_path = catalog.data_files.get(data_file).map_or(String::new(), |file| path(file.uuid));
    let delete_path = catalog.delete_files.get(delete_file).map_or("NULL".to_string(), |file| path(file.uuid));
    format!("{data_path} {delete_path}")
}
