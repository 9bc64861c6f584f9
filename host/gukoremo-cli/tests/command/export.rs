//! The published queries, on what `export` writes, give the lists that the calls give: at every retained snapshot of random catalogues.

use crate::support::{answer, bytes, diary, gukoremo, text, Chance, Folder};
use gukoremo::{Catalog, CatalogId, ColumnType, FileId, NewColumn, NewStatistics, OwnedTables, SnapshotId, Uuid};
use gukoremo_cli::file::Lake;
use gukoremo_cli::runs;
use rusqlite::types::Value;
use rusqlite::{params, Connection, Row};

/// Document 000, 'List Schemas'; its text is lost in the page's break and is the one of 'List Tables' without the schema.
const SCHEMAS: &str =
    "SELECT schema_id, schema_name FROM ducklake_schema WHERE ?1 >= begin_snapshot AND (?1 < end_snapshot OR end_snapshot IS NULL) \
    ORDER BY schema_id";
const TABLES: &str = "SELECT table_id, table_name FROM ducklake_table WHERE schema_id = ?2 AND ?1 >= begin_snapshot AND \
    (?1 < end_snapshot OR end_snapshot IS NULL) ORDER BY table_id";
const COLUMNS: &str = "SELECT column_id, column_name, column_type FROM ducklake_column WHERE table_id = ?2 AND parent_column IS NULL AND \
    ?1 >= begin_snapshot AND (?1 < end_snapshot OR end_snapshot IS NULL) ORDER BY column_order";
/// 'SELECT': data files joined with their delete files. Its text too is lost, and is put together from what stands around it.
const FILES: &str = "SELECT data.path AS data_file_path, del.path AS delete_file_path FROM ducklake_data_file AS data LEFT JOIN \
    (SELECT * FROM ducklake_delete_file WHERE ?1 >= begin_snapshot AND (?1 < end_snapshot OR end_snapshot IS NULL)) AS del USING (data_file_id) \
    WHERE data.table_id = ?2 AND ?1 >= data.begin_snapshot AND (?1 < data.end_snapshot OR data.end_snapshot IS NULL) ORDER BY file_order";
/// 'SELECT with File Pruning', with the cast that it asks for.
const PRUNED: &str = "SELECT data_file_id FROM ducklake_file_column_stats WHERE table_id = ?1 AND column_id = ?2 AND \
    (?3 >= CAST(min_value AS BIGINT) OR min_value IS NULL) AND (?3 <= CAST(max_value AS BIGINT) OR max_value IS NULL)";

/// A catalogue of random changes, refused ones among them.
fn random(chance: &mut Chance) -> Lake {
    let mut lake = Catalog::fresh(OwnedTables::with_room(runs::room(200)), 100).expect("room");
    for step in 0..80 {
        let (time, uuid) = (110 + step, Uuid { high: 5, low: step });
        let table = CatalogId(1 + chance.below(6));
        let _ = match chance.below(12) {
            0 => lake.create_schema(time, format!("s{}", chance.below(4))).map(|_| ()),
            1 | 2 => {
                let column = |name| NewColumn { name, column_type: ColumnType::Int32, nulls_allowed: true };
                lake.create_table(time, CatalogId(chance.below(3)), format!("t{}", chance.below(5)), &[column("item"), column("price")]).map(|_| ())
            }
            3..=6 => {
                let low = chance.below(40) as i64 - 20;
                let bound = |chance: &mut Chance, value| (chance.below(4) > 0).then_some(value);
                let statistics = [
                    NewStatistics { column: 1, null_count: chance.below(3), min: bound(chance, low), max: bound(chance, low + 10) },
                    NewStatistics { column: 2, null_count: 0, min: bound(chance, low), max: bound(chance, low + 2) },
                ];
                lake.insert(time, table, 6, uuid, &statistics).map(|_| ())
            }
            7..=9 => lake.delete(time, FileId(chance.below(30)), uuid, &[chance.below(6)]).map(|_| ()),
            10 => lake.drop_table(time, table).map(|_| ()),
            _ => lake.expire(&[SnapshotId(chance.below(step + 1))], time),
        };
    }
    lake
}

/// A storage with the catalogue's files: a size and a path each. Which folder a scheduled file is in, the catalogue does not know.
fn storage(lake: &Lake) -> String {
    let folder = |id: CatalogId| {
        let table = lake.records().table(id).expect("on record");
        format!("{}/{}", lake.records().schema(table.schema).expect("on record").name, table.name)
    };
    let data = lake.records().data_files().map(|file| (file.id, folder(file.table), file.uuid));
    let delete = lake.records().delete_files().map(|file| (file.id, folder(file.table), file.uuid));
    let scheduled = lake.records().scheduled().map(|file| (file.file, "main/gone".to_string(), file.uuid));
    let files = data.chain(delete).chain(scheduled);
    files.map(|(id, folder, uuid)| format!("{} {folder}/{}\n", 1000 + id.0, uuid.path())).collect()
}

fn rows<Item>(from: &Connection, query: &str, given: impl rusqlite::Params, item: impl FnMut(&Row<'_>) -> rusqlite::Result<Item>) -> Vec<Item> {
    let mut statement = from.prepare(query).expect("a query");
    let rows = statement.query_map(given, item).expect("rows");
    rows.collect::<rusqlite::Result<_>>().expect("rows")
}

#[test]
fn published_queries_give_the_same_lists() {
    let folder = Folder::new("export");
    let (mut compared, mut checked) = (0, 0);
    for seed in 0..6 {
        let lake = random(&mut Chance::new(50 + seed));
        let (path, out) = (folder.path(&format!("{seed}.lake")), folder.path(&format!("{seed}.sqlite")));
        let (tables, counts) = lake.into_parts();
        std::fs::write(&path, bytes(Catalog::resume(tables.clone(), counts))).expect("written");
        let lake = Catalog::resume(tables, counts);
        let list = folder.path(&format!("{seed}.list"));
        std::fs::write(&list, storage(&lake)).expect("written");
        answer(&["export", text(&path), text(&out), "--data-path", "s3://shop/", "--storage", text(&list)]);
        let from = Connection::open(&out).expect("SQLite");
        let names = rows(&from, "SELECT count(*) FROM sqlite_master WHERE type = 'table'", [], |row| row.get::<_, i64>(0));
        assert_eq!(names, [22], "\"DuckLake 0.3 uses 22 tables\"");
        assert_eq!(rows(&from, "SELECT value FROM ducklake_metadata WHERE key = 'data_path'", [], |row| row.get::<_, String>(0)), ["s3://shop/"]);
        checked += columns_as_published(&from);
        for snapshot in lake.records().snapshots() {
            compared += compare(&lake, &from, snapshot.id);
        }
        assert_eq!(
            rows(&from, "SELECT max(snapshot_id) FROM ducklake_snapshot", [], |row| row.get::<_, u64>(0)),
            [lake.records().latest().expect("one").id.0]
        );
        let scheduled: Vec<u64> = lake.records().scheduled().map(|file| file.file.0).collect();
        assert_eq!(
            rows(&from, "SELECT data_file_id FROM ducklake_files_scheduled_for_deletion ORDER BY rowid", [], |row| row.get::<_, u64>(0)),
            scheduled
        );
    }
    println!("{compared} lists by the published queries are those of the calls");
    assert!(compared > 1_000, "{compared} lists compared");
    assert!(checked > 1_000, "{checked} values checked");
}

/// Every list of a snapshot; how many there were.
fn compare(lake: &Lake, from: &Connection, at: SnapshotId) -> usize {
    let mut compared = 1;
    let schemas: Vec<u64> = lake.list_schemas(at).expect("retained").iter().map(|id| id.0).collect();
    assert_eq!(rows(from, SCHEMAS, [at.0], |row| row.get::<_, u64>(0)), schemas);
    for schema in schemas {
        let tables = lake.list_tables(at, CatalogId(schema)).expect("live");
        let found = rows(from, TABLES, [at.0, schema], |row| Ok((row.get::<_, u64>(0)?, row.get::<_, String>(1)?)));
        assert_eq!(found.iter().map(|(id, _)| CatalogId(*id)).collect::<Vec<_>>(), tables);
        for (id, name) in found {
            assert_eq!(lake.table_by_name(at, CatalogId(schema), &name), Ok(CatalogId(id)));
            compared += 1 + compare_table(lake, from, at, id);
        }
    }
    compared
}

fn compare_table(lake: &Lake, from: &Connection, at: SnapshotId, id: u64) -> usize {
    let table = CatalogId(id);
    let columns = rows(from, COLUMNS, [at.0, id], |row| row.get::<_, u64>(0));
    assert_eq!(columns, lake.list_columns(at, table).expect("live"));
    let path = |file: FileId| lake.find_file(file).expect("on record").uuid().path();
    let listed = lake.list_files(at, table).expect("live");
    let paths: Vec<(String, Option<String>)> = listed.iter().map(|pair| (path(pair.data_file), pair.delete_file.map(path))).collect();
    assert_eq!(rows(from, FILES, [at.0, id], |row| Ok((row.get(0)?, row.get(1)?))), paths);
    for (column, scalar) in [(1, -15), (1, 3), (2, 9), (2, 1000)] {
        let kept: Vec<u64> = rows(from, PRUNED, params![id, column, scalar], |row| row.get(0));
        let filtered = lake.list_filtered_files(at, table, column, scalar).expect("live");
        // the query is of all files of the table; those at the snapshot are kept of the list
        let expected: Vec<_> = listed.iter().filter(|pair| kept.contains(&pair.data_file.0)).copied().collect();
        assert_eq!(filtered, expected);
    }
    6
}

/// A path of document 000, 'Paths': below the one of its parent where it is relative.
const RESOLVED: &str = "SELECT iif(t.path_is_relative, iif(s.path_is_relative, (SELECT value FROM ducklake_metadata WHERE key = 'data_path'), '') || s.path, '') \
    || t.path || f.path FROM ducklake_table t JOIN ducklake_schema s USING (schema_id) JOIN FILES f USING (table_id) WHERE f.path_is_relative ORDER BY 1";
/// "The file name is either relative to the data_path value in ducklake_metadata or absolute."
const SCHEDULED: &str = "SELECT iif(path_is_relative, (SELECT value FROM ducklake_metadata WHERE key = 'data_path'), '') || path \
    FROM ducklake_files_scheduled_for_deletion ORDER BY 1";

/// The diary's files lie in a folder; one is scheduled. Each row of the export is one of them, and each of them is a row.
#[test]
fn rows_resolve_to_the_files_that_are_there() {
    let folder = Folder::new("storage");
    let (path, out, list) = (folder.path("s.lake"), folder.path("s.sqlite"), folder.path("s.list"));
    diary(&path);
    let name = |number: usize| format!("ducklake-00000000-0000-0000-0000-00000000000{number}.parquet");
    let lake = gukoremo_cli::file::read(&path).expect("a catalogue");
    let mut there: Vec<String> = Vec::new();
    for (at, line) in storage(&lake).lines().enumerate() {
        let file = folder.path(&format!("data/{}", line.split_once(' ').expect("a size").1));
        std::fs::create_dir_all(file.parent().expect("a folder")).expect("made");
        std::fs::write(&file, vec![0; 10 + at]).expect("written");
        there.push(text(&file).to_string());
    }
    // the expiry is the last to know the table
    assert_eq!(answer(&["expire", text(&path), "4", "--time", "160"]), format!("expired 4; files scheduled: 2\n  2  main/diary/{}\n", name(3)));
    let said = answer(&["scheduled", text(&path)]);
    assert!(said.contains("path_in_table") && said.contains("does not name its table"), "{said}");
    assert!(answer(&["lookup", text(&path), "3"]).contains(&format!("path          main/diary/{}\n", name(4))));

    let data_path = format!("{}/", text(&folder.path("data")));
    let output = gukoremo(&["export", text(&path), text(&out), "--data-path", &data_path]);
    assert_eq!(output.status.code(), Some(64));
    assert!(String::from_utf8_lossy(&output.stderr).contains(&format!("In which folder {} lies is not known", name(3))));
    assert!(!out.exists());
    let listed = |files: &[String]| {
        let line = |file: &String| format!("{} {}\n", std::fs::metadata(file).expect("there").len(), &file[data_path.len()..]);
        std::fs::write(&list, files.iter().map(line).collect::<String>()).expect("written");
    };
    let export = ["export", text(&path), text(&out), "--data-path", &data_path, "--storage", text(&list)];
    there.sort();
    let without: Vec<String> = there.iter().filter(|file| !file.ends_with(&name(3))).cloned().collect();
    listed(&without);
    assert_eq!(gukoremo(&export).status.code(), Some(65));
    listed(&there);
    answer(&export);
    let from = Connection::open(&out).expect("SQLite");
    let mut found = rows(&from, SCHEDULED, [], |row| row.get::<_, String>(0));
    assert_eq!(found.len(), 1);
    for files in ["ducklake_data_file", "ducklake_delete_file"] {
        found.extend(rows(&from, &RESOLVED.replace("FILES", files), [], |row| row.get::<_, String>(0)));
    }
    found.sort();
    assert_eq!(found, there);
    assert_eq!(answer(&["cleanup", text(&path), "--before", "161", "--csv"]), format!("file,path_in_table\n2,{}\n", name(3)));
}

/// Document 000, 'Full Schema Creation Script'.
const STATEMENTS: &str = include_str!("../../../differ/published/schema.sql");

/// Where document 000 lets a value be NULL, and why there is none here.
const MAY_BE_NULL: [(&str, &str); 18] = [
    ("scope", "\"or NULL for the Global scope\""),
    ("scope_id", "\"or NULL for the Global scope\""),
    ("author", "shown as NULL where none is set"),
    ("commit_message", "shown as NULL where none is set"),
    ("commit_extra_info", "shown as NULL where none is set"),
    ("end_snapshot", "\"If end_snapshot is NULL, ... is currently valid\""),
    ("parent_column", "\"This is NULL for top-level and non-nested columns\""),
    ("initial_default", "\"Can be NULL\""),
    ("default_value", "\"Can be NULL\""),
    ("footer_size", "\"This is an optimization\", and not known"),
    ("column_size_bytes", "\"it can safely be set to NULL\""),
    ("min_value", "\"OR min_value IS NULL\""),
    ("max_value", "\"OR max_value IS NULL\""),
    ("extra_stats", "\"specific types such as Geometry types\""),
    ("partition_id", "no partitions"),
    ("encryption_key", "\"if encryption is enabled\""),
    ("partial_file_info", "\"used when snapshots refer to parts of a file\""),
    ("mapping_id", "no name mapping"),
];

/// Every column of every table is declared as published, and every value is of its type, and NULL only where it may be; how many values there were.
fn columns_as_published(from: &Connection) -> usize {
    let mut checked = 0;
    let statements: Vec<&str> = STATEMENTS.lines().filter_map(|line| line.strip_prefix("CREATE TABLE ")).collect();
    assert_eq!(statements.len(), 22);
    for statement in statements {
        let (table, columns) = statement.trim_end_matches(");").split_once(" (").expect("columns");
        let declared = rows(from, &format!("PRAGMA table_info({table})"), [], |row| {
            let constraint = if row.get("pk")? {
                " PRIMARY KEY"
            } else if row.get("notnull")? {
                " NOT NULL"
            } else {
                ""
            };
            Ok(format!("{} {}{constraint}", row.get::<_, String>("name")?, row.get::<_, String>("type")?))
        });
        assert_eq!(declared.join(", "), columns, "{table}");
        for column in declared {
            let mut words = column.split(' ');
            let (name, kind) = (words.next().expect("a name"), words.next().expect("a type"));
            for value in rows(from, &format!("SELECT {name} FROM {table}"), [], |row| row.get::<_, Value>(0)) {
                checked += 1;
                let is_fine = match (kind, &value) {
                    (_, Value::Null) => {
                        MAY_BE_NULL.iter().any(|(known, _)| *known == name) && !column.ends_with("NOT NULL") && !column.ends_with("KEY")
                    }
                    ("BIGINT", Value::Integer(_)) | ("VARCHAR", Value::Text(_)) => true,
                    ("BOOLEAN", Value::Integer(flag)) => *flag == 0 || *flag == 1,
                    ("UUID", Value::Text(text)) => gukoremo_cli::values::uuids::parse(text).is_ok(),
                    ("TIMESTAMPTZ", Value::Text(text)) => {
                        let time = text.strip_suffix("+00").map(|utc| format!("{}Z", utc.replace(' ', "T")));
                        time.is_some_and(|time| gukoremo_cli::values::times::parse(&time).is_ok())
                    }
                    _ => false,
                };
                assert!(is_fine, "{table}.{column}: {value:?}");
            }
        }
    }
    checked
}

/// Sizes are the storage's, a table's the sum of its data files'. A file of nulls alone, wherever it stands, has no part in a table's bounds.
#[test]
fn sizes_and_bounds_of_a_table() {
    let folder = Folder::new("bounds");
    let (path, list) = (folder.path("b.lake"), folder.path("b.list"));
    answer(&["init", text(&path), "--records", "64"]);
    answer(&["create-table", text(&path), "main.t", "a:int64?", "b:int64?", "c:int64?", "d:int64?"]);
    let insert = |statistics: &[&str]| answer(&[&["insert", text(&path), "--table", "main.t", "--rows", "2"], statistics].concat());
    insert(&["a=.. nulls=2", "b=5..6", "c=.. nulls=2", "d=..4"]);
    insert(&["a=-7..9", "b=.. nulls=2", "c=.. nulls=2", "d=1..3"]);
    insert(&["a=-8..3", "b=1..5", "c=.. nulls=2", "d=0..9 nulls=1"]);
    answer(&["delete", text(&path), "--file", "1", "--positions", "0"]);
    let lake = gukoremo_cli::file::read(&path).expect("a catalogue");
    std::fs::write(&list, storage(&lake)).expect("written");
    let export = |out: &str, more: &[&str]| {
        let out = folder.path(out);
        let said = answer(&[&["export", text(&path), text(&out)], more].concat());
        (Connection::open(&out).expect("SQLite"), said)
    };
    let (from, said) = export("b.sqlite", &["--storage", text(&list)]);
    assert!(said.ends_with(" is a DuckLake 0.3 catalogue in SQLite.\n"), "{said}");
    let text_of = |row: &Row<'_>, at: usize| row.get::<_, Option<String>>(at).map(|text| text.unwrap_or("none".to_string()));
    let bounds = rows(&from, "SELECT min_value, max_value, contains_null FROM ducklake_table_column_stats ORDER BY column_id", [], |row| {
        Ok(format!("{}..{} {}", text_of(row, 0)?, text_of(row, 1)?, row.get::<_, bool>(2)?))
    });
    assert_eq!(bounds, ["-8..9 true", "1..6 true", "none..none true", "none..9 true"]);
    let sizes = |table: &str| rows(&from, &format!("SELECT file_size_bytes FROM {table} ORDER BY rowid"), [], |row| row.get::<_, Option<i64>>(0));
    assert_eq!(sizes("ducklake_data_file"), [Some(1000), Some(1001), Some(1002)]);
    assert_eq!(sizes("ducklake_delete_file"), [Some(1003)]);
    assert_eq!(sizes("ducklake_table_stats"), [Some(3003)]);
    assert!(columns_as_published(&from) > 100);

    // not given, they are not made up
    let (from, said) = export("c.sqlite", &[]);
    assert!(said.contains("without the sizes of files, which --storage gives"), "{said}");
    let known = "SELECT count(file_size_bytes) FROM ";
    for table in ["ducklake_data_file", "ducklake_delete_file", "ducklake_table_stats"] {
        assert_eq!(rows(&from, &format!("{known}{table}"), [], |row| row.get::<_, i64>(0)), [0]);
    }
}
