//! Batches: each change comes to what the call itself does on what the one before left, up to the first refusal; and all of them are on the disk or none.

use crate::support::{answer, bytes, diary, gukoremo, large, text, Chance, Folder, COMMAND};
use gukoremo::{CatalogId, ColumnType, FileId, NewColumn, NewStatistics, Refusal, SnapshotId, Uuid};
use gukoremo_cli::file::{self, Lake};
use std::io::Write;
use std::path::Path;
use std::process::{Command, Output, Stdio};

/// The command with a batch on its standard input.
fn apply(path: &Path, batch: &str, more: &[&str]) -> Output {
    let mut command = Command::new(COMMAND);
    command.args(["apply", text(path), "-"]).args(more).stdin(Stdio::piped()).stdout(Stdio::piped()).stderr(Stdio::piped());
    let mut child = command.spawn().expect("the command runs");
    child.stdin.take().expect("a pipe").write_all(batch.as_bytes()).expect("read");
    let output = child.wait_with_output().expect("ends");
    assert!(output.status.code().is_some_and(|code| code != 101), "{batch}: {}", String::from_utf8_lossy(&output.stderr));
    output
}

/// A change of a random batch.
enum Change {
    CreateSchema(&'static str),
    DropSchema(&'static str),
    /// With the column `p` first or second.
    CreateTable(&'static str, &'static str, bool),
    DropTable(&'static str, &'static str),
    Insert(&'static str, &'static str),
    Delete(FileId, Vec<u64>),
    Expire(Vec<u64>),
    Cleanup,
}

/// A line of a random batch: a change with its time, and the low word of a new file's UUID.
struct Line {
    change: Change,
    time: u64,
    low: u64,
}

/// Few names and files, so that most changes find what they are about; times fall and UUIDs come again now and then.
fn random(chance: &mut Chance, step: u64) -> Line {
    let (schema, table) = (chance.pick(&["main", "main", "books"]), chance.pick(&["x", "y"]));
    let change = match chance.below(24) {
        0 | 1 => Change::CreateSchema(chance.pick(&["books", "wall"])),
        2 => Change::DropSchema(chance.pick(&["books", "wall"])),
        3..=6 => Change::CreateTable(schema, table, chance.below(2) == 0),
        7 => Change::DropTable(schema, table),
        8..=16 => Change::Insert(schema, table),
        17..=20 => Change::Delete(FileId(chance.below(5)), vec![chance.below(6)]),
        21 | 22 => Change::Expire(vec![chance.below(10)]),
        _ => Change::Cleanup,
    };
    Line { change, time: if chance.below(60) == 0 { 90 } else { 200 + step }, low: if chance.below(60) == 0 { 1 } else { 1000 + step } }
}

impl Line {
    /// As the command takes it.
    fn words(&self) -> String {
        let (time, uuid) = (self.time, format!("00000000-0000-0005-0000-{:012x}", self.low));
        match &self.change {
            Change::CreateSchema(name) => format!("create-schema {name} --time {time}"),
            Change::DropSchema(name) => format!("drop-schema --time {time} --schema '{name}'"),
            Change::CreateTable(schema, name, true) => format!("create-table {schema}.{name} 'p:int64?' q:int8 --time {time}"),
            Change::CreateTable(schema, name, false) => format!("create-table {schema}.{name} q:int8 p:int64\\? --time {time} # q first"),
            Change::DropTable(schema, name) => format!("drop-table --table {schema}.{name} --time {time}"),
            Change::Insert(schema, name) => {
                format!("insert --table {schema}.{name} --rows 6 p=1..9 \"nulls=2\" q=-3.. --uuid {uuid} --time {time}")
            }
            Change::Delete(file, positions) => format!("delete --file {} --positions {} --uuid {uuid} --time {time}", file.0, list(positions)),
            Change::Expire(snapshots) => format!("expire {} --time {time}", list(snapshots)),
            Change::Cleanup => format!("cleanup --before {time}"),
        }
    }

    /// The call itself, its names found by readings; and what the command's answer in JSON must hold.
    fn play(&self, lake: &mut Lake) -> Result<String, Refusal> {
        let (time, uuid) = (self.time, Uuid { high: 5, low: self.low });
        let (snapshot, made) = match &self.change {
            Change::CreateSchema(name) => {
                let made = lake.create_schema(time, name)?;
                (made.snapshot, format!("\"schema\": {}", made.schema))
            }
            Change::DropSchema(name) => {
                let id = schema_id(lake, name)?;
                (lake.drop_schema(time, id)?, format!("\"schema\": {id}"))
            }
            Change::CreateTable(schema, name, is_first) => {
                let p = NewColumn { name: "p", column_type: ColumnType::Int64, nulls_allowed: true };
                let q = NewColumn { name: "q", column_type: ColumnType::Int8, nulls_allowed: false };
                let made = lake.create_table(time, schema_id(lake, schema)?, name, &if *is_first { [p, q] } else { [q, p] })?;
                (made.snapshot, format!("\"table\": {}", made.table))
            }
            Change::DropTable(schema, name) => {
                let id = table_id(lake, schema, name)?;
                (lake.drop_table(time, id)?, format!("\"table\": {id}"))
            }
            Change::Insert(schema, name) => {
                let table = table_id(lake, schema, name)?;
                let p = NewStatistics { column: column_id(lake, table, "p")?, null_count: 2, min: Some(1), max: Some(9) };
                let q = NewStatistics { column: column_id(lake, table, "q")?, null_count: 0, min: Some(-3), max: None };
                let made = lake.insert(time, table, 6, uuid, &if p.column < q.column { [p, q] } else { [q, p] })?;
                (made.snapshot, format!("\"table\": {table}, \"file\": {}", made.data_file))
            }
            Change::Delete(file, positions) => {
                let made = lake.delete(time, *file, uuid, positions)?;
                (made.snapshot, format!("\"table\": {}, \"file\": {}", made.snapshot.change.object(), made.delete_file))
            }
            Change::Expire(snapshots) => {
                let before: Vec<u64> = lake.records().scheduled().map(|one| one.file.0).collect();
                lake.expire(&snapshots.iter().copied().map(SnapshotId).collect::<Vec<SnapshotId>>(), time)?;
                let new = lake.records().scheduled().map(|one| one.file.0).filter(|file| !before.contains(file));
                return Ok(format!("\"scheduled\": [{}]", files(new)));
            }
            Change::Cleanup => return Ok(format!("\"files\": [{}]", files(lake.cleanup(time)?.into_iter().map(|one| one.file.0)))),
        };
        Ok(format!("\"snapshot\": {}, \"time\": {time}, {made}", snapshot.id))
    }
}

fn list(numbers: &[u64]) -> String {
    numbers.iter().map(u64::to_string).collect::<Vec<String>>().join(",")
}

fn files(ids: impl Iterator<Item = u64>) -> String {
    let mut ids: Vec<u64> = ids.collect();
    ids.sort_unstable();
    ids.iter().map(|id| format!("{{\"file\": {id}}}")).collect::<Vec<String>>().join(", ")
}

/// An answer without the paths of files.
fn without_paths(said: &str) -> String {
    said.split(", \"path")
        .enumerate()
        .map(|(at, part)| if at == 0 { part } else { part.split_once('}').map_or("", |(_, rest)| rest) })
        .collect::<Vec<&str>>()
        .join("}")
}

fn latest(lake: &Lake) -> SnapshotId {
    lake.records().latest().expect("a snapshot").id
}

fn schema_id(lake: &Lake, name: &str) -> Result<CatalogId, Refusal> {
    let listed = lake.list_schemas(latest(lake))?;
    let found = lake.records().schemas().find(|one| one.name == name && listed.contains(&one.id));
    found.map(|one| one.id).ok_or(Refusal::NotLive)
}

fn table_id(lake: &Lake, schema: &str, name: &str) -> Result<CatalogId, Refusal> {
    lake.table_by_name(latest(lake), schema_id(lake, schema)?, name)
}

fn column_id(lake: &Lake, table: CatalogId, name: &str) -> Result<u64, Refusal> {
    let listed = lake.list_columns(latest(lake), table)?;
    let found = lake.records().columns_of(table).find(|one| one.name == name && listed.contains(&one.id));
    found.map(|one| one.id).ok_or(Refusal::NotLive)
}

/// The first of these up to a refusal are made, or with `--atomic` none; the file is byte for byte what the calls make of it.
#[test]
fn batches_are_their_calls_up_to_the_first_refusal() {
    let folder = Folder::new("batches");
    let path = folder.path("b.lake");
    diary(&path);
    let start = std::fs::read(&path).expect("there");
    let mut chance = Chance::new(11);
    let (mut made, mut whole, mut refused, mut longest) = (0, 0, std::collections::BTreeSet::new(), 0);
    for round in 0..400 {
        std::fs::write(&path, &start).expect("written");
        let mut lake = file::read(&path).expect("a catalogue");
        let (mut batch, mut expected, mut refusal) = (String::new(), Vec::new(), None);
        for step in 0..chance.below(60) {
            let line = random(&mut chance, step);
            match line.play(&mut lake) {
                Ok(said) => expected.push(said),
                // most of those that would end the batch are left out
                Err(_) if chance.below(20) > 0 => continue,
                Err(why) => refusal = Some(why.number()),
            }
            batch += &format!("{}\n", line.words());
            if refusal.is_some() {
                break;
            }
        }
        // what stands below a refusal is not made
        batch += if refusal.is_some() { "create-schema below\ncleanup\n" } else { "" };
        let code = refusal.map_or(0, |number| 200 + number as i32);
        let atomic = apply(&path, &batch, &["--atomic", "--json"]);
        let after = bytes(lake);
        assert_eq!(atomic.status.code(), Some(code), "round {round}:\n{batch}{}", String::from_utf8_lossy(&atomic.stderr));
        assert!(
            std::fs::read(&path).expect("there") == if refusal.is_some() { start.clone() } else { after.clone() },
            "round {round}, atomic:\n{batch}"
        );
        std::fs::write(&path, &start).expect("written");
        let output = apply(&path, &batch, &["--json"]);
        let (said, why) = (String::from_utf8_lossy(&output.stdout).into_owned(), String::from_utf8_lossy(&output.stderr).into_owned());
        assert_eq!(output.status.code(), Some(code), "round {round}:\n{batch}{why}");
        assert!(std::fs::read(&path).expect("there") == after, "round {round}:\n{batch}");
        let records: Vec<&str> = said.lines().filter(|line| line.starts_with("  {")).collect();
        assert_eq!(records.len(), expected.len(), "round {round}:\n{batch}{said}");
        for (at, (record, expected)) in records.iter().zip(&expected).enumerate() {
            let record = without_paths(record);
            assert!(
                record.starts_with(&format!("  {{\"line\": {},", at + 1)) && record.contains(expected.as_str()),
                "round {round}: {record}, {expected}"
            );
        }
        if let Some(number) = refusal {
            assert!(why.contains(&format!("line {}: refused with {number}: ", expected.len() + 1)), "round {round}: {why}");
            refused.insert(number);
        }
        (made, whole, longest) = (made + expected.len(), whole + u64::from(refusal.is_none()), longest.max(expected.len()));
    }
    println!("batches: 400 with {made} changes, {whole} of them whole, the longest of {longest}; refusals {refused:?}");
    assert!(made > 2000 && whole > 50 && longest > 25 && refused.len() >= 6, "{made} {whole} {longest} {refused:?}");
}

/// What is not understood is found before anything is done.
#[test]
fn a_line_that_is_no_change() {
    let folder = Folder::new("lines");
    let path = folder.path("l.lake");
    diary(&path);
    let before = std::fs::read(&path).expect("there");
    for (line, word) in [
        ("open main.diary", "'open' is no change"),
        ("init", "'init' is no change"),
        ("insert --rows 3", "--table <SCHEMA.NAME>"),
        ("insert --table 'diary --rows 3", "stands open"),
        ("insert --table diary \\", "stands open"),
        ("insert --table diary --rows 3 price", "'price' is no statistics"),
        ("insert --table diary --rows -3", "'-3' is no number of rows"),
        ("create-schema books --time 9126-11-16T09:30:00Z", "ahead of the clock"),
        ("create-schema books wall", "'wall'"),
        ("create-schema books --csv", "'--csv'"),
        ("create-schema books --help", "'--help'"),
    ] {
        let output = apply(&path, &format!("# first\n\ncreate-schema first\n{line}\n"), &[]);
        let said = String::from_utf8_lossy(&output.stderr);
        assert_eq!(output.status.code(), Some(65), "{line}: {said}");
        assert!(said.contains("line 4: ") && said.contains(word) && said.contains("No change was made."), "{line}: {said}");
        assert_eq!(std::fs::read(&path).expect("there"), before, "{line}");
    }
    assert_eq!(gukoremo(&["apply", text(&path), text(&folder.path("none"))]).status.code(), Some(66));
    std::fs::write(folder.path("latin"), b"create-schema b\xfccher").expect("written");
    assert_eq!(gukoremo(&["apply", text(&path), text(&folder.path("latin"))]).status.code(), Some(65));
    // nothing to do is done
    assert!(apply(&path, "\n# nothing\n", &[]).status.success());
    assert_eq!(std::fs::read(&path).expect("there"), before);
}

/// As each change says it alone, in the order of the lines.
#[test]
fn a_batch_says_what_its_changes_say() {
    let folder = Folder::new("said");
    let (one, other) = (folder.path("one.lake"), folder.path("other.lake"));
    diary(&one);
    std::fs::copy(&one, &other).expect("copied");
    let lines = [
        "create-schema books --time 160",
        "create-table books.x a:int8 --time 161",
        "insert --table books.x --rows 2 a=1..2 --uuid 00000000-0000-0000-0000-00000000000b --time 162",
        "delete --file 4 --positions 1 --uuid 00000000-0000-0000-0000-00000000000c --time 163",
        "expire 3..4 --time 164",
        "cleanup --before 165",
        "drop-table --table books.x --time 166",
        "drop-schema --schema books --time 167",
    ];
    let alone: String = lines
        .iter()
        .map(|line| {
            let words: Vec<&str> = line.split(' ').collect();
            answer(&[&words[..1], &[text(&one)], &words[1..]].concat())
        })
        .collect();
    std::fs::write(folder.path("batch"), lines.join("\n")).expect("written");
    assert_eq!(answer(&["apply", text(&other), text(&folder.path("batch"))]), alone);
    assert!(alone.contains("expired 3..4; files scheduled: 2\n  2  main/diary/ducklake-"), "{alone}");
    assert_eq!(std::fs::read(&one).expect("there"), std::fs::read(&other).expect("there"));
}

/// With an output that is closed a batch that hands files out is not made, and another is, and says so.
#[test]
fn a_batch_whose_answer_is_not_read() {
    let folder = Folder::new("unread");
    let (path, batch) = (folder.path("u.lake"), folder.path("batch"));
    diary(&path);
    answer(&["expire", text(&path), "4", "--time", "160"]);
    let before = std::fs::read(&path).expect("there");
    let unread = |lines: &str| {
        std::fs::write(&batch, lines).expect("written");
        let script = "exec \"$0\" \"$@\" >/dev/full";
        Command::new("sh").args(["-c", script, COMMAND, "apply", text(&path), text(&batch)]).output().expect("runs")
    };
    let output = unread("create-schema books --time 170\ncleanup --before 171\n");
    assert_eq!(output.status.code(), Some(74), "{}", String::from_utf8_lossy(&output.stderr));
    assert_eq!(std::fs::read(&path).expect("there"), before);
    let output = unread("create-schema books --time 170\ncreate-schema books --time 171\n");
    let said = String::from_utf8_lossy(&output.stderr);
    assert_eq!(output.status.code(), Some(3), "{said}");
    assert!(said.contains("The change before it was made.") && said.contains("line 2: refused with 10"), "{said}");
    assert!(answer(&["schemas", text(&path), "--csv"]).contains("books"));
}

/// Tables that are not sound are refused at the first line, whatever it names.
#[test]
fn a_batch_on_tables_that_are_not_sound() {
    let folder = Folder::new("unsound");
    let path = folder.path("u.lake");
    let (mut tables, counts) = large(3).into_parts();
    tables.snapshots[0] = 9;
    let damaged = gukoremo_cli::format::encode(&tables, counts);
    std::fs::write(&path, &damaged).expect("written");
    for line in ["create-schema books", "drop-table --table none.none", "expire 0", "cleanup"] {
        let output = apply(&path, &format!("{line}\ncreate-schema more\n"), &[]);
        let said = String::from_utf8_lossy(&output.stderr);
        assert_eq!(output.status.code(), Some(201), "{line}: {said}");
        assert!(said.contains("line 1: refused with 1: ") && said.contains("No change was made."), "{line}: {said}");
    }
    assert_eq!(std::fs::read(&path).expect("there"), damaged);
}

/// The tables are judged once for a batch: 10,000 inserts, in five rounds, since a catalogue has 4,096 files at most, take less of the calls than a tenth of a check
/// at the end of a round for each.
#[test]
fn ten_thousand_inserts() {
    let folder = Folder::new("inserts");
    let (path, round) = (folder.path("i.lake"), folder.path("round.lake"));
    answer(&["init", text(&path), "--time", "100"]);
    std::fs::copy(&path, &round).expect("copied");
    let calls = |output: &Output| {
        let said = String::from_utf8_lossy(&output.stderr).into_owned();
        assert!(output.status.success(), "{said}");
        said.split("calls ").nth(1).and_then(|rest| rest.split(' ').next()?.parse::<f64>().ok()).expect("a time")
    };
    let inserts = "insert --table t --rows 3 a=1..3 --time 100\n".repeat(2000);
    let rounds = |first: u64| {
        format!(
            "create-table t a:int64 --time 100\n{inserts}drop-table --table t --time 100\nexpire {first}..{} --time 100\ncleanup --before 101\n",
            first + 2001
        )
    };
    apply(&round, &format!("create-table t a:int64 --time 100\n{inserts}"), &[]);
    let check = (0..5).map(|_| calls(&gukoremo(&["snapshots", text(&round), "--timing"]))).fold(f64::MAX, f64::min);
    let batch: String = (0..5).map(|at| rounds(2002 * at)).collect();
    let all = calls(&apply(&path, &batch, &["--timing"]));
    println!("10000 inserts in a batch: calls {all:.3} ms, a check of 2000 files {check:.3} ms");
    assert!(all < 1000.0 * check, "calls {all} ms, a check {check} ms");
    assert!(answer(&["check", text(&path)]).contains(": sound. 1 snapshots, 1 schemas, 0 tables, 0 columns, 0 data files"));
    assert_eq!(answer(&["snapshots", text(&path), "--csv"]).lines().nth(1).and_then(|line| line.split(',').next()), Some("10010"));
}
