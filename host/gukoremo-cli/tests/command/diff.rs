//! `diff` names every difference. The catalogues here agree in their times and UUIDs.

use crate::support::{answer, bytes, diary, gukoremo, text, Folder};
use gukoremo::record::ColumnRecord;
use gukoremo::{Catalog, OwnedTables};
use gukoremo_cli::file::{self, Lake};
use gukoremo_cli::runs;
use std::path::{Path, PathBuf};

const SESSION: &str = "\
init FILE --records 64 --time 100
create-schema FILE books --time 110
create-table FILE main.diary item:int64 price:int64? --time 120
insert FILE --table 2 --rows 3 1=1..3 2=9..14 nulls=1 --uuid 00000000000000000000000000000001 --time 130
delete FILE --file 0 --positions 1 --uuid 00000000000000000000000000000002 --time 140
create-table FILE main.wall item:int64 --time 150
drop-table FILE --table 3 --time 160
delete FILE --file 0 --positions 2 --uuid 00000000000000000000000000000003 --time 170
expire FILE 4..6 --time 180";

fn play(path: &Path, session: &str) {
    for line in session.lines() {
        answer(&line.split(' ').map(|word| if word == "FILE" { text(path) } else { word }).collect::<Vec<&str>>());
    }
}

/// The lines below the header, and the exit code.
fn diff(a: &Path, b: &Path, more: &[&str]) -> (Vec<String>, Option<i32>) {
    let output = gukoremo(&[&["diff", text(a), text(b), "--csv"], more].concat());
    let said = String::from_utf8_lossy(&output.stdout).into_owned();
    assert_eq!(said.lines().next(), Some("what,snapshot,of,in_a,in_b"), "{said}");
    (said.lines().skip(1).map(str::to_string).collect(), output.status.code())
}

/// One word of the session is another: what is said at the latest snapshot.
#[test]
fn each_difference_is_said() {
    let folder = Folder::new("differences");
    let ours = folder.path("a.lake");
    play(&ours, SESSION);
    let data = "main/diary/ducklake-00000000-0000-0000-0000-000000000001.parquet";
    let deletes = "main/diary/ducklake-00000000-0000-0000-0000-000000000003.parquet";
    let cases: Vec<(&str, &str, Vec<String>)> = vec![
        ("books", "books", vec![]),
        ("books", "wall", vec!["schema name,7,books,books,wall".to_string()]),
        ("diary", "journal", vec!["table name,7,main.diary,diary,journal".to_string()]),
        (
            "main.diary",
            "books.diary",
            vec!["table,7,main.diary,\"name diary, id 2, rows 0\",".to_string(), "table,7,books.diary,,\"name diary, id 2, rows 0\"".to_string()],
        ),
        ("diary item", "diary name", vec!["column name,7,main.diary.item,item,name".to_string()]),
        ("price:int64?", "price:int32?", vec!["column type,7,main.diary.price,int64,int32".to_string()]),
        ("item:int64 price", "item:int64? price", vec!["column nulls_allowed,7,main.diary.item,false,true".to_string()]),
        (
            "price:int64? --time 120\ninsert FILE --table 2 --rows 3",
            "price:int64? more:int8? --time 120\ninsert FILE --table 2 --rows 3 3=..",
            vec![
                format!("statistics,7,\"{data}, column more\",,\"null_count 0, min none, max none\""),
                "column,7,main.diary.more,,\"name more, id 3, order 2, type int8, nulls_allowed true\"".to_string(),
            ],
        ),
        ("--rows 3", "--rows 4", vec!["table rows,7,main.diary,,3".to_string(), format!("data file record_count,7,{data},3,4")]),
        ("1=1..3", "1=0..3", vec![format!("statistics min,7,\"{data}, column item\",1,0")]),
        ("2=9..14", "2=9..", vec![format!("statistics max,7,\"{data}, column price\",14,none")]),
        ("nulls=1", "nulls=2", vec![format!("statistics null_count,7,\"{data}, column price\",1,2")]),
        ("--positions 2", "--positions 0", vec!["table rows,7,main.diary,0,2".to_string(), format!("delete file positions,7,{deletes},2,0")]),
        ("0000003 ", "0000004 ", vec![format!("delete file path,7,{deletes},{},{}", &deletes[11..], deletes[11..].replace("3.p", "4.p"))]),
        ("--time 170", "--time 171", vec!["snapshot time,7,,170,171".to_string()]),
    ];
    for (at, (word, other, lines)) in cases.into_iter().enumerate() {
        let theirs = folder.path(&format!("{at}.lake"));
        play(&theirs, &SESSION.replace(word, other));
        let (said, code) = diff(&ours, &theirs, &[]);
        assert_eq!((&said, code), (&lines, Some(if lines.is_empty() { 0 } else { 1 })), "{word} and {other}");
        assert_eq!(diff(&ours, &theirs, &["--at", "7"]), diff(&ours, &theirs, &[]), "{word} and {other}");
        assert_eq!(diff(&ours, &theirs, &["--all"]).1, code, "{word} and {other}");
    }
}

/// Of two that went on from the same state: the snapshots that differ, and what the latest of both shows; `--at` an earlier one, the same.
#[test]
fn two_houses() {
    let folder = Folder::new("houses");
    let (ours, theirs) = (folder.path("a.lake"), folder.path("b.lake"));
    diary(&ours);
    std::fs::copy(&ours, &theirs).expect("copied");
    assert_eq!(diff(&ours, &theirs, &["--all"]), (vec![], Some(0)));
    answer(&["delete", text(&ours), "--file", "1", "--positions", "0", "--time", "200", "--uuid", "00000000-0000-0000-0000-0000000000aa"]);
    answer(&["create-schema", text(&theirs), "wall", "--time", "200"]);
    answer(&["create-schema", text(&theirs), "hall", "--time", "210"]);
    let path = "ducklake-00000000-0000-0000-0000-0000000000aa.parquet";
    let lines = [
        "snapshot change,6,,deleted_from_table 1,created_schema 2".to_string(),
        "snapshot schema_version,6,,1,2".to_string(),
        "snapshot next_catalog_id,6,,2,3".to_string(),
        "snapshot next_file_id,6,,5,4".to_string(),
        "snapshot,7,,,\"time 210, change created_schema 3, schema_version 3, next_catalog_id 4, next_file_id 4\"".to_string(),
        "table rows,6,main.diary,,3".to_string(),
        format!("delete file,6,main/diary/{path},\"path {path}, id 4, delete_count 1, positions 0\","),
        "schema,6,wall,,\"name wall, id 2\"".to_string(),
    ];
    assert_eq!(diff(&ours, &theirs, &[]), (lines.to_vec(), Some(1)));
    let all = diff(&ours, &theirs, &["--all"]).0;
    assert_eq!(all[..5], lines[..5]);
    assert!(all.contains(&lines[5]), "{all:?}");
    assert_eq!(diff(&ours, &theirs, &["--at", "5"]), (vec![], Some(0)));
    assert_eq!(
        answer(&["diff", text(&ours), text(&theirs), "--at", "5"]),
        format!("{} and {} show the same at snapshot 5.\n", text(&ours), text(&theirs))
    );
}

/// What no retained snapshot tells apart is told with `--all`: scheduled files, ended records.
#[test]
fn all_that_is_on_record() {
    let folder = Folder::new("on-record");
    let (ours, theirs) = (folder.path("a.lake"), folder.path("b.lake"));
    play(&ours, SESSION);
    play(&theirs, &SESSION.replace("--time 180", "--time 181"));
    assert_eq!(diff(&ours, &theirs, &[]), (vec![], Some(0)));
    let scheduled = "ducklake-00000000-0000-0000-0000-000000000002.parquet";
    assert_eq!(diff(&ours, &theirs, &["--all"]), (vec![format!("scheduled file schedule_start,,{scheduled},180,181")], Some(1)));
    answer(&["cleanup", text(&theirs), "--before", "200"]);
    let line = format!("scheduled file,,{scheduled},\"path_in_table {scheduled}, id 1, schedule_start 180\",");
    assert_eq!(diff(&ours, &theirs, &["--all"]), (vec![line], Some(1)));

    let (ours, theirs) = (folder.path("c.lake"), folder.path("d.lake"));
    let kept = SESSION.replace("expire FILE 4..6", "expire FILE 1");
    play(&ours, &kept);
    play(&theirs, &kept.replace("main.wall item:int64", "main.wall item:int8"));
    assert_eq!(diff(&ours, &theirs, &[]), (vec![], Some(0)));
    assert_eq!(diff(&ours, &theirs, &["--all"]), (vec!["column type,,main.wall.item,int64,int8".to_string()], Some(1)));
    assert_eq!(diff(&ours, &theirs, &["--at", "5"]), (vec!["column type,5,main.wall.item,int64,int8".to_string()], Some(1)));
    assert_eq!(gukoremo(&["diff", text(&ours), text(&theirs), "--at", "1"]).status.code(), Some(205));
}

/// A catalogue in a file, with one change to its tables; none where they are not sound any more.
fn altered(from: &Path, to: PathBuf, change: impl FnOnce(&mut OwnedTables)) -> Option<PathBuf> {
    let (mut tables, counts) = file::read(from).expect("a catalogue").into_parts();
    change(&mut tables);
    let lake: Lake = Catalog::resume(tables, counts);
    lake.snapshot_by_time(u64::MAX).ok()?;
    std::fs::write(&to, bytes(lake)).expect("written");
    Some(to)
}

#[test]
fn the_order_of_columns() {
    let folder = Folder::new("order");
    let ours = folder.path("a.lake");
    diary(&ours);
    let theirs = altered(&ours, folder.path("b.lake"), |tables| tables.columns[ColumnRecord::ORDER] = 5).expect("sound");
    assert_eq!(diff(&ours, &theirs, &[]), (vec!["column order,5,main.diary.item,0,5".to_string()], Some(1)));
}

/// Whatever word or byte of a record is another: if the tables are still sound, `--all` says so.
#[test]
fn no_word_is_left_out() {
    let folder = Folder::new("words");
    let ours = folder.path("a.lake");
    // with ended records, and one that is scheduled
    let more = "delete FILE --file 0 --positions 0 --uuid 00000000000000000000000000000004 --time 175\nexpire FILE 7";
    play(&ours, &SESSION.replace("expire FILE 4..6", more));
    let (mut tables, _) = file::read(&ours).expect("a catalogue").into_parts();
    let mut compared = [0; 12];
    let lengths: Vec<usize> = runs::all(&mut tables).into_iter().map(|run| used(&run)).collect();
    for (run, length) in lengths.into_iter().enumerate() {
        for (at, step) in (0..length).flat_map(|at| [(at, 1), (at, u64::MAX)]) {
            let change = |tables: &mut OwnedTables| match &mut runs::all(tables)[run] {
                runs::Run::Words(words) => words[at] = words[at].wrapping_add(step),
                runs::Run::Bytes(bytes) => bytes[at] = bytes[at].wrapping_add(step as u8),
            };
            if let Some(theirs) = altered(&ours, folder.path("b.lake"), change) {
                let (lines, code) = diff(&ours, &theirs, &["--all"]);
                assert!(!lines.is_empty() && code == Some(1), "run {run}, word {at}: {lines:?}");
                compared[run] += 1;
            }
        }
    }
    assert!(compared.iter().all(|count| *count > 0), "{compared:?}");
}

/// The words or bytes up to the last that is not 0.
fn used(run: &runs::Run<'_>) -> usize {
    match run {
        runs::Run::Words(words) => words.iter().rposition(|word| *word != 0).map_or(0, |at| at + 1),
        runs::Run::Bytes(bytes) => bytes.iter().rposition(|byte| *byte != 0).map_or(0, |at| at + 1),
    }
}
