//! What is said of files, tables, snapshots and expiries beside their numbers.

use crate::support::{answer, bytes, diary, gukoremo, large, text, Folder};
use gukoremo_cli::format;

/// A file by its id, its path, its path below the data path, or its UUID: the same answer.
#[test]
fn a_file_by_id_or_path() {
    let folder = Folder::new("by-path");
    let path = folder.path("p.lake");
    diary(&path);
    let uuid = "00000000-0000-0000-0000-000000000002";
    for command in ["lookup", "statistics", "positions"] {
        let by_id = answer(&[command, text(&path), "1", "--json"]);
        for reference in [uuid.to_string(), format!("ducklake-{uuid}.parquet"), format!("main/diary/ducklake-{uuid}.parquet")] {
            assert_eq!(answer(&[command, text(&path), &reference, "--json"]), by_id, "{command} {reference}");
        }
        for missing in ["9", "00000000-0000-0000-0000-000000000009"] {
            assert_eq!(gukoremo(&[command, text(&path), missing]).status.code(), Some(206), "{command} {missing}");
        }
        assert_eq!(gukoremo(&[command, text(&path), "diary"]).status.code(), Some(64), "{command}");
    }
}

#[test]
fn statistics_of_a_file() {
    let folder = Folder::new("statistics");
    let path = folder.path("s.lake");
    diary(&path);
    answer(&["create-table", text(&path), "wide", "a:int8", "b:boolean?", "c:uint32?"]);
    answer(&["insert", text(&path), "--table", "wide", "--rows", "4", "c=..7", "a=-128..-3", "b=..", "nulls=4"]);
    assert_eq!(
        answer(&["statistics", text(&path), "4", "--csv"]),
        "column,name,type,min,max,nulls\n1,a,int8,-128,-3,0\n2,b,boolean,,,4\n3,c,uint32,,7,0\n"
    );
    assert!(answer(&["statistics", text(&path), "4", "--json"]).contains("\"min\": -128, \"max\": -3, \"nulls\": 0"));
    // a delete file has none
    assert_eq!(gukoremo(&["statistics", text(&path), "2"]).status.code(), Some(206));
}

/// Of a delete file those that it holds; of a data file those that a snapshot has no rows of.
#[test]
fn positions_of_a_file() {
    let folder = Folder::new("positions");
    let path = folder.path("p.lake");
    diary(&path);
    let positions = |words: &[&str]| answer(&[&["positions", text(&path)], words, &["--json"]].concat());
    assert_eq!(positions(&["2"]), "[1]\n");
    assert_eq!(positions(&["3"]), "[0, 1]\n");
    assert_eq!(positions(&["0"]), "[0, 1]\n");
    assert_eq!(positions(&["0", "--at", "4"]), "[1]\n");
    assert_eq!(positions(&["0", "--time", "145"]), "[1]\n");
    assert_eq!(positions(&["0", "--at", "3"]), "[]\n");
    assert_eq!(positions(&["1"]), "[]\n");
    assert_eq!(answer(&["positions", text(&path), "3", "--csv"]), "position\n0\n1\n");
    assert_eq!(gukoremo(&["positions", text(&path), "1", "--at", "2"]).status.code(), Some(206));
    assert_eq!(gukoremo(&["positions", text(&path), "1", "--at", "9"]).status.code(), Some(205));
}

#[test]
fn tables_of_all_schemas() {
    let folder = Folder::new("all-tables");
    let path = folder.path("t.lake");
    diary(&path);
    answer(&["create-schema", text(&path), "books"]);
    answer(&["create-table", text(&path), "books.sales", "a:int8"]);
    answer(&["create-table", text(&path), "wall", "a:int8"]);
    let listed = |words: &[&str]| {
        let said = answer(&[&["tables", text(&path), "--csv"], words].concat());
        said.lines().skip(1).map(|line| line.split(',').take(3).collect::<Vec<&str>>().join(" ")).collect::<Vec<String>>()
    };
    assert_eq!(listed(&[]), ["1 main diary", "4 main wall", "3 books sales"]);
    assert_eq!(listed(&["--schema", "books"]), ["3 books sales"]);
    assert_eq!(listed(&["--at", "5"]), ["1 main diary"]);
    assert_eq!(listed(&["--at", "0"]), [] as [&str; 0]);
}

/// The tables are judged once, however many schemas are listed.
#[test]
fn tables_of_all_schemas_at_the_limits() {
    let folder = Folder::new("all-limits");
    let path = folder.path("l.lake");
    std::fs::write(&path, bytes(large(4096))).expect("written");
    let calls = |command: &str| {
        let output = gukoremo(&[command, text(&path), "--timing"]);
        let said = String::from_utf8_lossy(&output.stderr).into_owned();
        said.split("calls ").nth(1).and_then(|rest| rest.split(' ').next()?.parse::<f64>().ok()).expect("a time")
    };
    let (check, tables) = (calls("snapshots"), calls("tables"));
    assert!(tables < 1000.0 * check, "tables of 4,096 schemas: {tables} ms, a check {check} ms");
}

/// A name is there while its schema or table is on record.
#[test]
fn names_of_what_snapshots_changed() {
    let folder = Folder::new("snapshot-names");
    let path = folder.path("n.lake");
    diary(&path);
    answer(&["create-schema", text(&path), "books", "--time", "160"]);
    answer(&["drop-schema", text(&path), "--schema", "books", "--time", "170"]);
    let names = || {
        let said = answer(&["snapshots", text(&path), "--csv"]);
        said.lines().skip(1).map(|line| line.split(',').nth(5).unwrap_or_default().to_string()).collect::<Vec<String>>()
    };
    assert_eq!(names(), ["main", "main.diary", "main.diary", "main.diary", "main.diary", "main.diary", "books", "books"]);
    answer(&["expire", text(&path), "6", "--time", "180"]);
    assert_eq!(names()[6..], [""]);
}

#[test]
fn check_in_json() {
    let folder = Folder::new("check-json");
    let path = folder.path("c.lake");
    diary(&path);
    assert_eq!(
        answer(&["check", text(&path), "--json"]),
        "{\"sound\": true, \"snapshots\": 6, \"schemas\": 1, \"tables\": 1, \"columns\": 2, \"data_files\": 2, \"delete_files\": 2, \
         \"positions\": 3, \"statistics\": 4, \"scheduled\": 0}\n"
    );
    let (mut tables, counts) = gukoremo_cli::file::read(&path).expect("there").into_parts();
    // the time of snapshot 3 is below that of snapshot 2
    tables.snapshots[3 * 7 + 1] = 119;
    std::fs::write(&path, format::encode(&tables, counts)).expect("written");
    let output = gukoremo(&["check", text(&path), "--json"]);
    let said = String::from_utf8_lossy(&output.stdout).into_owned();
    assert_eq!(output.status.code(), Some(1));
    assert!(said.starts_with("{\"sound\": false, \"line\": 2, \"sentence\": \"at least one snapshot;"), "{said}");
    assert!(said.contains("\"table\": \"snapshots\", \"record\": 3, \"words\": [3, 119, "), "{said}");
}

#[test]
fn expire_in_json() {
    let folder = Folder::new("expire-json");
    let path = folder.path("e.lake");
    diary(&path);
    let path_of = |low: u64| format!("main/diary/ducklake-00000000-0000-0000-0000-{low:012x}.parquet");
    assert_eq!(
        answer(&["expire", text(&path), "0,4", "--time", "160", "--json"]),
        format!("{{\"expired\": [0, 4], \"scheduled\": [{{\"file\": 2, \"path\": \"{}\"}}]}}\n", path_of(3))
    );
    assert_eq!(answer(&["expire", text(&path), "1", "--time", "160", "--json"]), "{\"expired\": [1], \"scheduled\": []}\n");
}
