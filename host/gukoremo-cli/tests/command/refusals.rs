//! Each refusal that a person can meet: its exit code, and what is said of it.

use crate::support::{answer, diary, gukoremo, text, Chance, Folder};
use gukoremo::{Catalog, CatalogId, ColumnType, NewColumn, NewStatistics, OwnedTables, Uuid};
use gukoremo_cli::runs;
use gukoremo_cli::values::statistics::broken_rule;

#[test]
fn refusals_say_which_why_and_what_to_do() {
    let folder = Folder::new("refusals");
    let path = folder.path("r.lake");
    diary(&path);
    answer(&["create-schema", text(&path), "books", "--time", "150"]);
    answer(&["create-table", text(&path), "small", "a:int8", "b:boolean", "--time", "150"]);
    let long = "n".repeat(33);
    let uuid = "00000000-0000-0000-0000-000000000003";
    let cases: Vec<(i32, Vec<&str>, &str)> = vec![
        (205, vec!["files", "--table", "1", "--at", "9"], "retained are 0..7"),
        (206, vec!["files", "--table", "main.wall"], "no table main.wall at snapshot 7"),
        (206, vec!["tables", "--schema", "wall"], "no schema wall at snapshot 7"),
        (206, vec!["files", "--table", "diary", "--where", "weight=3"], "no column weight of table 1"),
        (206, vec!["lookup", "77"], "no file 77"),
        (206, vec!["delete", "--file", "3", "--positions", "0"], "no data file 3"),
        (207, vec!["at", "99"], "of 100"),
        (208, vec!["create-schema", "more", "--time", "149"], "has the time 150"),
        (209, vec!["create-schema", &long], "33 bytes"),
        (210, vec!["create-schema", "books"], "there is a schema books"),
        (210, vec!["create-table", "diary", "a:int8"], "there is a table main.diary"),
        (211, vec!["drop-schema", "--schema", "main"], "still has tables"),
        (212, vec!["create-table", "wall"], "you give 0 columns"),
        (212, vec!["create-table", "wall", "a:int8", "a:int8"], "'a' is there twice"),
        (213, vec!["insert", "--table", "diary", "--rows", "1048577", "item=..", "price=.."], "1048577 rows"),
        (214, vec!["insert", "--table", "diary", "--rows", "1", "item=..", "price=..", "--uuid", uuid], "delete file 2 has"),
        (
            215,
            vec!["insert", "--table", "diary", "--rows", "1", "item=1..2"],
            "column price has no statistics. The table's columns are item:int64, price:int64?.",
        ),
        (215, vec!["insert", "--table", "diary", "--rows", "1", "item=1..2", "item=1..2", "price=.."], "column item has statistics twice"),
        (215, vec!["insert", "--table", "diary", "--rows", "1", "item=1..2", "price=..", "7=.."], "the table has no column 7"),
        (
            215,
            vec!["insert", "--table", "diary", "--rows", "1", "item=2..1", "price=.."],
            "column item: the lowest value, 2, is above the highest, 1",
        ),
        (
            215,
            vec!["insert", "--table", "diary", "--rows", "2", "item=..", "nulls=1", "price=.."],
            "column item: nulls=1, where nulls are not allowed",
        ),
        (
            215,
            vec!["insert", "--table", "diary", "--rows", "2", "item=..", "price=..", "nulls=3"],
            "column price: nulls=3 is above the rows of the file, 2",
        ),
        (215, vec!["insert", "--table", "diary", "--rows", "2", "item=..", "price=3..", "nulls=2"], "column price: all rows are null"),
        (215, vec!["insert", "--table", "small", "--rows", "1", "a=-129..", "b=.."], "column a: -129 is not in int8, which is -128 to 127"),
        (215, vec!["insert", "--table", "small", "--rows", "1", "a=..", "b=0..2"], "column b: 2 is not in boolean, which is 0 to 1"),
        (216, vec!["delete", "--file", "0", "--positions", "3"], "positions 0 to 2"),
        (216, vec!["delete", "--file", "0", "--positions", "2,1"], "1 stands after 2"),
        (217, vec!["delete", "--file", "0", "--positions", "1,2"], "position 1, at index 0"),
        (218, vec!["expire", "2,1"], "not in order"),
        (219, vec!["expire", "1,7"], "7 is the latest"),
    ];
    let before = std::fs::read(&path).expect("there");
    for (code, words, word) in cases {
        let words: Vec<&str> = [&words[..1], &[text(&path)], &words[1..]].concat();
        let output = gukoremo(&words);
        let said = String::from_utf8_lossy(&output.stderr).into_owned();
        assert_eq!(output.status.code(), Some(code), "{words:?}: {said}");
        assert!(said.contains(word), "{words:?}: {said}");
        assert!(said.contains(&format!("refused with {}: ", code - 200)) && said.contains("why: ") && said.contains("do: "), "{said}");
    }
    assert_eq!(std::fs::read(&path).expect("there"), before);
    for words in [vec!["files"], vec!["nothing"], vec!["rows", text(&path), "--table", "1", "--at", "1", "--time", "3"], vec![]] {
        assert_eq!(gukoremo(&words).status.code(), Some(64), "{words:?}");
    }
}

/// Names of digits, ids, a table in another schema, and nulls in every form.
#[test]
fn names_and_ids() {
    let folder = Folder::new("names");
    let path = folder.path("n.lake");
    diary(&path);
    answer(&["create-schema", text(&path), "7"]);
    answer(&["create-table", text(&path), "\"7\".8", "nulls:boolean?"]);
    for reference in ["\"7\".8", "2.8", "3"] {
        answer(&["insert", text(&path), "--table", reference, "--rows", "2", "nulls=.. nulls=2"]);
        answer(&["insert", text(&path), "--table", reference, "--rows", "2", "1=0..1", "nulls=1"]);
    }
    assert_eq!(answer(&["rows", text(&path), "--table", "3", "--csv"]).lines().count(), 13);
    assert_eq!(answer(&["tables", text(&path), "--schema", "\"7\"", "--csv"]).lines().nth(1).map(|line| &line[..6]), Some("3,7,8,"));
    assert_eq!(answer(&["files", text(&path), "--table", "3", "--where", "nulls=5", "--csv"]).lines().count(), 4);
}

/// The rule that is said to be broken is there whenever the call refuses with 15, and only then.
#[test]
fn broken_rules_of_statistics() {
    let mut lake = Catalog::fresh(OwnedTables::with_room(runs::room(64)), 100).expect("room");
    let column = |(at, column_type): (usize, ColumnType)| NewColumn { name: column_type.name(), column_type, nulls_allowed: at % 2 == 0 };
    let new: Vec<NewColumn<'_>> = ColumnType::ALL.into_iter().enumerate().map(column).collect();
    let table = lake.create_table(110, CatalogId(0), "all", &new).expect("a table").table;
    let columns: Vec<_> = lake.records().columns().collect();
    let (tables, counts) = lake.into_parts();
    let mut chance = Chance::new(15);
    let edges: Vec<i64> = columns.iter().map(|column| column.column_type.range()).flat_map(|range| [*range.start(), *range.end()]).collect();
    let (mut refused, mut accepted) = (0, 0);
    for round in 0..20_000 {
        let rows = 1 + chance.below(3);
        let mut given: Vec<NewStatistics> = (1..=new.len() as u64)
            .map(|column| {
                let wild = chance.below(12) == 0;
                let edge = edges[if wild { chance.below(edges.len() as u64) } else { 2 * (column - 1) + chance.below(2) } as usize];
                let value = if wild { edge.wrapping_add(chance.below(3) as i64 - 1) } else { edge };
                let other = if chance.below(12) == 0 { value.wrapping_add(chance.below(3) as i64 - 1) } else { value };
                let null_count = if chance.below(6) == 0 { chance.below(5) } else { 0 };
                let bound = |value: i64, missing: bool| if missing { None } else { Some(value) };
                let (min, max) = (bound(value, chance.below(3) == 0), bound(other, chance.below(3) == 0));
                NewStatistics { column, null_count, min, max }
            })
            .collect();
        match chance.below(30) {
            0 => given.truncate(chance.below(8) as usize),
            1 => given[chance.below(8) as usize].column = chance.below(10),
            _ => {}
        }
        given.sort_by_key(|one| one.column);
        let answer = Catalog::resume(tables.clone(), counts).insert(120, table, rows, Uuid { high: 1, low: round }, &given);
        let broken = broken_rule(&columns, rows, &given);
        assert_eq!(answer.as_ref().err().map(|refusal| refusal.number()), broken.as_ref().map(|_| 15), "{rows} rows, {given:?}: {broken:?}");
        match answer {
            Ok(_) => accepted += 1,
            Err(_) => refused += 1,
        }
    }
    assert!(accepted > 1_000 && refused > 1_000, "{accepted} accepted, {refused} refused");
}
