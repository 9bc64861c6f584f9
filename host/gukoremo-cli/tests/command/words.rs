//! The words of the command: numbers that are none, long lists, dates, names that are also something else, and help.

use crate::support::{answer, diary, gukoremo, text, Folder, COMMAND};
use std::process::Command;

/// A number below zero is no flag: what is said is what the number may be.
#[test]
fn numbers_below_zero() {
    let folder = Folder::new("below");
    let path = folder.path("w.lake");
    diary(&path);
    for (words, word) in [
        (vec!["insert", "--table", "diary", "--rows", "-1", "item=..", "price=.."], "'-1' is no number of rows, which is 1 to 1048576"),
        (vec!["delete", "--file", "-1", "--positions", "0"], "'-1' is no number from 0"),
        (vec!["delete", "--file", "0", "--positions", "-1"], "'-1' is no number from 0"),
        (vec!["expire", "-1"], "'-1' is no number from 0"),
        (vec!["lookup", "-1"], "'-1' is no file: that is its id"),
        (vec!["files", "--table", "diary", "--at", "-1"], "'-1' is no number from 0"),
        (vec!["files", "--table", "diary", "--time", "-1"], "a time is microseconds since 1970"),
        (vec!["at", "-1"], "a time is microseconds since 1970"),
        (vec!["cleanup", "--before", "-1"], "a time is microseconds since 1970"),
        (vec!["create-schema", "books", "--time", "-1"], "a time is microseconds since 1970"),
        (vec!["create-schema", "books", "--wait", "-1"], "'-1' is no number from 0 to 86400"),
        (vec!["room", "--records", "-1"], "'-1' is no number from 1 to 4096"),
        (vec!["diff", "--at", "-1"], "'-1' is no number from 0"),
    ] {
        let files = if words[0] == "diff" { vec![text(&path), text(&path)] } else { vec![text(&path)] };
        let words: Vec<&str> = [&words[..1], &files, &words[1..]].concat();
        let output = gukoremo(&words);
        let said = String::from_utf8_lossy(&output.stderr);
        assert_eq!(output.status.code(), Some(64), "{words:?}: {said}");
        assert!(said.contains(word) && !said.contains("rather than a flag"), "{words:?}: {said}");
    }
}

/// However many ranges a list has, it takes no more memory than a list can.
#[test]
fn a_list_of_many_ranges() {
    let folder = Folder::new("ranges");
    let path = folder.path("w.lake");
    diary(&path);
    let list = vec!["0..1000000"; 2_000].join(",");
    for words in [vec!["delete", text(&path), "--file", "0", "--positions", &list], vec!["expire", text(&path), &list]] {
        let script = "ulimit -v 400000; exec \"$0\" \"$@\"";
        let output = Command::new("sh").args(["-c", script, COMMAND]).args(&words).output().expect("runs");
        let said = String::from_utf8_lossy(&output.stderr);
        assert_eq!(output.status.code(), Some(64), "{said}");
        assert!(said.contains("more than 1048576 numbers"), "{said}");
    }
}

/// A date is its midnight.
#[test]
fn a_date_alone() {
    let folder = Folder::new("date");
    let path = folder.path("w.lake");
    answer(&["init", text(&path), "--time", "2021-03-01"]);
    assert!(answer(&["snapshots", text(&path), "--csv"]).contains(",2021-03-01T00:00:00.000000Z,"));
    assert!(answer(&["at", text(&path), "2021-03-02"]).starts_with("snapshot 0, "));
    assert_eq!(gukoremo(&["at", text(&path), "2021-02-28"]).status.code(), Some(207));
    assert_eq!(gukoremo(&["at", text(&path), "2021-02-29"]).status.code(), Some(64));
}

/// SQLite takes `file:..` for more than a path; the command does not.
#[test]
fn an_export_to_a_path_that_is_also_a_uri() {
    let folder = Folder::new("uri");
    diary(&folder.path("w.lake"));
    std::fs::create_dir(folder.path("file:")).expect("a folder");
    for out in ["file:out.sqlite", "file:out.sqlite?mode=memory", "file:/deep.sqlite"] {
        let output = Command::new(COMMAND).args(["export", "w.lake", out]).current_dir(folder.path("")).output().expect("runs");
        assert!(output.status.success(), "{out}: {}", String::from_utf8_lossy(&output.stderr));
        assert!(std::fs::read(folder.path(out)).expect("there").starts_with(b"SQLite format 3"), "{out}");
    }
    assert_eq!(folder.names(), ["file:", "file:out.sqlite", "file:out.sqlite?mode=memory", "w.lake", "w.lake.lock"]);
}

#[test]
fn help_in_both_forms() {
    assert_eq!(answer(&["help"]), answer(&["--help"]));
    assert_eq!(answer(&["help", "insert"]), answer(&["insert", "--help"]));
    assert!(answer(&["help"]).contains("A first session:"));
}
