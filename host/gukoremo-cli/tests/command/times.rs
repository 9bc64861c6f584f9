//! A time ahead of the clock: more than a day is refused without `--force`, less has a warning.

use crate::support::{answer, diary, gukoremo, text, Folder};
use gukoremo_cli::values::times::now;

const HOUR: u64 = 3_600_000_000;

/// The words of a command, with the file's path after the first.
fn on<'a>(path: &'a str, words: &[&'a str]) -> Vec<&'a str> {
    [&words[..1], &[path], &words[1..]].concat()
}

#[test]
fn a_time_far_ahead_needs_force() {
    let folder = Folder::new("ahead");
    let path = folder.path("t.lake");
    diary(&path);
    answer(&["create-schema", text(&path), "books"]);
    let before = std::fs::read(&path).expect("there");
    let far = (now() + 25 * HOUR).to_string();
    let new = folder.path("new.lake");
    for words in [
        vec!["init"],
        vec!["create-schema", "more"],
        vec!["drop-schema", "--schema", "books"],
        vec!["create-table", "wall", "a:int8"],
        vec!["insert", "--table", "diary", "--rows", "1", "item=..", "price=.."],
        vec!["delete", "--file", "1", "--positions", "0"],
        vec!["drop-table", "--table", "diary"],
        vec!["expire", "1"],
    ] {
        let file = if words[0] == "init" { &new } else { &path };
        for time in [far.as_str(), "18446744073709551615"] {
            let words = [on(text(file), &words), vec!["--time", time]].concat();
            let output = gukoremo(&words);
            let said = String::from_utf8_lossy(&output.stderr);
            assert_eq!(output.status.code(), Some(64), "{words:?}: {said}");
            assert!(said.contains("more than a day ahead of the clock") && said.contains("--force"), "{words:?}: {said}");
        }
    }
    assert_eq!(std::fs::read(&path).expect("there"), before);
    assert_eq!(folder.names(), ["t.lake", "t.lake.lock"]);
    // with --force it is taken, and what comes of it is said
    let output = gukoremo(&["create-schema", text(&path), "more", "--time", &far, "--force"]);
    assert!(output.status.success());
    assert!(String::from_utf8_lossy(&output.stderr).contains("warning: the time"));
    let output = gukoremo(&["create-schema", text(&path), "evermore"]);
    assert_eq!(output.status.code(), Some(208));
    assert!(String::from_utf8_lossy(&output.stderr).contains("with --time and --force"));
}

#[test]
fn a_time_ahead_has_a_warning() {
    let folder = Folder::new("warning");
    let path = folder.path("w.lake");
    diary(&path);
    let near = (now() + 23 * HOUR).to_string();
    let warned = |words: &[&str]| {
        let output = gukoremo(&on(text(&path), words));
        let said = String::from_utf8_lossy(&output.stderr).into_owned();
        assert!(output.status.success(), "{words:?}: {said}");
        said
    };
    assert_eq!(warned(&["create-schema", "early", "--time", "160"]), "");
    assert_eq!(warned(&["create-schema", "clocks"]), "");
    assert_eq!(warned(&["create-schema", "nows", "--time", "now"]), "");
    assert!(warned(&["create-schema", "late", "--time", &near]).contains("until then a change is refused with 8"));
    assert!(warned(&["expire", "1..2", "--time", &near]).contains("until then a cleanup"));
    // a change that is refused has no warning
    let output = gukoremo(&["create-schema", text(&path), "late", "--time", &near]);
    assert_eq!(output.status.code(), Some(210));
    assert!(!String::from_utf8_lossy(&output.stderr).contains("warning"));
}
