//! A catalogue at the limits: 4,096 records of each kind, 65,536 positions.

use crate::support::{answer, bytes, gukoremo, large, text, Folder};

#[test]
fn files_at_the_limits() {
    let folder = Folder::new("limits");
    let path = folder.path("m.lake");
    std::fs::write(&path, bytes(large(4096))).expect("written");
    assert!(answer(&["check", text(&path)]).contains(": sound. 4096 snapshots"));
    let listed = answer(&["files", text(&path), "--table", "main.t0", "--csv"]);
    assert_eq!(listed.lines().count(), 4097);
    assert!(listed.ends_with("ducklake-00000000-0000-0000-0000-000000001000.parquet,ducklake-00000000-0000-0001-0000-000000001000.parquet\n"));
    assert_eq!(answer(&["rows", text(&path), "--table", "main.t0", "--csv"]).lines().count(), 4097);
    assert_eq!(answer(&["tables", text(&path), "--csv"]).lines().count(), 4097);
    assert_eq!(gukoremo(&["create-schema", text(&path), "more"]).status.code(), Some(202));
    // the command's own time: all but the compiled calls, from the process's first instruction here to its answer; the best of some, since others work too
    let own = |said: &str| said.split("all else ").nth(1).and_then(|rest| rest.split(' ').next()?.parse::<f64>().ok()).expect("a time");
    let times = (0..7).map(|_| gukoremo(&["files", text(&path), "--table", "main.t0", "--csv", "--timing"]));
    let times: Vec<String> = times.map(|output| String::from_utf8_lossy(&output.stderr).trim().to_string()).collect();
    let best = times.iter().min_by(|one, other| own(one).total_cmp(&own(other))).expect("a time");
    println!("files at the limits: {best}");
    assert!(own(best) < 50.0, "{best}");
}

/// It asks four readings of each schema or table, and the tables are not judged for each: the calls take less than as many checks as there are tables.
#[test]
fn diff_at_the_limits() {
    let folder = Folder::new("diff-limits");
    let (a, b) = (folder.path("a.lake"), folder.path("b.lake"));
    std::fs::write(&a, bytes(large(4096))).expect("written");
    std::fs::copy(&a, &b).expect("copied");
    let calls = |words: &[&str]| {
        let output = gukoremo(&[words, &["--timing"]].concat());
        assert!(output.status.success(), "{words:?}");
        let said = String::from_utf8_lossy(&output.stderr).into_owned();
        said.split("calls ").nth(1).and_then(|rest| rest.split(' ').next()?.parse::<f64>().ok()).expect("a time")
    };
    // one reading, which is a check and little more
    let check = calls(&["snapshots", text(&a)]);
    let diff = calls(&["diff", text(&a), text(&b)]);
    println!("diff at the limits: calls {diff:.3} ms, a check {check:.3} ms");
    assert!(diff < 4096.0 * check, "calls {diff} ms, a check {check} ms");
}
