//! A second writer is kept out and told who has the lock; a full disk leaves the catalogue as it was.

use crate::support::{answer, bytes, diary, gukoremo, large, text, Folder, COMMAND};
use gukoremo_cli::file::Writing;
use std::process::{Command, Output};
use std::time::Duration;

#[test]
fn a_second_writer_is_kept_out() {
    let folder = Folder::new("locks");
    let path = folder.path("l.lake");
    diary(&path);
    let before = std::fs::read(&path).expect("there");
    let (writing, _) = Writing::open(&path, Duration::ZERO).expect("no one else");
    let kept_out = gukoremo(&["create-schema", text(&path), "books"]);
    assert_eq!(kept_out.status.code(), Some(75));
    let said = String::from_utf8_lossy(&kept_out.stderr).into_owned();
    assert!(said.contains(&format!("process {}", std::process::id())), "{said}");
    assert_eq!(std::fs::read(&path).expect("there"), before);
    // a reader is not kept out
    assert!(answer(&["snapshots", text(&path), "--csv"]).contains("deleted_from_table"));
    // one that waits gets its turn
    let waiting = Command::new(COMMAND).args(["create-schema", text(&path), "books", "--wait", "20"]).spawn();
    std::thread::sleep(Duration::from_millis(50));
    drop(writing);
    assert!(waiting.expect("runs").wait().expect("ends").success());
    assert!(answer(&["schemas", text(&path), "--csv"]).contains("books"));
}

/// `init` never takes the place of a file.
#[test]
fn init_keeps_what_is_there() {
    let folder = Folder::new("init");
    let path = folder.path("i.lake");
    std::fs::write(&path, "a letter").expect("written");
    assert_eq!(gukoremo(&["init", text(&path)]).status.code(), Some(73));
    assert_eq!(std::fs::read(&path).expect("there"), b"a letter");
}

/// The system's limit on the length of files stands in for a full disk: a write ends in the middle with an error.
#[test]
fn a_full_disk_changes_nothing() {
    let folder = Folder::new("full");
    let path = folder.path("f.lake");
    let before = bytes(large(1000));
    std::fs::write(&path, &before).expect("written");
    let script = "trap '' XFSZ; ulimit -f 100; exec \"$0\" \"$@\"";
    let output = Command::new("sh").args(["-c", script, COMMAND, "create-schema", text(&path), "books"]).output().expect("runs");
    let said = String::from_utf8_lossy(&output.stderr);
    assert_eq!(output.status.code(), Some(74), "{said}");
    assert!(said.contains("as it was"), "{said}");
    assert_eq!(std::fs::read(&path).expect("there"), before);
    assert_eq!(folder.names(), ["f.lake", "f.lake.lock"]);
}

/// A cleanup whose list can't be written forgets no file: on a full disk, to an output that is closed, open for reading alone, or a pipe that nobody reads.
#[test]
fn a_cleanup_that_is_not_read_forgets_nothing() {
    let folder = Folder::new("cleanup");
    let (path, list) = (folder.path("c.lake"), folder.path("list"));
    diary(&path);
    answer(&["expire", text(&path), "4", "--time", "160"]);
    let forgets_nothing = |to: &str, output: Output| {
        let said = String::from_utf8_lossy(&output.stderr);
        assert_eq!(output.status.code(), Some(74), "{to}: {said}");
        assert!(said.contains("still scheduled") && said.contains("why: "), "{to}: {said}");
        assert!(answer(&["scheduled", text(&path), "--csv"]).contains("\n2,"), "{to}");
    };
    let cleanup = |to: &str| {
        let script = format!("exec \"$0\" cleanup \"$1\" --before 161 --csv {to}");
        Command::new("sh").args(["-c", &script, COMMAND, text(&path), text(&list)]).output().expect("runs")
    };
    std::fs::write(&list, "").expect("written");
    for to in [">/dev/full", ">&-", "<&- >&-", "1<\"$2\"", "1</dev/null"] {
        forgets_nothing(to, cleanup(to));
    }
    let (reader, writer) = std::io::pipe().expect("a pipe");
    drop(reader);
    let words = ["cleanup", text(&path), "--before", "161"];
    forgets_nothing("a pipe", Command::new(COMMAND).args(words).stdout(writer).output().expect("runs"));
    assert!(cleanup(">\"$2\"").status.success());
    assert_eq!(std::fs::read_to_string(&list).expect("there").lines().count(), 2);
    assert_eq!(answer(&["cleanup", text(&path), "--before", "161", "--csv"]).lines().count(), 1);
}

/// A change whose message can't be written is made all the same, and a code of its own says so.
#[test]
fn a_change_that_is_not_said_is_made() {
    let folder = Folder::new("unsaid");
    let path = folder.path("u.lake");
    let changes = [
        (vec!["init", "--records", "64"], "is a catalogue with the schema main"),
        (vec!["create-schema", "books"], "schema books, id 1"),
        (vec!["drop-schema", "--schema", "books"], "schema books dropped"),
        (vec!["create-table", "diary", "item:int64"], "table main.diary, id 2"),
        (vec!["insert", "--table", "diary", "--rows", "3", "item=1..3"], "file 0 of 3 rows"),
        (vec!["delete", "--file", "0", "--positions", "1"], "delete file 1 of file 0"),
        (vec!["drop-table", "--table", "diary", "--json"], "table main.diary dropped"),
        (vec!["expire", "0..3", "--csv"], "expired 0..3"),
        (vec!["room", "--records", "32"], "places for 32 records"),
    ];
    let mut before = Vec::new();
    for (words, word) in changes {
        let full = std::fs::OpenOptions::new().write(true).open("/dev/full").expect("a full device");
        let words: Vec<&str> = [&words[..1], &[text(&path)], &words[1..]].concat();
        let output = Command::new(COMMAND).args(&words).stdout(full).output().expect("runs");
        let said = String::from_utf8_lossy(&output.stderr);
        assert_eq!(output.status.code(), Some(3), "{words:?}: {said}");
        assert!(said.contains("The change was made") && said.contains(word), "{words:?}: {said}");
        let after = std::fs::read(&path).expect("there");
        assert_ne!(after, before, "{words:?}");
        before = after;
    }
    // with any other code it was not made
    let full = std::fs::OpenOptions::new().write(true).open("/dev/full").expect("a full device");
    let output = Command::new(COMMAND).args(["create-schema", text(&path), "main"]).stdout(full).output().expect("runs");
    assert_eq!(output.status.code(), Some(210));
    assert_eq!(std::fs::read(&path).expect("there"), before);
}

/// A link is followed, and stays one.
#[test]
fn a_link_stays_a_link() {
    let folder = Folder::new("links");
    let (path, link) = (folder.path("real.lake"), folder.path("link.lake"));
    diary(&path);
    std::os::unix::fs::symlink(&path, &link).expect("a link");
    answer(&["create-schema", text(&link), "books"]);
    assert!(link.symlink_metadata().expect("there").is_symlink());
    assert!(answer(&["schemas", text(&path), "--csv"]).contains("books"));
}

/// What has the lock's name and is somebody's is left as it is, and so is the catalogue.
#[test]
fn a_file_with_the_locks_name_is_not_written() {
    let folder = Folder::new("victims");
    let (path, new, lock, victim) = (folder.path("v.lake"), folder.path("new.lake"), folder.path("v.lake.lock"), folder.path("victim.txt"));
    diary(&path);
    let before = std::fs::read(&path).expect("there");
    let refused = |words: &[&str], code: i32, said: &str| {
        let output = gukoremo(words);
        let all = String::from_utf8_lossy(&output.stderr).into_owned();
        assert_eq!(output.status.code(), Some(code), "{words:?}: {all}");
        assert!(all.contains(said), "{words:?}: {all}");
    };
    std::fs::write(&victim, "a letter").expect("written");
    std::fs::remove_file(&lock).expect("there");
    std::os::unix::fs::symlink(&victim, &lock).expect("a link");
    refused(&["create-schema", text(&path), "books"], 73, "it is a link");
    std::fs::remove_file(&lock).expect("there");
    std::fs::hard_link(&victim, &lock).expect("a link");
    refused(&["create-schema", text(&path), "books"], 73, "v.lake.lock is there and is no lock of gukoremo");
    std::os::unix::fs::symlink(&victim, folder.path("new.lake.lock")).expect("a link");
    refused(&["init", text(&new)], 73, "no lock of gukoremo");
    assert_eq!(std::fs::read(&victim).expect("there"), b"a letter");
    // a link to nothing makes nothing
    std::fs::remove_file(&lock).expect("there");
    std::os::unix::fs::symlink(folder.path("none"), &lock).expect("a link");
    refused(&["create-schema", text(&path), "books"], 73, "it is a link");
    assert!(!folder.path("none").exists());
    // a catalogue is somebody's too
    std::fs::remove_file(&lock).expect("there");
    std::fs::copy(&path, &lock).expect("copied");
    refused(&["create-schema", text(&path), "books"], 73, "no lock of gukoremo");
    refused(&["create-schema", text(&lock), "books"], 64, "end in .lock");
    refused(&["init", text(&folder.path("other.lock"))], 64, "end in .lock");
    refused(&["init", text(&folder.path("other.new"))], 64, "end in .new");
    assert_eq!(std::fs::read(&lock).expect("there"), before);
    assert_eq!(std::fs::read(&path).expect("there"), before);
    assert!(!folder.path("other.lock").exists() && !folder.path("other.new").exists());
    // what a holder that was killed has said is the lock's own
    std::fs::write(&lock, "process 1, 'gukoremo insert', since 2026-11-16T09:30:00.000000Z\n").expect("written");
    answer(&["create-schema", text(&path), "books"]);
    assert_eq!(std::fs::read(&lock).expect("there"), b"");
}

/// Nobody's file is replaced or removed: what is written beside a catalogue or an export has a name of its own, and is gone at the end.
#[test]
fn files_beside_are_kept() {
    let folder = Folder::new("beside");
    let (path, out) = (folder.path("b.lake"), folder.path("b.sqlite"));
    let kept = ["b.lake.new", "b.lake.0123cdef.new", "b.sqlite.new", "b.sqlite.0123cdef.new", "b.sqlite-journal"];
    kept.iter().for_each(|name| std::fs::write(folder.path(name), "a letter").expect("written"));
    diary(&path);
    answer(&["expire", text(&path), "4", "--time", "160"]);
    answer(&["cleanup", text(&path), "--before", "161"]);
    answer(&["room", text(&path), "--records", "100"]);
    answer(&["export", text(&path), text(&out)]);
    kept.iter().for_each(|name| assert_eq!(std::fs::read(folder.path(name)).expect("there"), b"a letter", "{name}"));
    assert_eq!(folder.names().len(), kept.len() + 3, "{:?}", folder.names());
    // a lock that names something else than a new file of this catalogue has nothing removed
    for name in ["b.lake.new", "b.sqlite", "../beside", "b.sqlite.0123cdef.new"] {
        let said = format!("process 1, 'gukoremo insert', since 2026-11-16T09:30:00.000000Z\nwrites {name}\n");
        std::fs::write(folder.path("b.lake.lock"), said).expect("written");
        answer(&["room", text(&path), "--records", "100"]);
        assert_eq!(folder.names().len(), kept.len() + 3, "{:?}", folder.names());
    }
    // a name so long that only the lock's has room beside it
    let long = folder.path(&"n".repeat(250));
    diary(&long);
}
