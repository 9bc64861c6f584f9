//! Owner, group and mode: a changed catalogue keeps them, one that is read-only is not changed, and two users of a folder can both change it.

use crate::support::{answer, diary, gukoremo, text, Folder, COMMAND};
use std::fs::{metadata, set_permissions, Permissions};
use std::os::unix::fs::{chown, MetadataExt, PermissionsExt};
use std::os::unix::process::CommandExt;
use std::path::Path;
use std::process::{Command, Output};

fn mode(path: &Path) -> u32 {
    metadata(path).expect("there").mode() & 0o7777
}

fn set_mode(path: &Path, mode: u32) {
    set_permissions(path, Permissions::from_mode(mode)).expect("ours");
}

#[test]
fn modes_are_kept() {
    let folder = Folder::new("modes");
    let (path, lock) = (folder.path("m.lake"), folder.path("m.lake.lock"));
    diary(&path);
    for (kept, of_lock) in [(0o600, 0o600), (0o640, 0o640), (0o664, 0o664), (0o666, 0o666), (0o750, 0o640)] {
        set_mode(&path, kept);
        std::fs::remove_file(&lock).expect("there");
        answer(&["create-schema", text(&path), &format!("s{kept}")]);
        answer(&["cleanup", text(&path)]);
        assert_eq!((mode(&path), mode(&lock)), (kept, of_lock), "{kept:o}");
    }
}

/// Whoever asks, root too.
#[test]
fn a_read_only_file_is_not_changed() {
    let folder = Folder::new("readonly");
    let path = folder.path("r.lake");
    diary(&path);
    set_mode(&path, 0o444);
    std::fs::remove_file(folder.path("r.lake.lock")).expect("there");
    let before = (std::fs::read(&path).expect("there"), metadata(&path).expect("there").ino());
    for words in [vec!["create-schema", "books"], vec!["expire", "1"], vec!["cleanup"], vec!["room", "--records", "500"]] {
        let words: Vec<&str> = [&words[..1], &[text(&path)], &words[1..]].concat();
        let output = gukoremo(&words);
        let said = String::from_utf8_lossy(&output.stderr);
        assert_eq!(output.status.code(), Some(74), "{words:?}: {said}");
        assert!(said.contains("r.lake is read-only, and was not changed") && said.contains("its mode is 0444"), "{words:?}: {said}");
    }
    assert_eq!((std::fs::read(&path).expect("there"), metadata(&path).expect("there").ino()), before);
    assert_eq!(folder.names(), ["r.lake"]);
    answer(&["room", text(&path)]);
}

/// A user of this test, by number; only root can act as others.
struct User {
    id: u32,
    group: u32,
}

const GROUP: u32 = 42_000;
const ONE: User = User { id: 42_001, group: GROUP };
const OTHER: User = User { id: 42_002, group: GROUP };
const STRANGER: User = User { id: 42_003, group: 42_003 };

/// The command as this user, whose files are not the group's to write unless it is asked for.
fn by(user: &User, command: &Path, words: &[&str]) -> Output {
    let mut shell = Command::new("sh");
    shell.args(["-c", "umask 022; exec \"$0\" \"$@\"", text(command)]).args(words);
    shell.uid(user.id).gid(user.group).current_dir("/").output().expect("runs")
}

fn owner(path: &Path) -> (u32, u32, u32) {
    let there = metadata(path).expect("there");
    (there.uid(), there.gid(), there.mode() & 0o7777)
}

#[test]
fn two_users_of_a_folder() {
    let folder = Folder::new("users");
    let (command, shared) = (folder.path("gukoremo"), folder.path("shared"));
    let (path, lock) = (shared.join("s.lake"), shared.join("s.lake.lock"));
    std::fs::create_dir(&shared).expect("a folder");
    if chown(&shared, None, Some(GROUP)).is_err() {
        println!("two users of a folder: not tried, since that takes root");
        return;
    }
    std::fs::copy(COMMAND, &command).expect("copied");
    set_mode(&shared, 0o2775);
    let made = |output: Output| assert!(output.status.success(), "{}", String::from_utf8_lossy(&output.stderr));
    let refused = |output: Output, code: i32, word: &str| {
        let said = String::from_utf8_lossy(&output.stderr);
        assert_eq!(output.status.code(), Some(code), "{said}");
        assert!(said.contains(word), "{said}");
    };
    let schema = |user: &User, name: &str| by(user, &command, &["create-schema", text(&path), name]);
    // a catalogue that is its owner's alone to write
    made(by(&ONE, &command, &["init", text(&path)]));
    assert_eq!(owner(&path), (ONE.id, GROUP, 0o644));
    refused(schema(&OTHER, "a"), 74, "s.lake is read-only, and was not changed");
    // shared: the lock is still the one's to write, and the other can hold it all the same
    set_mode(&path, 0o664);
    assert_eq!(owner(&lock), (ONE.id, GROUP, 0o644));
    made(schema(&OTHER, "a"));
    assert_eq!(owner(&path), (OTHER.id, GROUP, 0o664));
    made(schema(&ONE, "b"));
    assert_eq!(owner(&path), (ONE.id, GROUP, 0o664));
    // a lock that is made beside a shared catalogue is shared
    std::fs::remove_file(&lock).expect("there");
    made(schema(&OTHER, "c"));
    assert_eq!(owner(&lock), (OTHER.id, GROUP, 0o664));
    made(schema(&ONE, "d"));
    // root's change leaves the catalogue its owner's
    std::fs::remove_file(&lock).expect("there");
    answer(&["create-schema", text(&path), "e"]);
    assert_eq!((owner(&path), owner(&lock)), ((ONE.id, GROUP, 0o664), (ONE.id, GROUP, 0o664)));
    // also where the folder gives its group to nothing
    set_mode(&shared, 0o777);
    made(by(&User { id: ONE.id, group: GROUP }, &command, &["create-schema", text(&path), "f"]));
    assert_eq!(owner(&path), (ONE.id, GROUP, 0o664));
    // whoever is not in the group can't keep it
    set_mode(&path, 0o666);
    set_mode(&lock, 0o666);
    let before = std::fs::read(&path).expect("there");
    refused(schema(&STRANGER, "g"), 74, "its group 42000 can't be kept");
    assert_eq!(std::fs::read(&path).expect("there"), before);
    // a folder that can be written and not read can't be synced: the change is made
    set_mode(&shared, 0o333);
    refused(schema(&ONE, "h"), 3, "is changed, but its folder could not be synced");
    set_mode(&shared, 0o755);
    assert!(answer(&["schemas", text(&path), "--csv"]).contains(",h,"));
    println!("two users of a folder: both can change the catalogue");
}
