//! Damaged, truncated and foreign files: a clear error, and no panic.

use crate::support::{diary, gukoremo, text, Chance, Folder};
use gukoremo_cli::runs::{self, Run};
use gukoremo_cli::{file, format};
use std::path::Path;

/// Whatever is done to the bytes, they are found damaged, or are the same as before.
#[test]
fn damaged_bytes_are_found() {
    let folder = Folder::new("bytes");
    let path = folder.path("d.lake");
    diary(&path);
    let whole = std::fs::read(&path).expect("there");
    let mut chance = Chance::new(2);
    for round in 0..10_000 {
        let mut bytes = whole.clone();
        for _ in 0..=chance.below(4) {
            let at = chance.below(bytes.len() as u64) as usize;
            match chance.below(5) {
                0 => bytes.truncate(at.max(1)),
                1 => bytes.insert(at, chance.word() as u8),
                2 => bytes[at..].fill(chance.word() as u8),
                _ => bytes[at] ^= 1 << chance.below(8),
            }
        }
        let read = format::decode(Path::new("d"), &bytes);
        assert!(read.is_err() || bytes == whole, "round {round}");
    }
}

#[test]
fn damaged_files_are_said_to_be() {
    let folder = Folder::new("files");
    let path = folder.path("d.lake");
    diary(&path);
    let whole = std::fs::read(&path).expect("there");
    let foreign: Vec<(Vec<u8>, &str)> = vec![
        (Vec::new(), "no catalogue"),
        (b"PAR1 and more".to_vec(), "no catalogue"),
        (whole[..5].to_vec(), "damaged"),
        (whole[..100].to_vec(), "damaged"),
        (whole[..whole.len() - 1].to_vec(), "truncated"),
        ([&whole[..], b"x"].concat(), "too long"),
        ([&whole[..8], &[9], &whole[9..]].concat(), "version 9"),
        (whole.iter().enumerate().map(|(at, byte)| if at == 400 { byte ^ 1 } else { *byte }).collect(), "checksum"),
    ];
    for (bytes, word) in foreign {
        std::fs::write(&path, &bytes).expect("written");
        for words in [vec!["check"], vec!["snapshots"], vec!["files", "--table", "1"], vec!["create-schema", "books"]] {
            let words: Vec<&str> = [&words[..1], &[text(&path)], &words[1..]].concat();
            let output = gukoremo(&words);
            let said = String::from_utf8_lossy(&output.stderr).into_owned();
            assert_eq!(output.status.code(), Some(65), "{words:?}: {said}");
            assert!(said.contains(word), "{words:?}: {said}");
        }
        assert_eq!(std::fs::read(&path).expect("there"), bytes);
    }
    // longer than any catalogue: no more of it is read than one can have
    std::fs::write(&path, &whole).expect("written");
    std::fs::OpenOptions::new().write(true).open(&path).and_then(|file| file.set_len(5 << 30)).expect("a file with a hole");
    let output = gukoremo(&["check", text(&path)]);
    let said = String::from_utf8_lossy(&output.stderr);
    assert_eq!(output.status.code(), Some(65));
    assert!(said.contains("too large: no catalogue has more than ") && !said.contains("it has "), "{said}");
    assert_eq!(gukoremo(&["check", text(&folder.path("none.lake"))]).status.code(), Some(66));
    assert_eq!(gukoremo(&["check", "/"]).status.code(), Some(65));
    assert_eq!(gukoremo(&["check", "/dev/null"]).status.code(), Some(65));
}

/// Tables that were damaged before their file was written: the checksum is right, and what they hold is anything. Each command answers or refuses; what
/// `check` calls sound is read, and what it does not has a line that fails.
#[test]
fn any_tables_are_answered() {
    let folder = Folder::new("tables");
    let path = folder.path("t.lake");
    diary(&path);
    let (whole, counts) = file::read(&path).expect("there").into_parts();
    let mut chance = Chance::new(3);
    let mut unsound = 0;
    for round in 0..60 {
        let mut tables = whole.clone();
        let mut used = runs::words_of(counts);
        for _ in 0..=chance.below(3) {
            let value = [0, 1, 2, 5, u64::MAX, 1 << 62, chance.word()][chance.below(7) as usize];
            if chance.below(8) == 0 {
                used[chance.below(9) as usize] = value as usize;
            }
            let which = chance.below(12) as usize;
            match &mut runs::all(&mut tables)[which] {
                Run::Words(words) => words[chance.below(40) as usize] = value,
                Run::Bytes(bytes) => bytes[chance.below(60) as usize] = value as u8,
            }
        }
        std::fs::write(&path, format::encode(&tables, runs::counts_of(used))).expect("written");
        let check = gukoremo(&["check", text(&path)]);
        let said = String::from_utf8_lossy(&check.stdout).into_owned();
        let sound = check.status.success();
        assert_eq!(sound, said.contains(": sound."), "round {round}: {said}");
        assert_eq!(check.status.code() == Some(1), said.contains("fails first"), "round {round}: {said}");
        unsound += u32::from(!sound);
        for words in [
            vec!["snapshots"],
            vec!["scheduled"],
            vec!["room"],
            vec!["tables", "--at", "3"],
            vec!["columns", "--table", "diary"],
            vec!["files", "--table", "main.diary", "--where", "price=14"],
            vec!["rows", "--table", "1", "--at", "5"],
            vec!["lookup", "0"],
            vec!["insert", "--table", "diary", "--rows", "3", "item=1..3", "price=9..14"],
            vec!["expire", "1..2"],
        ] {
            let words: Vec<&str> = [&words[..1], &[text(&path)], &words[1..]].concat();
            let output = gukoremo(&words);
            assert!(sound || output.status.code() == Some(201), "round {round}, {words:?}: {}", String::from_utf8_lossy(&output.stderr));
        }
    }
    assert!(unsound > 20 && unsound < 60, "{unsound} of 60 are not sound");
}

/// What is missing is named: the file, or the folder that it is to be in.
#[test]
fn a_missing_folder_is_said_to_be() {
    let folder = Folder::new("missing");
    let (path, out) = (folder.path("none/new.lake"), folder.path("none/out.sqlite"));
    let there = folder.path("m.lake");
    diary(&there);
    for words in [vec!["init", text(&path)], vec!["snapshots", text(&path)], vec!["export", text(&there), text(&out)]] {
        let output = gukoremo(&words);
        let said = String::from_utf8_lossy(&output.stderr);
        assert_eq!(output.status.code(), Some(66), "{words:?}: {said}");
        assert!(said.contains("there is no folder ") && !said.contains("gukoremo init"), "{words:?}: {said}");
    }
    let said = gukoremo(&["snapshots", text(&folder.path("none.lake"))]).stderr;
    assert!(String::from_utf8_lossy(&said).contains("gukoremo init"));
}
