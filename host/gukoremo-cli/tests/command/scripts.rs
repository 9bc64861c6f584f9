//! Random scripts: each line gets an answer, or the script a message with the line's number; never a panic.

use crate::support::Chance;
use gukoremo_cli::play::play;
use gukoremo_cli::runs::NAMES;
use std::panic::{catch_unwind, AssertUnwindSafe};

const SCRIPTS: u64 = 10_000;

fn word(chance: &mut Chance) -> String {
    match chance.below(12) {
        0 => "absent".to_string(),
        1 => (1_u64 << 62).to_string(),
        2 => chance.word().to_string(),
        3 => format!("0x{:x}", chance.word()),
        4 => format!("-{}", chance.below(1 << 40)),
        _ => chance.below(6).to_string(),
    }
}

fn words(chance: &mut Chance, most: u64) -> String {
    let words: Vec<String> = (0..chance.below(most)).map(|_| word(chance)).collect();
    format!("[{}]", words.join(" "))
}

fn name(chance: &mut Chance) -> String {
    chance.pick(&["diary", "main", "x", "x00", "xzz", "a_1", "ünï", "xffff", "0123456789012345678901234567890123"]).to_string()
}

/// A call that can be accepted, as a diary's calls are.
fn likely(chance: &mut Chance, time: u64) -> String {
    let low = chance.below(12);
    match chance.below(9) {
        0 => format!("create_schema {time} s{low}"),
        1 => format!("create_table {time} 0 t{low} [4 0 4 1] [item price]"),
        2 | 3 => format!("insert {time} {} 3 0 {low} [1 0 1 1 1 3 2 0 1 1 9 14]", 1 + chance.below(3)),
        4 | 5 => format!("delete {time} {} 0 {low} [{}]", chance.below(3), chance.below(3)),
        6 => format!("expire [{}] {time}", chance.below(6)),
        7 => format!("drop_table {time} {}", 1 + chance.below(3)),
        _ => format!("cleanup {time}"),
    }
}

fn line(chance: &mut Chance, time: u64) -> String {
    let run = chance.pick(&NAMES);
    match chance.below(24) {
        0 => format!("lend {run} {} {}", chance.below(300), if chance.below(2) == 0 { String::new() } else { word(chance) }),
        1 => format!("set {run} {} {} {}", chance.below(40), word(chance), word(chance)),
        2 => format!("counts {}", (0..9).map(|_| word(chance)).collect::<Vec<_>>().join(" ")),
        3 => format!("area {} {}", chance.below(40), word(chance)),
        4 => chance.pick(&["dump", "list", "end", "end"]).to_string(),
        5 => format!("create_schema {} {}", word(chance), name(chance)),
        6 => format!("create_table {} {} {} {} [{} {}]", word(chance), word(chance), name(chance), words(chance, 6), name(chance), name(chance)),
        7 => format!("insert {} {} {} {} {} {}", word(chance), word(chance), word(chance), word(chance), word(chance), words(chance, 14)),
        8 => format!("delete {} {} {} {} {}", word(chance), word(chance), word(chance), word(chance), words(chance, 4)),
        9 => format!("expire {} {}", words(chance, 4), word(chance)),
        10 => format!("table_by_name {} {} {}", word(chance), word(chance), name(chance)),
        11 => format!("list_filtered_files {} {} {} {}", word(chance), word(chance), word(chance), word(chance)),
        12 | 13 => {
            let call = chance.pick(&["list_schemas", "snapshot_by_time", "copy_file", "cleanup", "fresh"]);
            format!("{call} {}", word(chance))
        }
        14 | 15 => {
            let call = chance.pick(&["list_tables", "list_columns", "list_files", "list_rows", "drop_table", "drop_schema"]);
            format!("{call} {} {}", word(chance), word(chance))
        }
        _ => likely(chance, time),
    }
}

/// A reading that can be answered.
fn reading(chance: &mut Chance) -> String {
    let (at, id) = (chance.below(9), chance.below(4));
    match chance.below(8) {
        0 => format!("list_schemas {at}"),
        1 => format!("list_tables {at} 0"),
        2 => format!("list_columns {at} {id}"),
        3 => format!("list_files {at} {id}"),
        4 => format!("list_rows {at} {id}"),
        5 => format!("list_filtered_files {at} {id} 1 2"),
        6 => format!("snapshot_by_time {}", 95 + chance.below(30)),
        _ => format!("copy_file {id}"),
    }
}

fn script(chance: &mut Chance) -> Vec<u8> {
    let mut text = String::new();
    if chance.below(8) > 0 {
        NAMES.iter().for_each(|run| text.push_str(&format!("lend {run} {}\n", 70 + chance.below(300))));
        text.push_str("area 64\nfresh 100\n");
    }
    (0..chance.below(30)).for_each(|at| text.push_str(&(line(chance, 110 + at) + "\n")));
    let mut bytes = text.into_bytes();
    // a few are cut or have a byte changed, as a bad disk would
    if chance.below(4) == 0 && !bytes.is_empty() {
        let at = chance.below(bytes.len() as u64) as usize;
        match chance.below(2) {
            0 => bytes.truncate(at),
            _ => bytes[at] = chance.word() as u8,
        }
    }
    bytes
}

#[test]
fn every_script_is_answered() {
    let (mut whole, mut lines, mut accepted) = (0, 0, 0);
    for seed in 0..SCRIPTS {
        let bytes = script(&mut Chance::new(1000 + seed));
        let mut out = Vec::new();
        let played = catch_unwind(AssertUnwindSafe(|| play(&bytes[..], &mut out)));
        let played = played.unwrap_or_else(|_| panic!("script {seed} panics:\n{}", String::from_utf8_lossy(&bytes)));
        let text = String::from_utf8(out).expect("answers are text");
        lines += text.lines().count();
        accepted += text.lines().filter(|line| line.starts_with("0 0 ")).count();
        match played {
            Ok(()) => whole += 1,
            Err(failure) => {
                let at = failure.what.strip_prefix("line ").and_then(|rest| rest.split(':').next()?.parse::<usize>().ok());
                let in_script = at.is_some_and(|at| at >= 1 && at <= bytes.split(|byte| *byte == b'\n').count());
                assert!(in_script && failure.code == 65, "script {seed}: {}", failure.what);
            }
        }
    }
    println!("{SCRIPTS} scripts: {whole} played to their end, {lines} answers, {accepted} accepted");
    assert!(whole > 1_000 && accepted > 10_000, "{whole} played to their end, {accepted} calls accepted");
}

/// What a script answers; it must be played to its end.
fn answers(script: &str) -> Vec<String> {
    let mut out = Vec::new();
    play(script.as_bytes(), &mut out).unwrap_or_else(|failure| panic!("{failure}{script}"));
    String::from_utf8(out).expect("answers are text").lines().map(str::to_string).collect()
}

/// A list says of each call what the call says alone, and leaves the same runs and counts.
#[test]
fn lists_are_their_calls() {
    let mut accepted = 0;
    for seed in 0..500 {
        let mut chance = Chance::new(90_000 + seed);
        let mut start: String = NAMES.iter().map(|run| format!("lend {run} {}\n", 70 + chance.below(300))).collect();
        start += "area 4096\nfresh 100\n";
        let calls: Vec<String> =
            (0..1 + chance.below(30)).map(|at| if chance.below(2) == 0 { likely(&mut chance, 110 + at) } else { reading(&mut chance) }).collect();
        let calls_text = calls.join("\n");
        let alone = answers(&format!("{start}{calls_text}\ndump\n"));
        let listed = answers(&format!("{start}list\n{calls_text}\nend\ndump\n"));
        let (ends, lines) = (1 + calls.len(), |line: &String| line.split(' ').map(str::to_string).collect::<Vec<String>>());
        for (one, other) in alone[1..ends].iter().zip(&listed[1..ends]) {
            let (mut one, other) = (lines(one), lines(other));
            one.drain(3..12);
            assert_eq!(one, other, "script {seed}:\n{calls_text}");
            accepted += u64::from(one[0] == "0");
        }
        assert_eq!(lines(&alone[ends - 1])[3..12], lines(&listed[ends])[2..], "script {seed}");
        assert_eq!(lines(&listed[ends])[0], calls.len().to_string(), "script {seed}");
        // all of the dump but the area
        assert_eq!(alone[ends..alone.len() - 1], listed[ends + 1..listed.len() - 1], "script {seed}");
    }
    assert!(accepted > 2_000, "{accepted} accepted");
}
