//! Plays the cases of crates/ducklake/proofs/cases through the compiled calls, and compares: number, place, length, counts, every word and byte of the
//! tables, of the answer area, and of what lies beside them.
//!
//! The files are read as they stand. Which list goes on from which is read in Cases.antt, where each is proved of the definitions; the format is
//! described in Lines.antt. The cases of soundness/ come before them, and go to the check alone.
#![forbid(unsafe_code)]

mod calls;
mod lending;
mod soundness;

use calls::Played;
use cases::lists::Folder;
use cases::runs::{self, Case};
use std::collections::BTreeMap;
use std::process::ExitCode;

/// How many cases there were of a call, and how many of them agreed.
#[derive(Default)]
struct Tally {
    cases: usize,
    agreed: usize,
}

fn main() -> ExitCode {
    let Some(folder) = std::env::args().nth(1) else {
        eprintln!("usage: cases FOLDER");
        return ExitCode::from(2);
    };
    let sound = soundness::play(&folder);
    match &sound {
        Ok(said) | Err(said) => println!("{said}"),
    }
    match Folder::read(&folder) {
        Err(error) => {
            eprintln!("cases: {error}");
            ExitCode::from(2)
        }
        Ok(folder) if sound.is_ok() => play(&folder),
        Ok(folder) => {
            play(&folder);
            ExitCode::FAILURE
        }
    }
}

/// Plays every list, and says what became of it.
fn play(folder: &Folder) -> ExitCode {
    let mut tallies: BTreeMap<u64, Tally> = BTreeMap::new();
    let mut lines = 0;
    let mut differences = 0;
    for list in &folder.lists {
        let mut case = Case::from(runs::kept_before(folder, list));
        for line in &folder.lines[&list.name] {
            lines += 1;
            let Some(call) = case.take(line) else { continue };
            let tally = tallies.entry(call.code).or_default();
            tally.cases += 1;
            match calls::play(&call) {
                Played::Agrees => tally.agreed += 1,
                Played::Unplayed => {}
                Played::Differs(how) => {
                    differences += 1;
                    println!("{}:{}: {}: {how}", list.file, line.number, calls::name(call.code));
                }
            }
        }
    }
    report(folder, &tallies, lines, differences)
}

fn report(folder: &Folder, tallies: &BTreeMap<u64, Tally>, lines: usize, differences: usize) -> ExitCode {
    for (code, tally) in tallies {
        match calls::reason_unplayed(*code) {
            None => println!("{}: {} of {} agree", calls::name(*code), tally.agreed, tally.cases),
            Some(reason) => println!("{}: {} not played: {reason}", calls::name(*code), tally.cases),
        }
    }
    for file in &folder.without_lines {
        println!("{file}: no list of lines in it; what it holds is proved there");
    }
    let cases: usize = tallies.values().map(|t| t.cases).sum();
    let agreed: usize = tallies.values().map(|t| t.agreed).sum();
    println!(
        "{} lists, {lines} lines, {cases} cases: {agreed} agree, {differences} differ, {} not played",
        folder.lists.len(),
        cases - agreed - differences
    );
    match cases > 0 && agreed > 0 && differences == 0 {
        true => ExitCode::SUCCESS,
        false => ExitCode::FAILURE,
    }
}
