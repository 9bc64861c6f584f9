//! The lists of conformance/: written where both implementations agree, and played again against both.

use crate::play::{self, Pair, Played};
use crate::runs;
use crate::script::{self, Line};
use crate::{from_cases, moves, player, unmarked};
use cases::lists::Folder;
use std::fs;
use std::path::{Path, PathBuf};

/// Random lists: the seed of the first, how many, and how many calls each has.
const RANDOM: (u64, u64, usize) = (7_400, 12, 40);

/// A list with its answer area before each call, and what came of it after it. An error is a difference.
fn with_answers(lines: &[Line]) -> Result<String, String> {
    let mut pair = Pair::default();
    let mut all: Vec<Line> = Vec::new();
    let mut area = Line::Area { length: 0, fill: 0 };
    for line in lines {
        if matches!(line, Line::Area { .. }) {
            area = line.clone();
        } else if matches!(line, Line::Step(_)) && all.last() != Some(&area) {
            all.push(area.clone());
        }
        all.push(line.clone());
        if let Some(played) = pair.take(line).map_err(|how| format!("{line}: {how}"))? {
            all.extend([given(&played), Line::Sum(play::checksum(&pair.second, &played.area))]);
        }
    }
    Ok(script::text(&all))
}

fn given(played: &Played) -> Line {
    let outcome = &played.outcome;
    let mut words = vec![outcome.number, outcome.place, outcome.length as u64];
    words.extend(runs::counts(&outcome.counts));
    words.extend(played.area.get(..outcome.length).unwrap_or(&[]));
    Line::Given(words)
}

/// The name that a list of cases has for suppliers: its words run together, as in `soundFields`.
fn published(name: &str) -> String {
    let mut words = name.split('_');
    let first = words.next().unwrap_or_default().to_string();
    words.fold(first, |name, word| name + &word[..1].to_uppercase() + &word[1..])
}

/// Writes all the lists into a folder, from the cases in the other.
pub fn write(cases: &str, folder: &str) -> Result<String, String> {
    fs::create_dir_all(folder).map_err(|e| format!("{folder}: {e}"))?;
    let mut written = 0;
    let mut put = |name: &str, about: &str, lines: &[Line]| {
        let text = format!("# {about}\n{}", with_answers(lines).map_err(|how| format!("{name}: {how}"))?);
        written += 1;
        fs::write(Path::new(folder).join(format!("{name}.txt")), text).map_err(|e| format!("{name}: {e}"))
    };
    let found = Folder::read(cases)?;
    for list in &found.lists {
        let name = published(&list.name);
        put(&format!("cases-{name}"), &format!("the cases of {name}"), &from_cases::lines(&found, list)?)?;
    }
    put("diary", "the diary session, with the cases of it that are marked and those that are not", &unmarked::lines())?;
    let (first, count, calls) = RANDOM;
    for seed in first..first + count {
        let (_, lines) = player::play_alone(&moves::list_of(seed, calls))?;
        put(&format!("random-{seed}"), &format!("a random list of {calls} calls with readings between them"), &lines)?;
    }
    Ok(format!("conformance: {written} lists written to {folder}"))
}

/// The lists of a folder, or one list, by name.
pub fn lists(path: &str) -> Result<Vec<(String, String)>, String> {
    let mut files = vec![Path::new(path).to_path_buf()];
    if Path::new(path).is_dir() {
        files = fs::read_dir(path).map_err(|e| format!("{path}: {e}"))?.flatten().map(|entry| entry.path()).collect();
        files.retain(|file| file.extension().is_some_and(|e| e == "txt"));
        files.sort();
    }
    let named = |file: PathBuf| {
        let name = file.display().to_string();
        fs::read_to_string(file).map(|text| (name.clone(), text)).map_err(|e| format!("{name}: {e}"))
    };
    files.into_iter().map(named).collect()
}

/// Plays the lists of a folder, or one list, against both.
pub fn check(path: &str) -> Result<String, String> {
    let lists = lists(path)?;
    let mut calls = 0;
    for (name, text) in &lists {
        calls += check_list(text).map_err(|how| format!("{name}:{how}"))?;
    }
    match calls {
        0 => Err(format!("conformance: no call in {path}")),
        _ => Ok(format!("conformance: {} lists, {calls} calls as written, by both", lists.len())),
    }
}

/// Plays a list, and gives how many calls it has. Each must be followed by what it gives and by the checksum.
fn check_list(text: &str) -> Result<usize, String> {
    let mut pair = Pair::default();
    let mut last: Option<(Played, Vec<u64>)> = None;
    let mut calls = 0;
    let mut awaited = 0;
    for (at, line) in script::parse(text)? {
        match (&line, &last) {
            (Line::Given(words), Some((played, offending))) if awaited == 2 => {
                check_given(words, played, offending).map_err(|how| format!("{at}: {how}"))?
            }
            (Line::Sum(sum), Some((played, _))) if awaited == 1 => {
                let found = play::checksum(&pair.second, &played.area);
                if *sum != found {
                    return Err(format!("{at}: the checksum is {found:016x}"));
                }
            }
            (Line::Given(_) | Line::Sum(_), _) => return Err(format!("{at}: what comes of no call")),
            _ if awaited > 0 => return Err(format!("{at}: the call before has no '=' or no 'sum'")),
            (Line::Step(step), _) => {
                let offending = play::offending(step, &pair.second);
                let played = pair.take(&line).map_err(|how| format!("{at}: {how}"))?;
                last = played.map(|played| (played, offending));
                calls += 1;
                awaited = 3;
            }
            _ => {
                pair.take(&line).map_err(|how| format!("{at}: {how}"))?;
            }
        }
        awaited = usize::saturating_sub(awaited, 1);
    }
    match awaited {
        0 => Ok(calls),
        _ => Err("0: the last call has no '=' or no 'sum'".to_string()),
    }
}

/// Of 17 any offending place may be written.
fn check_given(words: &[u64], played: &Played, offending: &[u64]) -> Result<(), String> {
    let Line::Given(mut found) = given(played) else { return Ok(()) };
    if found[0] == 17 && words.get(1).is_some_and(|place| offending.contains(place)) {
        found[1] = words[1];
    }
    match found == words {
        true => Ok(()),
        false => Err(format!("it gives {}", Line::Given(found))),
    }
}
