//! The lists of lines, out of the files of the proofs.

use crate::codes;
use crate::names::{Module, Names, Value};
use crate::terms::Reader;
use std::collections::{BTreeMap, BTreeSet};
use std::fs;
use std::path::Path;
use std::rc::Rc;

/// A line as its words, and where it begins in its file.
pub struct Line {
    pub number: usize,
    pub words: Vec<u64>,
}

/// A list that is proved: its name and file, and the lists that come before it, from no run at all.
pub struct List {
    pub name: String,
    pub file: String,
    pub after: Vec<String>,
}

pub struct Folder {
    pub lists: Vec<List>,
    pub lines: BTreeMap<String, Vec<Line>>,
    /// the files that have no list of lines
    pub without_lines: Vec<String>,
}

impl Folder {
    /// Reads every file of the folder. Each list of lines has to be proved in Cases.antt, and each that is proved there
    /// has to be found. Lines, runs and calls have to have the numbers in Names.antt that they have here.
    pub fn read(folder: &str) -> Result<Folder, String> {
        let mut files: Vec<_> = fs::read_dir(folder).map_err(|e| format!("{folder}: {e}"))?.flatten().map(|entry| entry.path()).collect();
        files.retain(|path| path.extension().is_some_and(|e| e == "antt"));
        files.sort();
        let mut names = Names::around(folder)?;
        check_codes(&mut names, folder)?;
        let mut lines = BTreeMap::new();
        let mut where_it_is = BTreeMap::new();
        let mut without_lines = Vec::new();
        for path in &files {
            let module = names.module(path)?;
            let file = module.file.clone();
            let found = lists_in(&mut names, &module)?;
            if found.is_empty() {
                without_lines.push(file.clone());
            }
            for (name, list) in found {
                where_it_is.insert(name.clone(), file.clone());
                lines.insert(name, list);
            }
        }
        let proved = fs::read_to_string(Path::new(folder).join("Cases.antt")).map_err(|e| format!("Cases.antt: {e}"))?;
        let lists = proved_lists(&proved, &where_it_is)?;
        let named: BTreeSet<&String> = lists.iter().map(|list| &list.name).collect();
        match lines.keys().find(|name| !named.contains(name)) {
            Some(name) => Err(format!("{}: the list {name} is not proved in Cases.antt, so nothing says where it begins", where_it_is[name])),
            None => Ok(Folder { lists, lines, without_lines }),
        }
    }
}

/// The codes that are known here are those that Names.antt has.
fn check_codes(names: &mut Names, folder: &str) -> Result<(), String> {
    let module = names.module(&Path::new(folder).join("Names.antt"))?;
    for (name, code) in codes::ALL {
        let found = names.number(&module, name)?;
        if found != *code {
            return Err(format!("{}: {name} is {found}, and {code} is what it is known by", module.file));
        }
    }
    Ok(())
}

/// The lists of a file: those with the type of a list of lines.
fn lists_in(names: &mut Names, module: &Rc<Module>) -> Result<Vec<(String, Vec<Line>)>, String> {
    let declared = module.declared(" : List (List ℕ)");
    declared.into_iter().map(|name| Ok((name.clone(), lines_of(names, module, &name)?))).collect()
}

/// The lines of `NAME = (..) ∷ (..) ∷ []`.
fn lines_of(names: &mut Names, module: &Rc<Module>, name: &str) -> Result<Vec<Line>, String> {
    let clauses = module.clauses(name)?.unwrap_or_default();
    let [tokens] = &clauses[..] else { return Err(format!("{}: {name} is not one list", module.file)) };
    let mut reader = Reader::new(tokens);
    if !(reader.takes(name) && reader.takes("=")) {
        return Err(format!("{}: {name} has arguments", module.file));
    }
    let mut lines = Vec::new();
    while !reader.takes("[]") {
        let number = reader.line().ok_or_else(|| format!("{}: {name} has no end", module.file))?;
        let at = |how: String| format!("{}:{number}: {how}", module.file);
        let term = reader.atom().ok_or_else(|| at("a line that can't be read".to_string()))?;
        let words = words_of(names.value(module, &BTreeMap::new(), &term).map_err(at)?).ok_or_else(|| at("not a list of words".to_string()))?;
        lines.push(Line { number, words });
        if !reader.takes("∷") {
            return Err(at(format!("no line comes after this one of {name}, nor its end")));
        }
    }
    Ok(lines)
}

fn words_of(value: Value) -> Option<Vec<u64>> {
    let Value::List(values) = value else { return None };
    let word = |value| match value {
        Value::Number(number) => u64::try_from(number).ok(),
        Value::List(_) => None,
    };
    values.into_iter().map(word).collect()
}

/// What Cases.antt proves, `NAME : wrong STATE LIST ≡ []`, where a state is `start` or defined by `STATE = after STATE LIST`.
fn proved_lists(text: &str, files: &BTreeMap<String, String>) -> Result<Vec<List>, String> {
    let mut states = BTreeMap::from([("start".to_string(), Vec::new())]);
    let mut lists = Vec::new();
    for line in text.lines() {
        let words: Vec<&str> = line.split(' ').collect();
        match words[..] {
            [state, "=", "after", before, list] => {
                let mut after: Vec<String> = states.get(before).ok_or(format!("Cases.antt: no state {before}"))?.clone();
                after.push(list.to_string());
                states.insert(state.to_string(), after);
            }
            [_, ":", "wrong", state, list, "≡", "[]"] => {
                let after = states.get(state).ok_or(format!("Cases.antt: no state {state}"))?.clone();
                let file = files.get(list).ok_or(format!("Cases.antt: no list {list} in the folder"))?.clone();
                lists.push(List { name: list.to_string(), file, after });
            }
            _ => {}
        }
    }
    Ok(lists)
}
