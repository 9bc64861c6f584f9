//! `diff`: what two catalogues don't share, a line for each difference. Each is read through the compiled calls; all that they show of a snapshot is compared,
//! or with `--all` all that is on record.

use crate::contents::{self, Node};
use crate::failure::{code, Failure};
use crate::file;
use crate::list::{output, Cell, Form, List};
use crate::readings::form;
use crate::refused::ranges;
use clap::ArgMatches;
use gukoremo::SnapshotId;
use std::collections::{HashMap, VecDeque};
use std::path::PathBuf;

pub fn run(given: &ArgMatches) -> Result<u8, Failure> {
    let path = |name: &str| given.get_one::<PathBuf>(name).expect("required");
    let (mut a, mut b) = (file::read(path("file"))?, file::read(path("other"))?);
    let (of_a, of_b) = (contents::snapshots(&a)?, contents::snapshots(&b)?);
    let both: Vec<SnapshotId> =
        pairs(&of_a, &of_b).into_iter().filter_map(|(one, other)| one.zip(other).map(|(one, _)| SnapshotId(one.id))).collect();
    let mut found = Found { list: List::new(&["what", "snapshot", "of", "in_a", "in_b"]) };
    let same = if let Some(at) = given.get_one("at") {
        let at = SnapshotId(*at);
        let only = |all: Vec<Node>| all.into_iter().filter(|one| one.id == at.0).collect::<Vec<Node>>();
        // refused where one of the two does not retain it
        let (shown_a, shown_b) = (contents::shown(&mut a, at)?, contents::shown(&mut b, at)?);
        found.compare(&only(of_a), &only(of_b));
        found.compare(&shown_a, &shown_b);
        format!("show the same at snapshot {}", at.0)
    } else if given.get_flag("all") {
        found.compare(&of_a, &of_b);
        found.compare(&contents::on_record(&a)?, &contents::on_record(&b)?);
        // rows are read from the records: where these are the same, so are the rows
        let mut rest = if found.list.rows.is_empty() { &[] } else { &both[..] };
        while !rest.is_empty() {
            let (now, later) = rest.split_at(contents::together(&a, rest).min(contents::together(&b, rest)));
            for (of_a, of_b) in contents::rows(&mut a, now).into_iter().zip(contents::rows(&mut b, now)) {
                found.rows(&of_a?, &of_b?);
            }
            rest = later;
        }
        "have the same on record".to_string()
    } else {
        found.compare(&of_a, &of_b);
        let at = both.last().copied();
        if let Some(at) = at {
            found.compare(&contents::shown(&mut a, at)?, &contents::shown(&mut b, at)?);
        }
        format!("have the same snapshots and show the same at snapshot {}; --all compares all that is on record", at.map_or(0, |at| at.0))
    };
    let is_same = found.list.rows.is_empty();
    let said = match form(given) {
        Form::Terminal if is_same => output(|out| writeln!(out, "{} and {} {same}.", path("file").display(), path("other").display())),
        form => found.list.print(form),
    };
    let exit = if is_same { 0 } else { code::NO };
    // a reader that went away leaves the answer as it is
    said.map_err(|failure| Failure { code: if failure.code == 0 { exit } else { failure.code }, ..failure })?;
    Ok(exit)
}

type Pair<'a> = (Option<&'a Node>, Option<&'a Node>);

/// What is to be held against what: of one kind, those of the same name and id, then of the same name, then of the same id. The rest is in one alone.
fn pairs<'a>(a: &'a [Node], b: &'a [Node]) -> Vec<Pair<'a>> {
    let mut found: Vec<Option<usize>> = vec![None; a.len()];
    let mut taken = vec![false; b.len()];
    for (by_name, by_id) in [(true, true), (true, false), (false, true)] {
        let key = |node: &'a Node| (node.kind, by_name.then_some(node.name.as_str()), by_id.then_some(node.id));
        let mut left: HashMap<_, VecDeque<usize>> = HashMap::new();
        (0..b.len()).filter(|at| !taken[*at]).for_each(|at| left.entry(key(&b[at])).or_default().push_back(at));
        for (one, found) in a.iter().zip(&mut found).filter(|(_, found)| found.is_none()) {
            *found = left.get_mut(&key(one)).and_then(VecDeque::pop_front);
            if let Some(at) = *found {
                taken[at] = true;
            }
        }
    }
    let of_a = a.iter().zip(found).map(|(one, found)| (Some(one), found.map(|at| &b[at])));
    let only_in_b = b.iter().zip(taken).filter(|(_, taken)| !taken).map(|(other, _)| (None, Some(other)));
    of_a.chain(only_in_b).collect()
}

/// The differences, one a line.
struct Found {
    list: List,
}

impl Found {
    /// What A has and what B has; nothing where it is not there.
    fn add(&mut self, what: String, node: &Node, in_a: Option<String>, in_b: Option<String>) {
        let side = |side: Option<String>| side.map_or(Cell::Nothing, Cell::Text);
        let snapshot = node.snapshot.map_or(Cell::Nothing, Cell::Number);
        self.list.rows.push(vec![Cell::Text(what), snapshot, Cell::Text(node.place.clone()), side(in_a), side(in_b)]);
    }

    fn compare(&mut self, a: &[Node], b: &[Node]) {
        for pair in pairs(a, b) {
            match pair {
                (Some(one), Some(other)) => {
                    for ((field, of_a), (_, of_b)) in one.fields.iter().zip(&other.fields).filter(|(of_a, of_b)| of_a.1 != of_b.1) {
                        self.add(format!("{} {field}", one.kind), one, Some(of_a.clone()), Some(of_b.clone()));
                    }
                    self.numbers(one, other);
                    self.compare(&one.parts, &other.parts);
                }
                (Some(one), None) => self.add(one.kind.to_string(), one, Some(one.summary()), None),
                (None, Some(other)) => self.add(other.kind.to_string(), other, None, Some(other.summary())),
                (None, None) => {}
            }
        }
    }

    /// Rows or positions: those that only one of the two has.
    fn numbers(&mut self, one: &Node, other: &Node) {
        if let (Some((what, of_a)), Some((_, of_b))) = (&one.numbers, &other.numbers) {
            let only = |own: &[u64], others: &[u64]| own.iter().copied().filter(|number| others.binary_search(number).is_err()).collect::<Vec<u64>>();
            let (in_a, in_b) = (only(of_a, of_b), only(of_b, of_a));
            let side = |only: Vec<u64>| (!only.is_empty()).then(|| ranges(&only));
            if !in_a.is_empty() || !in_b.is_empty() {
                self.add(format!("{} {what}", one.kind), one, side(in_a), side(in_b));
            }
        }
    }

    /// The rows alone, of tables that both have.
    fn rows(&mut self, a: &[Node], b: &[Node]) {
        for (one, other) in pairs(a, b).into_iter().filter_map(|(one, other)| one.zip(other)) {
            self.numbers(one, other);
        }
    }
}
