//! `apply`: a batch of changes from a file or the standard input, in one process, with one write of the catalogue.

use crate::arguments;
use crate::changes::batch::{self, Played};
use crate::changes::change::{value, Change};
use crate::changes::done::Done;
use crate::changes::{path, say, wait};
use crate::failure::{code, Failure};
use crate::file::Writing;
use crate::json;
use crate::list::{output, Cell, Form};
use crate::readings::json_form;
use crate::values::times;
use clap::{ArgMatches, Command};
use std::io::{self, Read, Write};
use std::path::{Path, PathBuf};

/// A line that is a change.
struct Line {
    number: usize,
    name: String,
}

pub fn run(given: &ArgMatches) -> Result<u8, Failure> {
    let text = read(&value::<PathBuf>(given, "changes"))?;
    let (writing, lake) = Writing::open(&path(given), wait(given))?;
    // under the lock, so that no one else's change has a later time than the clock's here
    let (lines, changes) = parse(&text)?;
    let Played { lake, done, failure } = batch::play(lake, &changes);
    let made = if given.get_flag("atomic") && failure.is_some() { 0 } else { done.len() };
    let form = json_form(given);
    let failure = failure.map(|failure| at_line(failure, lines[done.len()].number, made));
    if made == 0 {
        return match failure {
            Some(failure) => Err(failure),
            None => output(|out| write(&lines, &done, form, out)).map(|()| 0),
        };
    }
    let sentence = match &failure {
        None => format!("all {made} changes were made."),
        Some(failure) => failure.what.clone(),
    };
    let said = say(writing.prepare(lake)?, &done, &changes[..made], &sentence, |out| write(&lines, &done, form, out));
    match (said, failure) {
        // a reader that went away is no failure, and the refusal is
        (Err(said), failure) if !said.what.is_empty() || failure.is_none() => Err(said),
        (_, Some(failure)) => Err(failure),
        _ => Ok(0),
    }
}

/// The text of a file, or of the standard input for `-`.
fn read(from: &Path) -> Result<String, Failure> {
    let mut text = String::new();
    let done = if from == Path::new("-") {
        io::stdin().read_to_string(&mut text).map(|_| ())
    } else {
        std::fs::File::open(from).and_then(|mut file| file.read_to_string(&mut text)).map(|_| ())
    };
    done.map_err(|error| match error.kind() {
        io::ErrorKind::InvalidData => Failure::new(code::DATA, format!("{} is no text in UTF-8, and nothing was done.", from.display())),
        _ => Failure::io(from, "read", error).advice("give the path of a file with a change on each line, or - for the standard input."),
    })?;
    Ok(text)
}

/// The changes of a text, and where they stand. Each has the clock's time unless it gives one, later than the one before: what a line schedules, the cleanup of a line
/// below hands out.
fn parse(text: &str) -> Result<(Vec<Line>, Vec<Change>), Failure> {
    let mut commands = arguments::lines();
    let (mut lines, mut changes, mut now) = (Vec::new(), Vec::new(), 0);
    for (number, line) in (1..).zip(text.lines()) {
        let words = words(line).map_err(|why| wrong(number, why))?;
        let Some(name) = words.first() else { continue };
        now = times::now().max(now + 1);
        changes.push(parse_change(&mut commands, &words, now).map_err(|why| wrong(number, why))?);
        lines.push(Line { number, name: name.clone() });
    }
    Ok((lines, changes))
}

/// The words of a line, as a shell finds them; none where it is blank or a comment.
fn words(line: &str) -> Result<Vec<String>, Failure> {
    shlex::split(line).ok_or_else(|| Failure::new(code::DATA, "a quote or a backslash at the end stands open."))
}

fn parse_change(commands: &mut [Command], words: &[String], now: u64) -> Result<Change, Failure> {
    let Some(command) = commands.iter_mut().find(|command| command.get_name() == words[0]) else {
        let names: Vec<&str> = commands.iter().map(|command| command.get_name()).collect();
        return Err(Failure::new(code::DATA, format!("'{}' is no change.", words[0])).why(format!("changes are {}.", names.join(", "))));
    };
    // clap's own words, without the usage that comes after them
    let first = |error: clap::Error| {
        let said = error.to_string();
        let what = said.strip_prefix("error: ").unwrap_or(&said).split("\n\n").next().unwrap_or_default();
        Failure::new(code::DATA, format!("{}.", what.lines().map(str::trim).collect::<Vec<&str>>().join(" ")))
    };
    let given = command.try_get_matches_from_mut(words).map_err(first)?;
    Change::read(&words[0], &given, now)
}

/// A line that is not understood.
fn wrong(number: usize, failure: Failure) -> Failure {
    let advice = "give on each line a change as the command takes it, without gukoremo and the file; see 'gukoremo apply --help'.";
    let failure = if failure.advice.is_empty() { failure.advice(advice) } else { failure };
    let what = failure.what.replace(", and nothing was done", "");
    at_line(Failure { code: code::DATA, what, ..failure }, number, 0)
}

/// The failure of a change, with its line and what became of the others.
fn at_line(failure: Failure, number: usize, made: usize) -> Failure {
    let others = match made {
        0 => "No change was made.".to_string(),
        1 => "The change before it was made.".to_string(),
        _ => format!("The {made} changes before it were made."),
    };
    Failure { what: format!("line {number}: {} {others}", failure.what), ..failure }
}

/// What was done: as each change says it alone, or a record for each with its line.
fn write(lines: &[Line], done: &[Done], form: Form, out: &mut dyn Write) -> io::Result<()> {
    if form != Form::Json {
        return done.iter().try_for_each(|one| one.write(form, out));
    }
    let record = |(line, one): (&Line, &Done)| {
        let place = [("line", Cell::Number(line.number as u64)), ("change", Cell::Text(line.name.clone()))];
        Cell::Record(place.into_iter().chain(one.fields()).collect())
    };
    json::write_lines(lines.iter().zip(done).map(record), out)
}
