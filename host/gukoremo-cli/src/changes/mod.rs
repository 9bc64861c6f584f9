//! The commands that change a catalogue: read under the lock, one call, written beside and put in place, and only then said.

pub mod batch;
pub mod change;
pub mod done;
mod live;
mod plan;

use crate::failure::{code, Failure};
use crate::file::Writing;
use crate::list::{hand_out, output};
use crate::readings::form;
use crate::values::times;
use batch::Played;
use change::{value, Change};
use clap::ArgMatches;
use done::Done;
use std::io::{self, Write};
use std::path::PathBuf;
use std::time::Duration;

/// One change, which is a batch of one.
pub fn run(name: &str, given: &ArgMatches) -> Result<u8, Failure> {
    let (writing, lake) = Writing::open(&path(given), wait(given))?;
    let change = Change::read(name, given, times::now())?;
    let Played { lake, done, failure } = batch::play(lake, std::slice::from_ref(&change));
    if let Some(failure) = failure {
        return Err(failure);
    }
    let prepared = writing.prepare(lake)?;
    let form = form(given);
    let sentence: Vec<String> = done.iter().map(Done::sentence).collect();
    say(prepared, &done, &[change], &sentence.join(" "), |out| done.iter().try_for_each(|one| one.write(form, out)))?;
    Ok(0)
}

/// Puts a changed catalogue in place and says what was done. Of a cleanup the list is out, and on the disk where it goes to a file, before the catalogue forgets the
/// files: whatever happens in between, no file is forgotten that was not handed out.
pub fn say(
    prepared: crate::file::Prepared<'_>,
    done: &[Done],
    changes: &[Change],
    sentence: &str,
    write: impl FnOnce(&mut dyn Write) -> io::Result<()>,
) -> Result<(), Failure> {
    if done.iter().any(|one| matches!(one, Done::Cleanup(_))) {
        hand_out(write).map_err(|why| {
            Failure::new(code::IO, "The list could not be written, so the files are still scheduled.")
                .why(format!("{why}."))
                .advice("give it a place to be written to, such as a file: 'gukoremo cleanup FILE > LIST'.")
        })?;
        prepared.put()?;
        warn_of_times(changes);
        return Ok(());
    }
    prepared.put()?;
    warn_of_times(changes);
    output(write).map_err(|failure| failure.after_change(sentence))
}

pub fn path(given: &ArgMatches) -> PathBuf {
    value(given, "file")
}

pub fn wait(given: &ArgMatches) -> Duration {
    Duration::from_secs(value(given, "wait"))
}

/// What waits has a warning, for the last of the times that are ahead of the clock.
fn warn_of_times(changes: &[Change]) {
    let mut last: Vec<(u64, &str)> = Vec::new();
    for (time, waits) in changes.iter().filter_map(Change::time) {
        match last.iter_mut().find(|(_, known)| *known == waits) {
            Some((known, _)) => *known = time.max(*known),
            None => last.push((time, waits)),
        }
    }
    last.into_iter().for_each(|(time, waits)| warn_of_time(time, waits));
}

/// A time ahead of the clock has a warning, and what waits for it.
pub fn warn_of_time(time: u64, waits: &str) {
    if time > times::now() {
        let _ = writeln!(io::stderr(), "gukoremo: warning: the time {} is ahead of the clock: {waits}", times::both(time));
    }
}
