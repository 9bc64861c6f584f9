//! What can go wrong, in sentences: what happened, why, and what to do; and the exit code that a script sees.

use crate::beside::folder;
use std::fmt;
use std::io;
use std::path::Path;

/// Exit codes. A refusal has [`code::REFUSED`] and its number: 208 is refusal 8.
pub mod code {
    /// A question was answered with no: the tables are not sound, the catalogues differ.
    pub const NO: u8 = 1;
    /// The change was made; what came after it failed: its message, or the folder's sync.
    pub const MADE: u8 = 3;
    /// The words of the command are not understood.
    pub const USAGE: u8 = 64;
    /// A file or a script is not what it should be.
    pub const DATA: u8 = 65;
    /// A file is not there.
    pub const NO_FILE: u8 = 66;
    /// There is more than this command can hold.
    pub const TOO_MUCH: u8 = 70;
    /// A file is there already.
    pub const EXISTS: u8 = 73;
    /// Reading or writing failed: no right to, no room, a broken disk.
    pub const IO: u8 = 74;
    /// Someone else is changing the catalogue.
    pub const BUSY: u8 = 75;
    pub const REFUSED: u8 = 200;
}

#[derive(Debug)]
pub struct Failure {
    pub code: u8,
    pub what: String,
    pub why: String,
    pub advice: String,
}

impl Failure {
    pub fn new(code: u8, what: impl Into<String>) -> Failure {
        Failure { code, what: what.into(), why: String::new(), advice: String::new() }
    }

    pub fn why(mut self, why: impl Into<String>) -> Failure {
        self.why = why.into();
        self
    }

    pub fn advice(mut self, advice: impl Into<String>) -> Failure {
        self.advice = advice.into();
        self
    }

    /// Something that the system would not do with a file.
    pub fn io(path: &Path, doing: &str, error: io::Error) -> Failure {
        let failure = Failure::new(
            if error.kind() == io::ErrorKind::NotFound { code::NO_FILE } else { code::IO },
            format!("{} could not be {doing}.", path.display()),
        );
        if error.kind() == io::ErrorKind::NotFound && !folder(path).is_dir() {
            return failure
                .why(format!("there is no folder {}.", folder(path).display()))
                .advice("make that folder first, or give a path in one that is there.");
        }
        let advice = match error.kind() {
            io::ErrorKind::NotFound => "give the path of a catalogue's file, or make one with 'gukoremo init'.",
            io::ErrorKind::PermissionDenied => "ask for the right to the file and to its folder.",
            io::ErrorKind::StorageFull | io::ErrorKind::QuotaExceeded | io::ErrorKind::FileTooLarge => {
                "make room on the disk, then give the command again."
            }
            _ => "see what the system says of the disk, then give the command again.",
        };
        failure.why(format!("the system says: {error}.")).advice(advice)
    }

    /// The output could not be written. A reader that went away, as `head` does, is no failure.
    pub fn output(error: io::Error) -> Failure {
        if error.kind() == io::ErrorKind::BrokenPipe {
            return Failure::new(0, "");
        }
        Failure::new(code::IO, "The answer could not be written.").why(format!("the system says: {error}."))
    }

    /// The same of a change that is made, with what it has to say: whoever sees this must not ask for it again.
    pub fn after_change(self, sentence: &str) -> Failure {
        if self.what.is_empty() {
            return self;
        }
        let what = "The change was made, but its message could not be written.".to_string();
        Failure { code: code::MADE, what, ..self }.advice(format!("don't give the command again. The message is: {sentence}"))
    }
}

impl fmt::Display for Failure {
    fn fmt(&self, f: &mut fmt::Formatter<'_>) -> fmt::Result {
        if self.what.is_empty() {
            return Ok(());
        }
        writeln!(f, "gukoremo: {}", self.what)?;
        if !self.why.is_empty() {
            writeln!(f, "  why: {}", self.why)?;
        }
        if !self.advice.is_empty() {
            writeln!(f, "  do:  {}", self.advice)?;
        }
        Ok(())
    }
}
