//! The lock of a catalogue: a file beside it that one process at a time holds. The system lets it go when its holder ends, however it ends, so that no lock is
//! ever left behind. What stands in the file says who holds it, and what file it is writing; a file of that name that holds anything else is somebody's, and is not
//! written.

use crate::beside;
use crate::failure::{code, Failure};
use crate::rights;
use crate::values::times;
use std::ffi::OsStr;
use std::fs::{self, File, OpenOptions, TryLockError};
use std::io::{self, Read, Seek, Write};
use std::os::unix::ffi::OsStrExt;
use std::os::unix::fs::{MetadataExt, OpenOptionsExt};
use std::path::Path;
use std::thread::sleep;
use std::time::{Duration, Instant};

#[derive(Debug)]
pub struct Lock {
    file: File,
    /// The line that says who holds it.
    said: String,
    /// It is ours, and what is said in it too.
    taken: bool,
}

const PAUSE: Duration = Duration::from_millis(10);

/// The lock of a catalogue's file, waited for so long. `catalogue` is what the file is called in messages.
pub fn take(target: &Path, catalogue: &Path, wait: Duration) -> Result<Lock, Failure> {
    let path = &beside::lock(target);
    if path.symlink_metadata().is_ok_and(|there| !there.is_file()) {
        return Err(not_ours(path, "it is a link, a folder or a device."));
    }
    let file = open(path, target).map_err(|error| Failure::io(path, "opened to lock the catalogue", error))?;
    let mut lock = Lock { file, said: String::new(), taken: false };
    let until = Instant::now() + wait;
    loop {
        match lock.file.try_lock() {
            Ok(()) => break,
            Err(TryLockError::Error(error)) => return Err(Failure::io(path, "locked", error)),
            Err(TryLockError::WouldBlock) if Instant::now() < until => sleep(PAUSE),
            Err(TryLockError::WouldBlock) => return Err(lock.held(path, catalogue)),
        }
    }
    let found = lock.found().map_err(|error| Failure::io(path, "read", error))?;
    if !is_own(&found) {
        return Err(not_ours(path, "it holds something else than the name of a process that changes the catalogue."));
    }
    lock.taken = true;
    if let Some(name) = left_behind(&found).filter(|name| beside::is_new_of(target, name)) {
        let _ = fs::remove_file(target.with_file_name(name));
    }
    // Who holds it is a help to others, and no part of the lock: a disk too full for it stops nobody.
    let command = std::env::args_os().nth(1).unwrap_or_default();
    let command = command.to_string_lossy();
    lock.said = format!("process {}, 'gukoremo {command}', since {}\n", std::process::id(), times::rfc(times::now()));
    let _ = lock.say(lock.said.as_bytes());
    Ok(lock)
}

/// The lock's file, made where there is none, for whoever may write the catalogue. A link that came there just now is not followed.
fn open(path: &Path, target: &Path) -> io::Result<File> {
    let open = |options: &mut OpenOptions| options.read(true).custom_flags(libc::O_NOFOLLOW).open(path);
    loop {
        match open(OpenOptions::new().write(true)) {
            Err(error) if error.kind() == io::ErrorKind::NotFound => {}
            // to hold it reading is enough: the holder is then not named
            Err(error) if error.kind() == io::ErrorKind::PermissionDenied => return open(&mut OpenOptions::new()),
            opened => return opened,
        }
        match open(OpenOptions::new().write(true).create_new(true)) {
            Err(error) if error.kind() == io::ErrorKind::AlreadyExists => continue,
            Err(error) => return Err(error),
            Ok(made) => {
                if let Ok(catalogue) = fs::metadata(target) {
                    let _ = rights::keep(&catalogue, &made, catalogue.mode() & 0o666);
                }
                return Ok(made);
            }
        }
    }
}

/// Whether a lock's file is empty, or holds what a holder that was killed has said, if only the beginning of it.
fn is_own(said: &[u8]) -> bool {
    let (before, after) = (b"process ".as_slice(), b", 'gukoremo ".as_slice());
    let Some(rest) = said.strip_prefix(before) else { return before.starts_with(said) };
    let rest = &rest[rest.iter().take_while(|byte| byte.is_ascii_digit()).count()..];
    rest.starts_with(after) || after.starts_with(rest)
}

const WRITES: &[u8] = b"writes ";

/// The file that a holder was writing when it was killed.
fn left_behind(found: &[u8]) -> Option<&OsStr> {
    let after = found.iter().position(|byte| *byte == b'\n')? + 1;
    found[after..].strip_prefix(WRITES)?.strip_suffix(b"\n").map(OsStr::from_bytes)
}

/// A file that has the lock's name and is somebody's.
fn not_ours(path: &Path, why: &str) -> Failure {
    Failure::new(code::EXISTS, format!("{} is there and is no lock of gukoremo: it was left as it is, and nothing was done.", path.display()))
        .why(why)
        .advice("move it away, or give the catalogue another name.")
}

impl Lock {
    fn say(&self, words: &[u8]) -> io::Result<()> {
        let mut file = &self.file;
        file.set_len(0)?;
        file.rewind()?;
        file.write_all(words)
    }

    /// Says which file is being written: if we are killed, whoever has the lock next removes it.
    pub fn writes(&self, name: &OsStr) {
        let _ = self.say(&[self.said.as_bytes(), WRITES, name.as_bytes(), b"\n"].concat());
    }

    /// What stands in the file, as far as a holder says anything.
    fn found(&self) -> io::Result<Vec<u8>> {
        let mut found = Vec::new();
        let mut file = &self.file;
        file.rewind()?;
        file.take(1000).read_to_end(&mut found)?;
        Ok(found)
    }

    /// Someone else has it. The holder writes its line just after it has got the lock, so an empty file is looked at again.
    fn held(&self, path: &Path, catalogue: &Path) -> Failure {
        let mut holder = String::new();
        for _ in 0..5 {
            let found = self.found().unwrap_or_default();
            if is_own(&found) {
                holder = String::from_utf8_lossy(&found).lines().next().unwrap_or_default().to_string();
            }
            if !holder.is_empty() {
                break;
            }
            sleep(PAUSE);
        }
        let holder = if holder.is_empty() { "another process".to_string() } else { holder };
        Failure::new(code::BUSY, format!("{} is being changed by someone else, and nothing was done.", catalogue.display()))
            .why(format!("{holder}, holds {}.", path.display()))
            .advice("give the command again when that process has ended, or with --wait SECONDS.")
    }
}

impl Drop for Lock {
    fn drop(&mut self) {
        if !self.taken {
            return;
        }
        let _ = self.say(b"");
        // said and not left to the file's end, since a process that was just forked may still have it open
        let _ = self.file.unlock();
    }
}

#[cfg(test)]
mod tests {
    use super::is_own;

    #[test]
    fn what_is_a_locks_own() {
        let line = "process 12, 'gukoremo insert', since 2026-11-16T09:30:00.000000Z\n";
        for end in 0..=line.len() {
            assert!(is_own(&line.as_bytes()[..end]), "{end}");
        }
        for other in ["p ", "processes", "process 12 hung", "process 12, 'gnuplot'", "gukoremo", "\n", " process"] {
            assert!(!is_own(other.as_bytes()), "{other}");
        }
    }
}
