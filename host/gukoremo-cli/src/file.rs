//! A catalogue in a file. A change is written beside it, synced, and renamed over it: whoever opens the file meets the old state or the new one, whole.

use crate::beside::{self, folder};
use crate::failure::{code, Failure};
use crate::format;
use crate::lock::{self, Lock};
use crate::rights;
use gukoremo::{Catalog, OwnedTables};
use std::fs::{self, File};
use std::io::{Read, Write};
use std::os::unix::fs::MetadataExt;
use std::path::{Path, PathBuf};
use std::time::Duration;

/// A catalogue in memory.
pub type Lake = Catalog<OwnedTables>;

/// The catalogue in a file, as it is at this moment. It needs no lock.
pub fn read(path: &Path) -> Result<Lake, Failure> {
    let failed = |error| Failure::io(path, "read", error);
    let metadata = fs::metadata(path).map_err(failed)?;
    if !metadata.is_file() {
        return Err(Failure::new(code::DATA, format!("{} is no file.", path.display())).advice("give the path of a file that 'gukoremo init' made."));
    }
    let mut bytes = Vec::with_capacity(metadata.len().min(format::longest() as u64) as usize + 1);
    // one byte more than a catalogue can have, so that a longer file is seen to be one
    File::open(path).and_then(|file| file.take(format::longest() as u64 + 1).read_to_end(&mut bytes)).map_err(failed)?;
    let (tables, counts) = format::decode(path, &bytes)?;
    Ok(Catalog::resume(tables, counts))
}

/// The right to change a catalogue's file, held as long as this lives.
#[derive(Debug)]
pub struct Writing {
    target: PathBuf,
    /// There was no file before.
    is_new: bool,
    lock: Lock,
}

/// Names with these endings are the lock's and that of a change that is being written, so no catalogue has one.
fn may_be_named(path: &Path) -> Result<(), Failure> {
    let name = path.file_name().unwrap_or_default().as_encoded_bytes();
    match [beside::LOCK, beside::NEW].iter().find(|ending| name.ends_with(ending.as_bytes())) {
        None => Ok(()),
        Some(ending) => Err(Failure::new(code::USAGE, format!("{} is no name for a catalogue, and nothing was done.", path.display()))
            .why(format!("what is kept beside a catalogue while it is changed has names that end in {ending}."))
            .advice("give the catalogue another name.")),
    }
}

fn there(path: &Path) -> Failure {
    Failure::new(code::EXISTS, format!("{} is there already, and was left as it is.", path.display()))
        .advice("give another path, or move that file away first.")
}

impl Writing {
    /// To change a catalogue that is there. A link is followed: its target is what is locked and replaced.
    pub fn open(path: &Path, wait: Duration) -> Result<(Writing, Lake), Failure> {
        let target = fs::canonicalize(path).map_err(|error| Failure::io(path, "opened", error))?;
        may_be_named(&target)?;
        // not a file, no catalogue, not to be written: said before a lock is made beside it
        read(path)?;
        rights::to_change(&target)?;
        let lock = lock::take(&target, path, wait)?;
        let lake = read(&target)?;
        Ok((Writing { target, is_new: false, lock }, lake))
    }

    /// To make a catalogue where no file is.
    pub fn create(path: &Path, wait: Duration) -> Result<Writing, Failure> {
        may_be_named(path)?;
        if path.symlink_metadata().is_ok() {
            return Err(there(path));
        }
        if !folder(path).is_dir() {
            return Err(Failure::io(path, "made", std::io::ErrorKind::NotFound.into()));
        }
        let lock = lock::take(path, path, wait)?;
        match path.symlink_metadata() {
            Ok(_) => Err(there(path)),
            Err(_) => Ok(Writing { target: path.to_path_buf(), is_new: true, lock }),
        }
    }

    /// Writes the catalogue beside its file and syncs it. The file itself is untouched until [`Prepared::put`].
    pub fn prepare(&self, lake: Lake) -> Result<Prepared<'_>, Failure> {
        let (tables, counts) = lake.into_parts();
        let failed = |error| Failure { code: code::IO, ..Failure::io(&self.target, "changed, and is as it was", error) };
        // nobody else opens it before it has the rights of the old one
        let mode = if self.is_new { 0o666 } else { 0o600 };
        let (new, file) = beside::fresh(&self.target, mode, |name| self.lock.writes(name)).map_err(failed)?;
        let prepared = Prepared { writing: self, new, done: false };
        prepared.write(file, &format::encode(&tables, counts)).map_err(failed)?;
        Ok(prepared)
    }

    /// Writes the catalogue beside its file, and puts it in the file's place.
    pub fn replace(&self, lake: Lake) -> Result<(), Failure> {
        self.prepare(lake)?.put()
    }
}

/// A changed catalogue that lies beside its file. It is taken away again unless it is put in the file's place.
pub struct Prepared<'a> {
    writing: &'a Writing,
    new: PathBuf,
    done: bool,
}

impl Prepared<'_> {
    fn write(&self, mut file: File, bytes: &[u8]) -> std::io::Result<()> {
        if let Ok(old) = fs::metadata(&self.writing.target) {
            rights::keep(&old, &file, old.mode() & 0o7777)?;
        }
        file.write_all(bytes)?;
        file.sync_all()
    }

    /// The new state takes the old one's place, in one step of the system, and the folder is synced.
    pub fn put(mut self) -> Result<(), Failure> {
        let target = &self.writing.target;
        let put = if self.writing.is_new { beside::name(&self.new, target) } else { fs::rename(&self.new, target) };
        put.map_err(|error| match error.kind() {
            std::io::ErrorKind::AlreadyExists => there(target),
            _ => Failure { code: code::IO, ..Failure::io(target, "changed, and is as it was", error) },
        })?;
        self.done = true;
        File::open(folder(target)).and_then(|folder| folder.sync_all()).map_err(|error| {
            Failure::new(code::MADE, format!("{} is changed, but its folder could not be synced.", target.display()))
                .why(format!("the system says: {error}. If the machine stops now, the file may be found as it was."))
                .advice("don't give the command again; look at the disk, and then at the catalogue with 'gukoremo snapshots'.")
        })
    }
}

impl Drop for Prepared<'_> {
    fn drop(&mut self) {
        if !self.done {
            let _ = fs::remove_file(&self.new);
        }
    }
}
