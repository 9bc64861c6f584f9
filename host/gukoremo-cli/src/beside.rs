//! What lies beside a file while it is made or changed: its lock, and the new file, under a name that nobody else has.

use std::ffi::{OsStr, OsString};
use std::fs::{self, File, OpenOptions};
use std::hash::{BuildHasher, Hasher, RandomState};
use std::io;
use std::os::unix::ffi::{OsStrExt, OsStringExt};
use std::os::unix::fs::OpenOptionsExt;
use std::path::{self, Path, PathBuf};

/// Beside `shop.lake` the lock is `shop.lake.lock`, and what is being written `shop.lake.` with eight digits and `.new`.
pub const LOCK: &str = ".lock";
pub const NEW: &str = ".new";
const DIGITS: usize = 8;
/// The system's limit on a name.
const NAME_LIMIT: usize = 255;

/// The lock of a catalogue.
pub fn lock(path: &Path) -> PathBuf {
    let mut name = OsString::from(path);
    name.push(LOCK);
    PathBuf::from(name)
}

/// The folder of a path.
pub fn folder(path: &Path) -> &Path {
    match path.parent() {
        Some(folder) if !folder.as_os_str().is_empty() => folder,
        _ => Path::new("."),
    }
}

/// What the name of a new file begins with: the file's own name, as much as there is room for, and a point.
fn beginning(path: &Path) -> Vec<u8> {
    let name = path.file_name().unwrap_or_default().as_bytes();
    let room = NAME_LIMIT - 1 - DIGITS - NEW.len();
    [&name[..name.len().min(room)], b"."].concat()
}

/// Whether a new file of this path can have that name.
pub fn is_new_of(path: &Path, name: &OsStr) -> bool {
    let rest = name.as_bytes().strip_prefix(beginning(path).as_slice());
    let digits = rest.and_then(|rest| rest.strip_suffix(NEW.as_bytes()));
    digits.is_some_and(|digits| digits.len() == DIGITS && digits.iter().all(u8::is_ascii_hexdigit))
}

/// A new file in the folder of this path, empty, of this mode at most, under a name of chance that nothing had before; `told` hears the name before the file is
/// made. The path is absolute, since SQLite takes one that begins with `file:` for more than a path.
pub fn fresh(path: &Path, mode: u32, mut told: impl FnMut(&OsStr)) -> io::Result<(PathBuf, File)> {
    let path = path::absolute(path)?;
    loop {
        let chance = RandomState::new().build_hasher().finish() as u32;
        let mut name = beginning(&path);
        name.extend(format!("{chance:0DIGITS$x}{NEW}").bytes());
        let name = OsString::from_vec(name);
        told(&name);
        let new = path.with_file_name(&name);
        match OpenOptions::new().write(true).create_new(true).mode(mode).open(&new) {
            Err(error) if error.kind() == io::ErrorKind::AlreadyExists => continue,
            made => return made.map(|file| (new, file)),
        }
    }
}

/// Gives a new file the name that it is for, and takes no other file's place.
pub fn name(new: &Path, path: &Path) -> io::Result<()> {
    match fs::hard_link(new, path) {
        Ok(()) => {
            let _ = fs::remove_file(new);
            Ok(())
        }
        Err(error) if error.kind() == io::ErrorKind::AlreadyExists => Err(error),
        // a file system that has no links
        Err(_) => fs::rename(new, path),
    }
}

#[cfg(test)]
mod tests {
    use super::*;

    #[test]
    fn names_of_new_files() {
        let path = Path::new("a/shop.lake");
        assert!(is_new_of(path, OsStr::new("shop.lake.0123cdef.new")));
        for other in
            ["shop.lake.new", "shop.lake.0123cde.new", "shop.lake.0123cdefa.new", "shop.lake.0123cdeg.new", "shop.lake", "x.0123cdef.new", ""]
        {
            assert!(!is_new_of(path, OsStr::new(other)), "{other}");
        }
    }
}
