//! Owner, group and mode of a catalogue's file. A changed catalogue is a new file, which gets those of the old one; so does a lock that is made beside it.

use crate::failure::{code, Failure};
use std::fs::{self, File, Metadata, OpenOptions, Permissions};
use std::io;
use std::os::unix::fs::{fchown, MetadataExt, PermissionsExt};
use std::path::Path;

/// Whether a file may be changed: a folder would let us replace also what we may not write.
pub fn to_change(path: &Path) -> Result<(), Failure> {
    let refused = |why: String| {
        Failure::new(code::IO, format!("{} is read-only, and was not changed.", path.display()))
            .why(why)
            .advice("ask its owner for the right to write it, or make a copy and change that.")
    };
    let there = fs::metadata(path).map_err(|error| Failure::io(path, "opened", error))?;
    if there.permissions().readonly() {
        return Err(refused(format!("its mode is {:04o}, in which nobody may write it.", there.mode() & 0o7777)));
    }
    match OpenOptions::new().append(true).open(path) {
        Ok(_) => Ok(()),
        Err(error) if [io::ErrorKind::PermissionDenied, io::ErrorKind::ReadOnlyFilesystem].contains(&error.kind()) => Err(refused(format!(
            "its owner is {}, its group {}, its mode {:04o}, and the system says: {error}.",
            there.uid(),
            there.gid(),
            there.mode() & 0o7777
        ))),
        Err(error) => Err(Failure::io(path, "opened", error)),
    }
}

/// Gives a new file the group, the owner and this mode. The system lets root alone give files away: of two users of a group whoever changes the file last is
/// its owner, which takes no right from the other, since both have the group's. That the group can't be kept is an error.
pub fn keep(old: &Metadata, new: &File, mode: u32) -> io::Result<()> {
    let own = new.metadata()?;
    if own.gid() != old.gid() {
        fchown(new, None, Some(old.gid()))
            .map_err(|error| io::Error::new(error.kind(), format!("its group {} can't be kept, since you are not in it: {error}", old.gid())))?;
    }
    if own.uid() != old.uid() {
        let _ = fchown(new, Some(old.uid()), None);
    }
    new.set_permissions(Permissions::from_mode(mode))
}
