//! Files that are written whole or not at all.

use std::ffi::OsStr;
use std::fs::{self, File, Metadata, OpenOptions};
use std::io::{self, ErrorKind, Write};
use std::os::unix::fs::{MetadataExt, fchown};
use std::path::{Path, PathBuf};

use crate::problem::{Problem, shown};
use crate::streams;

/// How many links to files are followed, as the operating system does it.
const LINKS: usize = 40;
/// How many names are tried for a temporary file.
const TRIES: usize = 100;

/// Which file it is, whatever its name; none for what is no file, as a pipe or a terminal, since nothing stands there.
#[derive(Clone, Copy, PartialEq, Eq, Debug)]
pub struct Identity {
    device: u64,
    inode: u64,
}

impl Identity {
    /// Of something that is there.
    pub fn of(found: &Metadata) -> Option<Self> {
        found.is_file().then(|| Self { device: found.dev(), inode: found.ino() })
    }

    /// Of what has this name.
    pub fn named(name: &OsStr) -> Option<Self> {
        fs::metadata(name).ok().as_ref().and_then(Self::of)
    }

    /// Of standard output.
    pub fn of_output() -> Option<Self> {
        streams::output().and_then(|output| output.metadata()).ok().as_ref().and_then(Self::of)
    }

    /// Whether this is the name of the file that standard output goes to.
    pub fn is_output(name: &OsStr) -> bool {
        Self::named(name).is_some_and(|named| Some(named) == Self::of_output())
    }
}

/// Writes a whole file. What stands under its name stays until all bytes are written.
pub fn write_file(name: &OsStr, bytes: &[u8]) -> Result<(), Problem> {
    replace(Path::new(name), bytes).map_err(|error| Problem::file(shown(name), error))
}

fn replace(path: &Path, bytes: &[u8]) -> io::Result<()> {
    let old = match fs::metadata(path) {
        // a pipe or a device keeps nothing that could be lost, and its name must stay
        Ok(there) if !there.is_file() => return write_in_place(path, bytes),
        // a file that must not be written must not be replaced either
        Ok(there) => OpenOptions::new().write(true).open(path).map(|_| Some(there))?,
        Err(error) if error.kind() == ErrorKind::NotFound => None,
        Err(error) => return Err(error),
    };
    let Some(path) = followed(path) else { return write_in_place(path, bytes) };
    let (file, temporary) = create_beside(&path).map_err(of_folder)?;
    let written = fill(file, bytes, old).and_then(|()| fs::rename(&temporary, &path));
    if written.is_err() {
        // what went wrong first is what is said
        let _ = fs::remove_file(&temporary);
    }
    written
}

fn write_in_place(path: &Path, bytes: &[u8]) -> io::Result<()> {
    OpenOptions::new().write(true).truncate(true).open(path)?.write_all(bytes)
}

/// The file that a name leads to, which need not be there. There is none for links in /proc, as those that /dev/stdout
/// and /dev/fd lead to: they are files that are open, and need not have a name any more.
fn followed(path: &Path) -> Option<PathBuf> {
    let mut path = path.to_path_buf();
    for _ in 0..LINKS {
        let Ok(next) = fs::read_link(&path) else { break };
        let folder = path.parent().unwrap_or(Path::new(""));
        if fs::canonicalize(folder).is_ok_and(|folder| folder.starts_with("/proc")) {
            return None;
        }
        path = folder.join(next);
    }
    Some(path)
}

/// A new file in the folder of another one.
fn create_beside(path: &Path) -> io::Result<(File, PathBuf)> {
    let mut last = io::Error::from(ErrorKind::AlreadyExists);
    for number in 0..TRIES {
        let temporary = path.with_file_name(format!(".wutherdish-{}-{number}.tmp", std::process::id()));
        match OpenOptions::new().write(true).create_new(true).open(&temporary) {
            Ok(file) => return Ok((file, temporary)),
            // one that was killed left it
            Err(error) if error.kind() == ErrorKind::AlreadyExists => last = error,
            Err(error) => return Err(error),
        }
    }
    Err(last)
}

/// The error that there is no such folder, or that nothing may be written there.
fn of_folder(error: io::Error) -> io::Error {
    io::Error::new(error.kind(), format!("its folder: {error}"))
}

/// Writes all bytes. A file that replaces an old one has its mode and, where that is allowed, its owner.
fn fill(mut file: File, bytes: &[u8], old: Option<Metadata>) -> io::Result<()> {
    file.write_all(bytes)?;
    if let Some(old) = old {
        let _ = fchown(&file, Some(old.uid()), Some(old.gid()));
        file.set_permissions(old.permissions())?;
    }
    // some file systems say only now that they are full
    file.sync_all()
}
