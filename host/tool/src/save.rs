//! Durable writes: a file appears whole under its name or not at all. Everything is written to NAME.minnow-new beside it,
//! flushed, renamed, and the folder is flushed.
//!
//! The temporary file is locked while it is written. One that nobody has locked was left by a run that was killed: it is
//! removed. One that is locked belongs to a run that is alive: that is "try again later". What is no regular file, or is an
//! input of the command, is never removed.
//!
//! A file that is replaced is locked first. The lock goes with the name: the file that takes its place is locked before it has
//! the name, and stays so for as long as `save`'s answer is kept. So a run that holds a name (an apply its state's) holds it
//! from the first record to the last, no other file is needed for that, and the end of the process, however it comes, ends it.
//!
//! A file cannot be created locked, so another run may find it in between, take it for stale and remove it, still empty.
//! Its creator sees that once it has the lock, and creates another. Of runs that write one name at once, none killed, one
//! always gets there: the file that is created last stays, for whoever removed it would create a later one.

use crate::failure::{Failure, CANNOT_CREATE, TRY_AGAIN};
use crate::files::{apart, Argument, Identity};
use crate::sys::{self, Lock};
use std::ffi::OsString;
use std::fs::{self, File, Metadata, OpenOptions};
use std::io::{self, ErrorKind, Write};
use std::os::unix::ffi::OsStrExt;
use std::os::unix::fs::{MetadataExt, OpenOptionsExt};
use std::path::{Path, PathBuf};

const SUFFIX: &str = ".minnow-new";

/// What happens to a file that stands where the new one goes.
#[derive(Clone, Copy, PartialEq, Eq)]
pub enum Present {
    Replaced,
    Refused,
    /// There was none to replace; one that has come since is another run's.
    Unexpected,
}

/// A temporary name. What has it is removed unless it is put in its place.
struct Draft {
    path: PathBuf,
    /// Once in place, or taken for stale, the name may be that of another run.
    ours: bool,
}

impl Drop for Draft {
    fn drop(&mut self) {
        if self.ours {
            let _ = fs::remove_file(&self.path);
        }
    }
}

/// Saves `bytes` as `target`, durably, and gives the new file, locked. Where `like` is given, the new file takes over its mode,
/// and its owner and group if it may.
pub fn save(
    target: &Path,
    bytes: &[u8],
    present: Present,
    like: Option<&Metadata>,
) -> Result<File, Failure> {
    let folder = Folder::of(target)?;
    let (draft, mut file) = create(target)?;
    if let Some(metadata) = like {
        take_over(&file, metadata)
            .map_err(|error| Failure::output(&draft.path, "cannot set the mode", &error))?;
    }
    let written = file.write_all(bytes);
    written.map_err(|error| Failure::output(target, "cannot write", &error))?;
    let flushed = file.sync_all();
    flushed.map_err(|error| Failure::output(target, "cannot flush", &error))?;
    put_in_place(draft, target, present)?;
    folder.flush()?;
    Ok(file)
}

fn take_over(file: &File, metadata: &Metadata) -> io::Result<()> {
    // Only root may give a file away; another may give it to a group of his, and otherwise keeps it.
    if sys::give(file, Some(metadata.uid()), metadata.gid()).is_err() {
        let _ = sys::give(file, None, metadata.gid());
    }
    file.set_permissions(metadata.permissions())
}

fn put_in_place(mut draft: Draft, target: &Path, present: Present) -> Result<(), Failure> {
    let renamed = match present {
        Present::Replaced => fs::rename(&draft.path, target),
        Present::Refused | Present::Unexpected => sys::rename_to_new(&draft.path, target),
    };
    match renamed {
        Ok(()) => {
            draft.ours = false;
            Ok(())
        }
        Err(error) if error.kind() == ErrorKind::AlreadyExists => match present {
            Present::Unexpected => Err(in_use(target)),
            _ => Err(exists(target)),
        },
        Err(error) => Err(Failure::output(target, "cannot put in its place", &error)),
    }
}

/// The folder of a file to be saved, opened before anything is done there: one that cannot be flushed shows at once.
struct Folder {
    path: PathBuf,
    file: File,
}

impl Folder {
    fn of(target: &Path) -> Result<Folder, Failure> {
        let path = match target.parent() {
            Some(parent) if parent.as_os_str().is_empty() => PathBuf::from("."),
            Some(parent) => parent.to_path_buf(),
            None => PathBuf::from("/"),
        };
        match File::open(&path) {
            Ok(file) => Ok(Folder { path, file }),
            Err(error) => Err(Failure::output(&path, "cannot open the folder", &error)),
        }
    }

    fn flush(&self) -> Result<(), Failure> {
        let flushed = self.file.sync_all();
        flushed.map_err(|error| Failure::output(&self.path, "cannot flush the folder", &error))
    }
}

fn exists(target: &Path) -> Failure {
    Failure::about(
        target,
        CANNOT_CREATE,
        "exists already; --force replaces a regular file",
    )
}

fn temporary(target: &Path) -> PathBuf {
    let mut name = OsString::from(target);
    name.push(SUFFIX);
    PathBuf::from(name)
}

/// Creates the temporary file and locks it. What stands there is cleared once: what comes after that was created by another
/// run a moment ago, and two that went on clearing each other's might never end.
fn create(target: &Path) -> Result<(Draft, File), Failure> {
    let path = temporary(target);
    let mut cleared = false;
    loop {
        let opened = OpenOptions::new()
            .read(true)
            .write(true)
            .create_new(true)
            .open(&path);
        match opened {
            Ok(file) => {
                let path = path.clone();
                let mut draft = Draft { path, ours: true };
                draft.ours = is_ours(&draft.path, &file)?;
                if draft.ours {
                    return Ok((draft, file));
                }
            }
            Err(error) if error.kind() != ErrorKind::AlreadyExists => {
                return Err(Failure::output(&path, "cannot create", &error))
            }
            Err(_) if cleared => return Err(in_use(&path)),
            Err(_) => {
                remove_stale(&path, target)?;
                cleared = true;
            }
        }
    }
}

/// Locks the file and looks whether it still has its name. Once it is so, no other run takes the name away.
pub fn is_ours(path: &Path, file: &File) -> Result<bool, Failure> {
    let wrong = |error| Failure::output(path, "cannot lock", &error);
    if !sys::lock(file, Lock::Exclusive).map_err(wrong)? {
        return Ok(false);
    }
    let ours = file.metadata().map_err(wrong)?;
    match fs::symlink_metadata(path) {
        Ok(named) => Ok(Identity::of(&named) == Identity::of(&ours)),
        Err(error) if error.kind() == ErrorKind::NotFound => Ok(false),
        Err(error) => Err(wrong(error)),
    }
}

/// Removes what a killed run left. A second name of the target itself needs no lock, which this run may have: a rename that
/// was made of a link was cut in the middle.
fn remove_stale(path: &Path, target: &Path) -> Result<(), Failure> {
    let wrong = |error| Failure::output(path, "cannot take over", &error);
    let there = match fs::symlink_metadata(path) {
        Ok(there) => there,
        Err(error) if error.kind() == ErrorKind::NotFound => return Ok(()),
        Err(error) => return Err(wrong(error)),
    };
    if !there.is_file() {
        return Err(no_regular_file(path));
    }
    let is_target = fs::symlink_metadata(target)
        .map_or(false, |named| Identity::of(&named) == Identity::of(&there));
    // The lock is kept until the name is gone: whoever got it in between would go on with a file that has none.
    let _lock = match is_target {
        true => None,
        false => match open_to_lock(path) {
            Ok(file) if is_ours(path, &file)? => Some(file),
            Ok(_) => return Err(in_use(path)),
            Err(error) if error.kind() == ErrorKind::NotFound => return Ok(()),
            Err(error) => return Err(wrong(error)),
        },
    };
    fs::remove_file(path).map_err(|error| Failure::output(path, "cannot remove", &error))
}

/// Opens a file for its lock alone: for writing too if it may be, since some file systems want that of a lock held alone.
fn open_to_lock(path: &Path) -> io::Result<File> {
    let mut options = OpenOptions::new();
    options
        .read(true)
        .custom_flags(sys::O_NOFOLLOW | sys::O_NONBLOCK);
    let both = options.clone().write(true).open(path);
    both.or_else(|_| options.open(path))
}

/// Refuses a temporary file that is one of the inputs: it would be taken for one that a killed run left.
pub fn draft_apart(target: &Path, inputs: &[Argument]) -> Result<(), Failure> {
    let path = temporary(target);
    if let Ok(metadata) = fs::metadata(&path) {
        let (name, identity) = (path.to_string_lossy(), Identity::of(&metadata));
        for input in inputs {
            apart(*input, ("temporary file", &name, identity))?;
        }
    }
    Ok(())
}

pub fn in_use(path: &Path) -> Failure {
    Failure::about(path, TRY_AGAIN, "another minnow is at work on this file")
}

fn no_regular_file(path: &Path) -> Failure {
    let kind = "exists and is not a regular file; it stays as it is";
    Failure::about(path, CANNOT_CREATE, kind)
}

/// Where the output of a command may go: looked at before any work is done, and by `save` again at the end.
pub struct Output {
    path: PathBuf,
    present: Present,
    /// What will be replaced, locked.
    _replaced: Option<File>,
}

impl Output {
    /// Refuses a name that stands for no new file, and one that stands for an input.
    pub fn new(path: &Path, force: bool, inputs: &[Argument]) -> Result<Output, Failure> {
        let ends_in_slash = path.as_os_str().as_bytes().ends_with(b"/");
        if path.file_name().is_none() || ends_in_slash {
            return Err(Failure::about(path, CANNOT_CREATE, "names no file"));
        }
        draft_apart(path, inputs)?;
        let replaced = match fs::symlink_metadata(path) {
            Ok(there) => Some(replaceable(path, &there, force, inputs)?),
            Err(error) if error.kind() == ErrorKind::NotFound => None,
            Err(error) => return Err(Failure::output(path, "cannot look at", &error)),
        };
        let present = match (force, &replaced) {
            (true, Some(_)) => Present::Replaced,
            (true, None) => Present::Unexpected,
            (false, _) => Present::Refused,
        };
        Ok(Output {
            path: path.to_path_buf(),
            present,
            _replaced: replaced,
        })
    }

    pub fn save(&self, bytes: &[u8]) -> Result<(), Failure> {
        save(&self.path, bytes, self.present, None).map(drop)
    }
}

/// The file that stands where an output goes, locked, if it may be replaced.
fn replaceable(
    path: &Path,
    there: &Metadata,
    force: bool,
    inputs: &[Argument],
) -> Result<File, Failure> {
    let followed = fs::metadata(path).unwrap_or_else(|_| there.clone());
    for input in inputs {
        let output = ("output", &*path.to_string_lossy(), Identity::of(&followed));
        apart(*input, output)?;
    }
    if !there.is_file() {
        return Err(no_regular_file(path));
    }
    if !force {
        return Err(exists(path));
    }
    let opened = open_to_lock(path);
    let file = opened.map_err(|error| Failure::output(path, "cannot lock", &error))?;
    match is_ours(path, &file)? {
        true => Ok(file),
        false => Err(in_use(path)),
    }
}
