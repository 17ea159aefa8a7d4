//! Opening, sizing and telling apart the files that a command is given. Only regular files will do, and none is read further
//! than one byte past what could be sound: the answer is then the one for the whole file.

use crate::failure::{shown, Failure, NO_INPUT, USAGE};
use crate::sys::{self, O_NONBLOCK};
use minnow::{BLOCK, HEAD, MAX_BLOCKS, RECORD, STATE};
use std::fs::{self, File, Metadata, OpenOptions};
use std::io::Read;
use std::os::unix::fs::{MetadataExt, OpenOptionsExt};
use std::path::{Path, PathBuf};

/// Bytes of the longest diff, image and state that could be sound.
pub const DIFF_LIMIT: usize = HEAD + RECORD * MAX_BLOCKS;
pub const IMAGE_LIMIT: usize = BLOCK * MAX_BLOCKS;
const STATE_LIMIT: usize = STATE;

/// Which file it is, whatever name led to it.
#[derive(Clone, Copy, PartialEq, Eq, Debug)]
pub struct Identity {
    device: u64,
    inode: u64,
}

impl Identity {
    pub fn of(metadata: &Metadata) -> Identity {
        Identity {
            device: metadata.dev(),
            inode: metadata.ino(),
        }
    }
}

#[derive(Clone, Copy, PartialEq, Eq)]
pub enum Access {
    Read,
    Change,
}

/// A regular file, opened and sized.
pub struct Opened {
    pub path: PathBuf,
    pub name: String,
    pub file: File,
    pub size: u64,
    pub identity: Identity,
}

/// Opens a regular file. A pipe is not waited for and a device is not touched: the name is looked at before it is opened.
pub fn open(path: &Path, access: Access) -> Result<Opened, Failure> {
    let found = fs::metadata(path).map_err(|error| Failure::input(path, "cannot open", &error))?;
    regular(path, &found)?;
    let file = OpenOptions::new()
        .read(true)
        .write(access == Access::Change)
        .custom_flags(O_NONBLOCK)
        .open(path)
        .map_err(|error| Failure::input(path, "cannot open", &error))?;
    let metadata = file
        .metadata()
        .map_err(|error| Failure::input(path, "cannot look at", &error))?;
    regular(path, &metadata)?;
    Ok(Opened {
        path: path.to_path_buf(),
        name: shown(path),
        file,
        size: metadata.len(),
        identity: Identity::of(&metadata),
    })
}

fn regular(path: &Path, metadata: &Metadata) -> Result<(), Failure> {
    if metadata.is_file() {
        return Ok(());
    }
    let what = if metadata.is_dir() {
        "a folder, not a file"
    } else {
        "not a regular file"
    };
    Err(Failure::about(path, NO_INPUT, what))
}

/// A file's bytes in memory of our own: they are checked and then used, so nobody may change them in between.
pub struct Content {
    /// What it is to the command: a diff, a state, an image.
    what: &'static str,
    pub name: String,
    pub identity: Identity,
    /// At most one byte more than the limit that it was read with.
    pub bytes: Vec<u8>,
    /// The whole file's length.
    pub size: u64,
}

impl Content {
    pub fn is(&self) -> Argument<'_> {
        (self.what, &self.name, self.identity)
    }
}

pub fn read_diff(path: &Path) -> Result<Content, Failure> {
    content(open(path, Access::Read)?, "diff", DIFF_LIMIT)
}

pub fn read_state(opened: Opened) -> Result<Content, Failure> {
    content(opened, "state", STATE_LIMIT)
}

/// The image in a file that is open.
pub fn read_image(opened: Opened) -> Result<Content, Failure> {
    content(opened, "image", IMAGE_LIMIT)
}

/// Reads a file up to one byte past the limit.
fn content(opened: Opened, what: &'static str, limit: usize) -> Result<Content, Failure> {
    let most = limit as u64 + 1;
    let expected = usize::try_from(opened.size.min(most)).unwrap_or(limit);
    let mut bytes = Vec::new();
    let room = bytes.try_reserve_exact(expected + 1);
    room.map_err(|_| Failure::memory(&opened.path, expected))?;
    let mut bytes = sys::in_large_pages(bytes);
    (&opened.file)
        .take(most)
        .read_to_end(&mut bytes)
        .map_err(|error| Failure::input(&opened.path, "cannot read", &error))?;
    let size = if bytes.len() > limit {
        opened.size.max(most)
    } else {
        bytes.len() as u64
    };
    Ok(Content {
        what,
        name: opened.name,
        identity: opened.identity,
        bytes,
        size,
    })
}

/// What an argument is to the command, its name, and which file it is.
pub type Argument<'a> = (&'a str, &'a str, Identity);

/// Refuses two arguments that are one file.
pub fn apart(one: Argument, other: Argument) -> Result<(), Failure> {
    let ((what, name, identity), (other_what, other_name, other_identity)) = (one, other);
    if identity != other_identity {
        return Ok(());
    }
    let said = format!("the {other_what} is the same file as the {what} {name}");
    Err(Failure::about(Path::new(other_name), USAGE, said))
}
