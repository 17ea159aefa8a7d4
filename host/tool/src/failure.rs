//! What a command ends with when it does not succeed: a refusal by its number, or a status of sysexits.

use crate::json::{Fields, Json};
use minnow::Refusal;
use std::io;
use std::path::Path;

pub const USAGE: u8 = 64;
pub const NO_INPUT: u8 = 66;
pub const INTERNAL: u8 = 70;
pub const NO_MEMORY: u8 = 71;
pub const CANNOT_CREATE: u8 = 73;
pub const IO: u8 = 74;
pub const TRY_AGAIN: u8 = 75;
pub const NO_PERMISSION: u8 = 77;

/// The read-only file system of errno.
const EROFS: i32 = 30;

#[derive(Clone, Debug)]
pub struct Failure {
    pub status: u8,
    pub refusal: Option<Refusal>,
    pub file: Option<String>,
    pub message: String,
    /// What else a machine may want to know.
    pub more: Fields,
}

impl Failure {
    fn new(status: u8, file: Option<String>, message: String) -> Failure {
        Failure {
            status,
            refusal: None,
            file,
            message,
            more: Vec::new(),
        }
    }

    /// The library's no; the file it is about, and what it means there.
    pub fn refused(refusal: Refusal, file: &str, meaning: String) -> Failure {
        let mut failure = Failure::refused_at_all(refusal, meaning);
        failure.file = Some(file.to_string());
        failure
    }

    /// The library's no to the command as a whole; it is about no file.
    pub fn refused_at_all(refusal: Refusal, meaning: String) -> Failure {
        // A refusal's number is at most 20.
        let status = u8::try_from(refusal.number()).unwrap_or(INTERNAL);
        let mut failure = Failure::new(status, None, meaning);
        failure.refusal = Some(refusal);
        failure
    }

    pub fn usage(message: impl Into<String>) -> Failure {
        Failure::new(USAGE, None, message.into())
    }

    pub fn internal(message: impl Into<String>) -> Failure {
        Failure::new(INTERNAL, None, message.into())
    }

    /// No room in memory for so many bytes of a file.
    pub fn memory(path: &Path, bytes: usize) -> Failure {
        Failure::about(path, NO_MEMORY, format!("no memory for {bytes} bytes"))
    }

    pub fn about(path: &Path, status: u8, message: impl Into<String>) -> Failure {
        Failure::new(status, Some(shown(path)), message.into())
    }

    /// An input that cannot be opened or read.
    pub fn input(path: &Path, doing: &str, error: &io::Error) -> Failure {
        let status = match error.kind() {
            io::ErrorKind::NotFound => NO_INPUT,
            io::ErrorKind::PermissionDenied => NO_PERMISSION,
            io::ErrorKind::OutOfMemory => NO_MEMORY,
            _ if error.raw_os_error() == Some(EROFS) => NO_PERMISSION,
            _ if is_no_file(error) => NO_INPUT,
            _ => IO,
        };
        Failure::about(path, status, format!("{doing}: {error}"))
    }

    /// An output that cannot be made, written or put in its place.
    pub fn output(path: &Path, doing: &str, error: &io::Error) -> Failure {
        let status = match error.kind() {
            io::ErrorKind::PermissionDenied => NO_PERMISSION,
            io::ErrorKind::OutOfMemory => NO_MEMORY,
            io::ErrorKind::NotFound | io::ErrorKind::AlreadyExists => CANNOT_CREATE,
            _ if error.raw_os_error() == Some(EROFS) || is_no_file(error) => CANNOT_CREATE,
            _ => IO,
        };
        Failure::about(path, status, format!("{doing}: {error}"))
    }

    pub fn with(mut self, name: &'static str, value: Json) -> Failure {
        self.more.push((name, value));
        self
    }

    /// One line for a person: the file, the refusal's number and name, what it means.
    pub fn line(&self) -> String {
        let front = self.file.as_deref().unwrap_or("minnow");
        match self.refusal {
            Some(refusal) => {
                let (number, name) = (refusal.number(), refusal.name());
                format!("{front}: {number} {name}: {}", self.message)
            }
            None => format!("{front}: {}", self.message),
        }
    }

    /// The same for a machine, but for the command's name and the status.
    pub fn fields(&self) -> Fields {
        let mut fields = Fields::new();
        if let Some(refusal) = self.refusal {
            fields.push(("refusal", Json::from(refusal.name())));
        }
        if let Some(file) = &self.file {
            fields.push(("file", Json::from(file.as_str())));
        }
        fields.push(("message", Json::from(self.message.as_str())));
        fields.extend(self.more.iter().cloned());
        fields
    }
}

/// A path that leads nowhere: through a file, in a circle, or too long.
fn is_no_file(error: &io::Error) -> bool {
    const ENOTDIR: i32 = 20;
    const EISDIR: i32 = 21;
    const ENAMETOOLONG: i32 = 36;
    const ELOOP: i32 = 40;
    let number = error.raw_os_error();
    matches!(number, Some(ENOTDIR | EISDIR | ENAMETOOLONG | ELOOP))
}

/// A file's name as it is shown: what would move a terminal's cursor is written out.
pub fn shown(path: &Path) -> String {
    let mut name = String::new();
    for c in path.to_string_lossy().chars() {
        match c.is_control() {
            true => name.extend(c.escape_default()),
            false => name.push(c),
        }
    }
    name
}

#[cfg(test)]
mod tests {
    use super::*;

    #[test]
    fn a_refusal_reads_as_the_night_shift_reads_it() {
        let failure = Failure::refused(Refusal::Gap, "d8", "8 is not 7".to_string());
        assert_eq!(failure.line(), "d8: 12 Gap: 8 is not 7");
        assert_eq!(failure.status, 12);
    }

    #[test]
    fn a_name_cannot_move_the_cursor() {
        assert_eq!(shown(Path::new("a\x1b[2Jb\n")), "a\\u{1b}[2Jb\\n");
    }
}
