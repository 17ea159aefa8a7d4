//! What the tests of the tool share: a folder of their own, records spelt by hand from the paper's table, and runs of the binary.

#![allow(dead_code)]

use std::ffi::OsStr;
use std::fs::{self, File};
use std::os::unix::fs::MetadataExt;
use std::os::unix::io::AsRawFd;
use std::path::{Path, PathBuf};
use std::process::{Command, Output};
use std::sync::atomic::{AtomicU32, Ordering};

pub const LOG: u8 = 0;
pub const COMPARED: u8 = 1;

/// A folder that is removed at the end.
pub struct Folder(pub PathBuf);

static NUMBER: AtomicU32 = AtomicU32::new(0);

impl Folder {
    pub fn new() -> Folder {
        let number = NUMBER.fetch_add(1, Ordering::Relaxed);
        let name = format!("minnow-test-{}-{number}", std::process::id());
        let path = std::env::temp_dir().join(name);
        fs::create_dir(&path).expect("a folder for the test");
        Folder(path)
    }

    pub fn path(&self, name: &str) -> PathBuf {
        self.0.join(name)
    }

    pub fn write(&self, name: &str, bytes: &[u8]) -> &Folder {
        fs::write(self.path(name), bytes).expect("a file of the test");
        self
    }

    pub fn read(&self, name: &str) -> Vec<u8> {
        fs::read(self.path(name)).expect("a file of the test")
    }

    /// A file of this length that takes no room.
    pub fn sparse(&self, name: &str, start: &[u8], length: u64) -> &Folder {
        self.write(name, start);
        let file = fs::OpenOptions::new().write(true).open(self.path(name));
        let sized = file.and_then(|file| file.set_len(length));
        sized.expect("a sparse file");
        self
    }

    /// A volume of blocks that all hold `fill`, and its state.
    pub fn volume(&self, blocks: usize, fill: u8, state: &[u8]) -> &Folder {
        self.write("vol", &vec![fill; 512 * blocks]);
        self.write("vol.state", state)
    }

    /// Names of everything here, in order.
    pub fn names(&self) -> Vec<String> {
        let entries = fs::read_dir(&self.0).expect("the test's folder");
        let name = |entry: std::io::Result<fs::DirEntry>| {
            let name = entry.expect("an entry").file_name();
            name.to_string_lossy().into_owned()
        };
        let mut names: Vec<String> = entries.map(name).collect();
        names.sort();
        names
    }

    /// The binary, to be run in this folder.
    pub fn command(&self) -> Command {
        let mut command = Command::new(binary());
        command.current_dir(&self.0);
        command
    }

    pub fn run<S: AsRef<OsStr>>(&self, words: &[S]) -> Answer {
        let output = self.command().args(words).output();
        Answer::of(output.expect("the binary runs"))
    }

    /// Runs words that hold no blanks, apart from those between them.
    pub fn line(&self, line: &str) -> Answer {
        self.run(&line.split_whitespace().collect::<Vec<_>>())
    }

    /// Runs a line of the shell in which `minnow` is the binary.
    pub fn shell(&self, line: &str) -> Answer {
        let script = format!("minnow() {{ '{}' \"$@\"; }}\n{line}", binary().display());
        let output = Command::new("sh")
            .args(["-c", &script])
            .current_dir(&self.0)
            .output();
        Answer::of(output.expect("a shell runs"))
    }
}

impl Drop for Folder {
    fn drop(&mut self) {
        let _ = fs::remove_dir_all(&self.0);
    }
}

pub fn binary() -> &'static Path {
    Path::new(env!("CARGO_BIN_EXE_minnow"))
}

/// What a run ended with.
#[derive(Debug)]
pub struct Answer {
    pub status: Option<i32>,
    pub out: String,
    pub err: String,
    pub raw: Vec<u8>,
}

impl Answer {
    pub fn of(output: Output) -> Answer {
        Answer {
            status: output.status.code(),
            out: String::from_utf8_lossy(&output.stdout).into_owned(),
            err: String::from_utf8_lossy(&output.stderr).into_owned(),
            raw: output.stdout,
        }
    }

    /// Succeeded, said exactly this, and nothing on standard error.
    #[track_caller]
    pub fn says(&self, text: &str) {
        assert_eq!(self.status, Some(0), "{self:?}");
        assert_eq!(self.out, format!("{text}\n"));
        assert_eq!(self.err, "");
    }

    /// Succeeded and said nothing.
    #[track_caller]
    pub fn is_silent(&self) {
        assert_eq!((self.status, &*self.out, &*self.err), (Some(0), "", ""));
    }

    /// Failed with this status and exactly this line on standard error.
    #[track_caller]
    pub fn fails(&self, status: i32, line: &str) {
        assert_eq!(self.err, format!("{line}\n"));
        assert_eq!(self.status, Some(status), "{self:?}");
        assert_eq!(self.out, "");
    }

    /// Failed with this status and some line that holds this.
    #[track_caller]
    pub fn fails_with(&self, status: i32, part: &str) {
        assert_eq!(self.status, Some(status), "{self:?}");
        assert!(self.err.contains(part), "{self:?}");
        assert_eq!(self.err.lines().count(), 1, "{self:?}");
        assert!(!self.err.contains("panicked"), "{self:?}");
    }
}

pub fn head(kind: u8, p: u64, q: u64, n: u32) -> Vec<u8> {
    let mut bytes = vec![0x57, 0x44, kind, 0];
    bytes.extend(p.to_le_bytes());
    bytes.extend(q.to_le_bytes());
    bytes.extend(n.to_le_bytes());
    bytes
}

pub fn record(address: u32, fill: u8) -> Vec<u8> {
    let mut bytes = vec![0x57, 0x42];
    bytes.extend(address.to_le_bytes());
    bytes.extend([fill; 512]);
    bytes
}

/// A diff whose blocks are each filled with one byte.
pub fn diff(kind: u8, p: u64, q: u64, blocks: &[(u32, u8)]) -> Vec<u8> {
    let mut bytes = head(kind, p, q, blocks.len() as u32);
    for (address, fill) in blocks {
        bytes.extend(record(*address, *fill));
    }
    bytes
}

/// The most blocks that a diff can have, all of them filled with one byte.
pub fn full_diff(p: u64, q: u64, fill: u8) -> Vec<u8> {
    let mut bytes = head(LOG, p, q, 65_536);
    bytes.reserve_exact(518 * 65_536);
    for address in 0..65_536 {
        bytes.extend([0x57, 0x42]);
        bytes.extend(u32::to_le_bytes(address));
        bytes.extend([fill; 512]);
    }
    bytes
}

pub fn state(kind: u8, b: u64, t: u64, e: u64) -> Vec<u8> {
    let mut bytes = vec![0x57, 0x53, kind, 0];
    for gid in [b, t, e] {
        bytes.extend(gid.to_le_bytes());
    }
    bytes
}

pub fn clean(g: u64) -> Vec<u8> {
    state(0, g, g, g)
}

pub fn pair(b: u64, t: u64) -> Vec<u8> {
    state(2, b, t, t)
}

/// An image after the blocks of a diff are put into it.
pub fn written(image: &[u8], blocks: &[(u32, u8)]) -> Vec<u8> {
    let mut image = image.to_vec();
    for (address, fill) in blocks {
        let at = 512 * *address as usize;
        image[at..at + 512].fill(*fill);
    }
    image
}

/// Whether we are root, who may mount and become others.
pub fn is_root() -> bool {
    let output = Command::new("id").arg("-u").output();
    output.map_or(false, |output| output.stdout == b"0\n")
}

/// Says why a test did not run.
pub fn skipped(test: &str, why: &str) {
    println!("skipped: {test}: {why}");
}

/// Runs words, as `line` does, under strace.
pub fn strace(folder: &Folder, options: &[&str], line: &str) -> Answer {
    let output = Command::new("strace")
        .args(options)
        .arg(binary())
        .args(line.split_whitespace())
        .current_dir(&folder.0)
        .output();
    Answer::of(output.expect("strace runs"))
}

pub fn can_trace(test: &str) -> bool {
    let tried = Command::new("strace")
        .args(["-o", "/dev/null", "true"])
        .output();
    let works = tried.map_or(false, |output| output.status.success());
    if !works {
        skipped(test, "strace cannot be used here");
    }
    works
}

extern "C" {
    fn flock(fd: i32, operation: i32) -> i32;
}

pub const SHARED: i32 = 1;
pub const EXCLUSIVE: i32 = 2;
const AT_ONCE: i32 = 4;
const UNLOCK: i32 = 8;

/// A locked file. To close it would not unlock it at once: a child that another test is starting has a copy of every
/// descriptor until it becomes its program.
pub struct Locked(File);

impl Locked {
    pub fn new(path: &Path, operation: i32) -> Option<Locked> {
        let file = File::options().read(true).write(true).open(path).ok()?;
        // SAFETY: two numbers are passed, the first an open descriptor.
        let answer = unsafe { flock(file.as_raw_fd(), operation | AT_ONCE) };
        (answer == 0).then(|| Locked(file))
    }
}

impl Drop for Locked {
    fn drop(&mut self) {
        // SAFETY: two numbers are passed, the first an open descriptor.
        unsafe { flock(self.0.as_raw_fd(), UNLOCK) };
    }
}

/// Locks a file until it is dropped.
pub fn locked(path: &Path, operation: i32) -> Locked {
    Locked::new(path, operation).expect("a file to lock")
}

/// Whether anybody has locked a file. To try the lock instead would keep off the run that is waited for.
pub fn is_locked(path: &Path) -> bool {
    let inode = fs::metadata(path).map_or(0, |metadata| metadata.ino());
    let locks = fs::read_to_string("/proc/locks").expect("the list of locks");
    locks.contains(&format!(":{inode} "))
}
