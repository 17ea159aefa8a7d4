//! The few functions of libc that std lacks, and what else is not safe: mapped files, large pages, memory that may be refused,
//! locks, the allocation of a file's blocks, owners, terminals, a rename that never overwrites, and two signals. Linux on x86-64 and aarch64, where `off_t` has 64 bits and these numbers are the same.

use std::alloc::{alloc_zeroed, Layout};
use std::ffi::CString;
use std::fs::File;
use std::io;
use std::ops::Range;
use std::os::raw::{c_char, c_int, c_uint, c_void};
use std::os::unix::ffi::OsStrExt;
use std::os::unix::io::AsRawFd;
use std::path::Path;
use std::ptr::{null_mut, NonNull};
use std::sync::atomic::{AtomicPtr, Ordering};

pub const O_NONBLOCK: c_int = 0o4000;
#[cfg(target_arch = "x86_64")]
pub const O_NOFOLLOW: c_int = 0o400000;
#[cfg(target_arch = "aarch64")]
pub const O_NOFOLLOW: c_int = 0o100000;

pub const ENOSYS: i32 = 38;
pub const EOPNOTSUPP: i32 = 95;
const EINTR: i32 = 4;
const EAGAIN: i32 = 11;
const EINVAL: i32 = 22;

const PROT_READ: c_int = 1;
const PROT_WRITE: c_int = 2;
const MAP_SHARED: c_int = 1;
const MAP_PRIVATE: c_int = 2;
const MS_SYNC: c_int = 4;
const LOCK_SH: c_int = 1;
const LOCK_EX: c_int = 2;
const LOCK_NB: c_int = 4;
const MADV_HUGEPAGE: c_int = 14;
const FALLOC_FL_KEEP_SIZE: c_int = 1;
/// No owner at all: fchown leaves the one that there is.
const AS_IT_IS: c_uint = c_uint::MAX;
/// The largest page that a machine of these has as its smallest.
const PAGE: usize = 64 * 1024;
const AT_FDCWD: c_int = -100;
const RENAME_NOREPLACE: c_uint = 1;
const SIGBUS: c_int = 7;
const SIGXFSZ: c_int = 25;
const SIG_IGN: usize = 1;

extern "C" {
    fn mmap(
        at: *mut c_void,
        len: usize,
        prot: c_int,
        flags: c_int,
        fd: c_int,
        offset: i64,
    ) -> *mut c_void;
    fn munmap(at: *mut c_void, len: usize) -> c_int;
    fn msync(at: *mut c_void, len: usize, flags: c_int) -> c_int;
    fn madvise(at: *mut c_void, len: usize, advice: c_int) -> c_int;
    fn flock(fd: c_int, operation: c_int) -> c_int;
    fn fchown(fd: c_int, owner: c_uint, group: c_uint) -> c_int;
    fn isatty(fd: c_int) -> c_int;
    fn fallocate(fd: c_int, mode: c_int, offset: i64, len: i64) -> c_int;
    fn renameat2(
        from_folder: c_int,
        from: *const c_char,
        to_folder: c_int,
        to: *const c_char,
        flags: c_uint,
    ) -> c_int;
    fn signal(number: c_int, handler: usize) -> usize;
    fn write(fd: c_int, bytes: *const c_void, len: usize) -> isize;
    fn _exit(status: c_int) -> !;
}

/// The first bytes of a file, mapped. Both kinds can be read and written, so that either slice may be lent from either.
pub struct Mapping {
    at: NonNull<u8>,
    len: usize,
}

impl Mapping {
    /// What is written goes to the file, which must be open for both.
    pub fn shared(file: &File, len: usize) -> io::Result<Mapping> {
        Mapping::of(file, len, MAP_SHARED)
    }

    /// What is written would stay in this process; a file that is open for reading will do.
    pub fn private(file: &File, len: usize) -> io::Result<Mapping> {
        Mapping::of(file, len, MAP_PRIVATE)
    }

    fn of(file: &File, len: usize, flags: c_int) -> io::Result<Mapping> {
        if len == 0 {
            let at = NonNull::dangling();
            return Ok(Mapping { at, len });
        }
        let prot = PROT_READ | PROT_WRITE;
        // SAFETY: no address is asked for, so the mapping lands where nothing of ours is.
        let at = unsafe { mmap(null_mut(), len, prot, flags, file.as_raw_fd(), 0) };
        if at as isize == -1 {
            return Err(io::Error::last_os_error());
        }
        match NonNull::new(at.cast()) {
            Some(at) => Ok(Mapping { at, len }),
            None => Err(io::Error::from_raw_os_error(EINVAL)),
        }
    }

    pub fn bytes(&self) -> &[u8] {
        // SAFETY: `len` bytes are mapped from `at` on for as long as self lives (none where `len` is 0), and self is lent.
        unsafe { std::slice::from_raw_parts(self.at.as_ptr(), self.len) }
    }

    pub fn bytes_mut(&mut self) -> &mut [u8] {
        // SAFETY: as in `bytes`; the mapping is writable, and self is lent to nobody else.
        unsafe { std::slice::from_raw_parts_mut(self.at.as_ptr(), self.len) }
    }

    /// Waits until what was written to a shared mapping is on the disk.
    pub fn flush(&self) -> io::Result<()> {
        if self.len == 0 {
            return Ok(());
        }
        // SAFETY: the range is the one that was mapped.
        done(unsafe { msync(self.at.as_ptr().cast(), self.len, MS_SYNC) })
    }
}

impl Drop for Mapping {
    fn drop(&mut self) {
        if self.len > 0 {
            // SAFETY: the range is the one that was mapped, and no slice of it outlives self.
            unsafe { munmap(self.at.as_ptr().cast(), self.len) };
        }
    }
}

fn done(answer: c_int) -> io::Result<()> {
    match answer {
        0 => Ok(()),
        _ => Err(io::Error::last_os_error()),
    }
}

/// Makes a call until no signal cuts it.
fn uninterrupted(call: impl Fn() -> c_int) -> io::Result<()> {
    loop {
        match done(call()) {
            Err(error) if error.raw_os_error() == Some(EINTR) => continue,
            answer => return answer,
        }
    }
}

/// How a file is locked: by one alone, or by any number of readers.
#[derive(Clone, Copy, PartialEq, Eq)]
pub enum Lock {
    Exclusive,
    Shared,
}

/// Locks a file for as long as it is open; false if another has it. The lock keeps off those who ask for it, nobody else.
pub fn lock(file: &File, lock: Lock) -> io::Result<bool> {
    let operation = match lock {
        Lock::Exclusive => LOCK_EX,
        Lock::Shared => LOCK_SH,
    };
    // SAFETY: two numbers are passed; the descriptor is open while `file` lives.
    let locked = uninterrupted(|| unsafe { flock(file.as_raw_fd(), operation | LOCK_NB) });
    match locked {
        Ok(()) => Ok(true),
        Err(error) if error.raw_os_error() == Some(EAGAIN) => Ok(false),
        Err(error) => Err(error),
    }
}

/// Asks for large pages under the room of a buffer that is not yet filled, so that filling it faults less often. Nothing
/// depends on the answer.
pub fn in_large_pages(buffer: Vec<u8>) -> Vec<u8> {
    let room = buffer.as_ptr() as usize..buffer.as_ptr() as usize + buffer.capacity();
    let start = (room.start + PAGE - 1) / PAGE * PAGE;
    let end = room.end / PAGE * PAGE;
    if start < end {
        // SAFETY: the pages lie within the buffer's own room, and this advice changes none of their bytes.
        unsafe { madvise(start as *mut c_void, end - start, MADV_HUGEPAGE) };
    }
    buffer
}

/// Gives a file to an owner, if one is named, and to a group.
pub fn give(file: &File, owner: Option<u32>, group: u32) -> io::Result<()> {
    // SAFETY: numbers are passed; the descriptor is open while `file` lives.
    done(unsafe { fchown(file.as_raw_fd(), owner.unwrap_or(AS_IT_IS), group) })
}

pub fn is_terminal(stream: &impl AsRawFd) -> bool {
    // SAFETY: a number is passed, and nothing is changed.
    unsafe { isatty(stream.as_raw_fd()) == 1 }
}

/// Has the file system set aside room for these bytes of the file. What they hold stays, and so does the file's length.
pub fn allocate(file: &File, bytes: &Range<i64>) -> io::Result<()> {
    let (start, len) = (bytes.start, bytes.end - bytes.start);
    // SAFETY: numbers are passed; the descriptor is open while `file` lives.
    uninterrupted(|| unsafe { fallocate(file.as_raw_fd(), FALLOC_FL_KEEP_SIZE, start, len) })
}

/// Zeros in memory that is not touched yet, or the error that there is no such room.
pub fn zeros(len: usize) -> io::Result<Vec<u8>> {
    let none = || io::Error::from(io::ErrorKind::OutOfMemory);
    let layout = Layout::array::<u8>(len).map_err(|_| none())?;
    if len == 0 {
        return Ok(Vec::new());
    }
    // SAFETY: the layout has a size above 0.
    let at = NonNull::new(unsafe { alloc_zeroed(layout) }).ok_or_else(none)?;
    // SAFETY: `len` bytes of this layout, all of them zero, were allocated at `at` a moment ago and are nobody else's.
    Ok(unsafe { Vec::from_raw_parts(at.as_ptr(), len, len) })
}

/// Renames, and fails with "exists" where there is a `to`. A file system that has no such rename gets a second link in its
/// place, and the first is taken away.
pub fn rename_to_new(from: &Path, to: &Path) -> io::Result<()> {
    let (c_from, c_to) = (c_path(from)?, c_path(to)?);
    // SAFETY: both are strings that end in a zero and live through the call.
    let answer = done(unsafe {
        renameat2(
            AT_FDCWD,
            c_from.as_ptr(),
            AT_FDCWD,
            c_to.as_ptr(),
            RENAME_NOREPLACE,
        )
    });
    match answer {
        Err(error) if matches!(error.raw_os_error(), Some(EINVAL | ENOSYS)) => {
            std::fs::hard_link(from, to)?;
            std::fs::remove_file(from)
        }
        answer => answer,
    }
}

fn c_path(path: &Path) -> io::Result<CString> {
    CString::new(path.as_os_str().as_bytes()).map_err(|_| io::Error::from_raw_os_error(EINVAL))
}

/// A write beyond the limit of a file's size becomes an error instead of the end of the process.
pub fn ignore_size_signal() {
    // SAFETY: the signal is ignored from here on; no code of ours runs in a handler.
    unsafe { signal(SIGXFSZ, SIG_IGN) };
}

struct LastWords {
    fd: c_int,
    words: Vec<u8>,
    status: c_int,
}

static LAST_WORDS: AtomicPtr<LastWords> = AtomicPtr::new(null_mut());

/// A mapped byte that the disk cannot give or take ends the process with these words instead of silently.
pub fn on_bus_error(fd: c_int, words: Vec<u8>, status: c_int) {
    // The words stay to the end of the process, for the handler may come at any time.
    let words = Box::leak(Box::new(LastWords { fd, words, status }));
    LAST_WORDS.store(words, Ordering::Release);
    let handler: extern "C" fn(c_int) = say_last_words;
    // SAFETY: the handler only reads what was set before it was installed, writes to a descriptor and ends the process.
    unsafe { signal(SIGBUS, handler as usize) };
}

extern "C" fn say_last_words(_: c_int) {
    // SAFETY: what was stored lives to the end of the process; both calls may be made in a handler.
    unsafe {
        match LAST_WORDS.load(Ordering::Acquire).as_ref() {
            Some(last) => {
                write(last.fd, last.words.as_ptr().cast(), last.words.len());
                _exit(last.status)
            }
            None => _exit(70),
        }
    }
}

#[cfg(test)]
mod tests {
    use super::*;

    /// A file that somebody cut short is not made longer again.
    #[test]
    fn room_set_aside_leaves_the_length_as_it_is() -> io::Result<()> {
        let name = format!("minnow-room-{}", std::process::id());
        let path = std::env::temp_dir().join(name);
        std::fs::write(&path, b"short")?;
        let file = File::options().write(true).open(&path)?;
        std::fs::remove_file(&path)?;
        match allocate(&file, &(0..8192)) {
            Err(error) if error.raw_os_error() == Some(EOPNOTSUPP) => return Ok(()),
            answer => answer?,
        }
        assert_eq!(file.metadata()?.len(), 5);
        Ok(())
    }

    #[test]
    fn memory_is_given_or_refused() {
        assert_eq!(zeros(0).ok(), Some(Vec::new()));
        assert_eq!(zeros(5).ok(), Some(vec![0; 5]));
        for far_too_much in [usize::MAX, isize::MAX as usize - 4096] {
            let refused = zeros(far_too_much).map_err(|error| error.kind());
            assert_eq!(refused, Err(io::ErrorKind::OutOfMemory));
        }
    }
}
