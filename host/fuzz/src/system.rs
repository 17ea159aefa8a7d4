//! What the driver needs of the C library, declared by hand: memory with rights, children, and a limit of time.
//! For Linux on x86-64 and Arm, where the numbers below are the same.

use std::io;
use std::os::raw::{c_int, c_long, c_uint, c_void};
use std::process;
use std::ptr;

const PROT_READ: c_int = 1;
const PROT_WRITE: c_int = 2;
const MAP_SHARED: c_int = 1;
const MAP_PRIVATE: c_int = 2;
const MAP_ANONYMOUS: c_int = 0x20;
const SC_PAGESIZE: c_int = 30;
const RLIMIT_CORE: c_int = 4;

#[repr(C)]
struct Limit {
    now: u64,
    most: u64,
}

extern "C" {
    fn mmap(
        at: *mut c_void,
        size: usize,
        rights: c_int,
        flags: c_int,
        file: c_int,
        offset: i64,
    ) -> *mut c_void;
    fn mprotect(at: *mut c_void, size: usize, rights: c_int) -> c_int;
    fn sysconf(name: c_int) -> c_long;
    fn fork() -> c_int;
    fn waitpid(child: c_int, status: *mut c_int, options: c_int) -> c_int;
    fn alarm(seconds: c_uint) -> c_uint;
    fn setrlimit(resource: c_int, limit: *const Limit) -> c_int;
}

/// What may be done to memory.
#[derive(Clone, Copy)]
pub enum Rights {
    None,
    Read,
    ReadWrite,
}

impl Rights {
    fn number(self) -> c_int {
        match self {
            Rights::None => 0,
            Rights::Read => PROT_READ,
            Rights::ReadWrite => PROT_READ | PROT_WRITE,
        }
    }
}

fn mapped(size: usize, rights: Rights, sharing: c_int) -> io::Result<*mut u8> {
    // SAFETY: a new mapping at an address of the kernel's choice touches no memory in use.
    let at = unsafe {
        mmap(
            ptr::null_mut(),
            size,
            rights.number(),
            sharing | MAP_ANONYMOUS,
            -1,
            0,
        )
    };
    if at as isize == -1 {
        return Err(io::Error::last_os_error());
    }
    Ok(at.cast())
}

/// New pages of this process alone.
pub fn map_private(size: usize, rights: Rights) -> io::Result<*mut u8> {
    mapped(size, rights, MAP_PRIVATE)
}

/// New zeroed pages that children share.
pub fn map_shared(size: usize) -> io::Result<*mut u8> {
    mapped(size, Rights::ReadWrite, MAP_SHARED)
}

/// Changes the rights of whole pages.
///
/// # Safety
/// The pages come from [`map_private`], and no Rust reference into them is alive.
pub unsafe fn protect(at: *mut u8, size: usize, rights: Rights) -> io::Result<()> {
    // SAFETY: as promised by the caller.
    match unsafe { mprotect(at.cast(), size, rights.number()) } {
        0 => Ok(()),
        _ => Err(io::Error::last_os_error()),
    }
}

pub fn page_size() -> usize {
    // SAFETY: asks for a number.
    let size = unsafe { sysconf(SC_PAGESIZE) };
    usize::try_from(size).expect("a page has a size")
}

/// How a child ended.
#[derive(Clone, Copy, PartialEq, Eq, Debug)]
pub enum Ended {
    Exit(i32),
    Signal(i32),
}

/// Runs `work` in a child of its own memory and waits; the child exits with what `work` gives.
pub fn in_child(work: impl FnOnce() -> i32) -> io::Result<Ended> {
    // SAFETY: the driver has one thread, so the child is a whole copy of it.
    let child = unsafe { fork() };
    match child {
        -1 => Err(io::Error::last_os_error()),
        0 => {
            leave_no_core();
            process::exit(work())
        }
        _ => wait_for(child),
    }
}

fn wait_for(child: c_int) -> io::Result<Ended> {
    let mut status = 0;
    loop {
        // SAFETY: `status` is our own.
        if unsafe { waitpid(child, &mut status, 0) } == child {
            break;
        }
        let error = io::Error::last_os_error();
        if error.kind() != io::ErrorKind::Interrupted {
            return Err(error);
        }
    }
    match status & 0x7f {
        0 => Ok(Ended::Exit((status >> 8) & 0xff)),
        signal => Ok(Ended::Signal(signal)),
    }
}

/// A fault is expected in some children; none should leave a file.
fn leave_no_core() {
    let limit = Limit { now: 0, most: 0 };
    // SAFETY: `limit` is read during the call alone. Failure would only leave a file.
    unsafe { setrlimit(RLIMIT_CORE, &limit) };
}

/// Ends this process with SIGALRM unless this is called again within so many seconds.
pub fn end_after(seconds: u32) {
    // SAFETY: sets a timer.
    unsafe { alarm(seconds) };
}

/// The name of a signal that a fault may end a child with.
pub fn signal_name(signal: i32) -> &'static str {
    match signal {
        4 => "SIGILL",
        6 => "SIGABRT",
        7 => "SIGBUS",
        8 => "SIGFPE",
        11 => "SIGSEGV",
        14 => "SIGALRM, no answer in time",
        _ => "another signal",
    }
}
