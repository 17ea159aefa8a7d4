//! Memory to lend: each buffer stands in a region of its own between guard pages that nobody may touch, and begins or ends
//! exactly at one of them. A byte read or written beyond it there faults at once.

use std::io;
use std::ptr;

use crate::system::{self, Rights};

/// Bytes beside a buffer, on the side that has no guard page, that must still stand after the call.
const MARGIN: usize = 64;
const MARGIN_FILL: u8 = 0xC5;

/// Bytes of guard pages on either side: more than the largest image, so that a wrong block of one lands there too.
const GUARD: usize = 64 << 20;

/// Sizes of regions that the yard keeps; the last holds a diff or an image that is a little too long.
const SIZES: [usize; 4] = [4 << 10, 64 << 10, 1 << 20, 40 << 20];

/// Which end of a buffer stands at a guard page.
#[derive(Clone, Copy, PartialEq, Eq, Debug)]
pub enum Side {
    Start,
    End,
}

/// Whole pages between guard pages.
struct Region {
    start: *mut u8,
    size: usize,
    /// Its place in `SIZES`; the size itself is rounded up to whole pages.
    class: usize,
}

impl Region {
    fn map(class: usize) -> io::Result<Region> {
        let page = system::page_size();
        let size = (SIZES[class] + page - 1) / page * page;
        let whole = system::map_private(size + 2 * GUARD, Rights::None)?;
        // SAFETY: the mapping is two guards longer than `size`; a guard is whole pages.
        let start = unsafe { whole.add(GUARD) };
        // SAFETY: these are the middle pages of the mapping just made.
        unsafe { system::protect(start, size, Rights::ReadWrite)? };
        Ok(Region { start, size, class })
    }

    fn set(&self, rights: Rights) -> io::Result<()> {
        // SAFETY: the pages are ours; references to them live only inside the functions of this file.
        unsafe { system::protect(self.start, self.size, rights) }
    }
}

/// A buffer at a guard page.
pub struct Lent {
    region: Region,
    at: usize,
    len: usize,
}

impl Lent {
    fn place(region: Region, bytes: &[u8], side: Side) -> Lent {
        let at = match side {
            Side::Start => 0,
            Side::End => region.size - bytes.len(),
        };
        let lent = Lent {
            region,
            at,
            len: bytes.len(),
        };
        let (margin, size) = lent.margin();
        // SAFETY: buffer and margin lie within the region, which is writable, and `bytes` does not.
        unsafe {
            ptr::write_bytes(margin, MARGIN_FILL, size);
            ptr::copy_nonoverlapping(bytes.as_ptr(), lent.pointer(), bytes.len());
        }
        lent
    }

    /// Where the margin starts, and its size: behind a buffer at the start of its region, before one at the end.
    fn margin(&self) -> (*mut u8, usize) {
        let behind = self.at + self.len;
        let (from, size) = match self.at {
            0 => (behind, MARGIN.min(self.region.size - behind)),
            at => (at - MARGIN.min(at), MARGIN.min(at)),
        };
        // SAFETY: `from` is at most the region's size.
        (unsafe { self.region.start.add(from) }, size)
    }

    /// Its first byte; for an empty buffer, where one would be.
    pub fn pointer(&self) -> *mut u8 {
        // SAFETY: `at` is at most the region's size.
        unsafe { self.region.start.add(self.at) }
    }

    pub fn len(&self) -> usize {
        self.len
    }

    /// Makes every write to it fault.
    pub fn lock(&self) -> io::Result<()> {
        self.region.set(Rights::Read)
    }

    /// What it holds now.
    pub fn bytes(&self) -> Vec<u8> {
        // SAFETY: the buffer lies within the region, which may be read, and no call is under way.
        unsafe { std::slice::from_raw_parts(self.pointer(), self.len) }.to_vec()
    }

    /// Whether the margin still stands.
    pub fn margin_stands(&self) -> bool {
        let (margin, size) = self.margin();
        // SAFETY: the margin lies within the region, which may be read, and no call is under way.
        let margin = unsafe { std::slice::from_raw_parts(margin, size) };
        margin.iter().all(|&byte| byte == MARGIN_FILL)
    }
}

/// Regions at rest, by size.
#[derive(Default)]
pub struct Yard {
    free: [Vec<Region>; SIZES.len()],
}

impl Yard {
    /// A buffer that holds these bytes, writable until it is locked.
    pub fn lend(&mut self, bytes: &[u8], side: Side) -> io::Result<Lent> {
        let class = SIZES.iter().position(|&size| bytes.len() <= size);
        let class = class.ok_or_else(|| {
            io::Error::new(io::ErrorKind::Other, "a buffer larger than any region")
        })?;
        let region = match self.free[class].pop() {
            Some(region) => region,
            None => Region::map(class)?,
        };
        Ok(Lent::place(region, bytes, side))
    }

    /// Takes a buffer back, writable again.
    pub fn take_back(&mut self, lent: Lent) -> io::Result<()> {
        lent.region.set(Rights::ReadWrite)?;
        self.free[lent.region.class].push(lent.region);
        Ok(())
    }
}
