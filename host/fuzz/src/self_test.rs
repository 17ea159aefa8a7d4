//! Faults planted on purpose, each in a child of its own: the guard pages, the rights, the margins, the clock and the judge
//! must catch every one, and must let pass what is right.

use std::io;
use std::ptr;

use minnow::{face, BLOCK, MAX_BLOCKS, RECORD, STATE};

use crate::doctored;
use crate::guarded::{Lent, Side, Yard};
use crate::made::{self, Ends, LOG};
use crate::random::Random;
use crate::system::{self, Ended};

/// What a plant must come to.
#[derive(Clone, Copy, PartialEq, Eq, Debug)]
enum Must {
    /// Nothing is wrong with it.
    Pass,
    /// The machine stops it.
    Fault,
    /// The driver sees it afterwards.
    Found,
    /// The clock ends it.
    Stop,
}

type Plant = (&'static str, Must, fn() -> io::Result<bool>);

/// Where the last block of the largest image starts.
const FAR: isize = ((MAX_BLOCKS - 1) * BLOCK) as isize;

/// Each plant does its deed and then says whether the driver finds all well.
#[rustfmt::skip]
const PLANTS: [Plant; 21] = [
    ("read the last byte of an input", Must::Pass, || read_at(Side::End, 99)),
    ("read one byte past an input", Must::Fault, || read_at(Side::End, 100)),
    ("read one byte before an input", Must::Fault, || read_at(Side::Start, -1)),
    ("read the last block of an image that is not there", Must::Fault, || read_at(Side::End, FAR)),
    ("read the first byte of an empty input", Must::Fault, read_empty),
    ("write to an input", Must::Fault, write_to_input),
    ("write the last byte of an output", Must::Pass, || write_at(Side::End, 99)),
    ("write one byte past an output", Must::Fault, || write_at(Side::End, 100)),
    ("write one byte before an output", Must::Fault, || write_at(Side::Start, -1)),
    ("write the last block of an image that is not there", Must::Fault, || write_at(Side::End, FAR)),
    ("write past an output, away from the guard", Must::Found, || write_at(Side::Start, 100)),
    ("write before an output, away from the guard", Must::Found, || write_at(Side::End, -1)),
    ("write a number too wide for its memory", Must::Fault, wide_number),
    ("library: state record of 28 bytes said to have 28", Must::Pass, || lie_reading(STATE)),
    ("library: state record of 27 bytes said to have 28", Must::Fault, || lie_reading(STATE - 1)),
    ("library: output of 28 bytes said to have 28", Must::Pass, || lie_writing(STATE)),
    ("library: output of 27 bytes said to have 28", Must::Fault, || lie_writing(STATE - 1)),
    ("library: diff whose record is not there", Must::Fault, lie_checking),
    ("library: run into a writable image", Must::Pass, || run_into(false)),
    ("library: run into an image lent as an input", Must::Fault, || run_into(true)),
    ("a call that never ends", Must::Stop, never_end),
];

/// Plays every plant; says whether each came to what it must.
pub fn run() -> io::Result<bool> {
    let mut well = true;
    for (name, must, deed) in PLANTS {
        let ended = system::in_child(|| match deed() {
            Ok(fine) => i32::from(!fine),
            Err(_) => 2,
        })?;
        let came = came_to(ended);
        well &= tell(name, came == Some(must), &format!("{ended:?}"));
    }
    for (name, right, said) in
        doctored::judged().map_err(|said| io::Error::new(io::ErrorKind::Other, said))?
    {
        well &= tell(name, right, &said);
    }
    let verdict = if well { "passed" } else { "FAILED" };
    println!("the self-test {verdict}");
    Ok(well)
}

fn tell(name: &str, right: bool, how: &str) -> bool {
    println!("{}  {name}: {how}", if right { "ok   " } else { "WRONG" });
    right
}

fn came_to(ended: Ended) -> Option<Must> {
    match ended {
        Ended::Exit(0) => Some(Must::Pass),
        Ended::Exit(1) => Some(Must::Found),
        Ended::Signal(7 | 11) => Some(Must::Fault),
        Ended::Signal(14) => Some(Must::Stop),
        _ => None,
    }
}

fn lent(len: usize, side: Side) -> io::Result<Lent> {
    Yard::default().lend(&vec![1; len], side)
}

/// Reads a byte of an input of 100 bytes, or beside it.
fn read_at(side: Side, at: isize) -> io::Result<bool> {
    let input = lent(100, side)?;
    input.lock()?;
    // SAFETY: beside the buffer stands its guard page, and a fault there is what the plant is for.
    let byte = unsafe { ptr::read_volatile(input.pointer().offset(at)) };
    Ok(byte == 1)
}

fn read_empty() -> io::Result<bool> {
    let input = lent(0, Side::End)?;
    // SAFETY: the pointer is to the guard page; see `read_at`.
    let byte = unsafe { ptr::read_volatile(input.pointer()) };
    Ok(byte == 1)
}

fn write_to_input() -> io::Result<bool> {
    let input = lent(100, Side::End)?;
    input.lock()?;
    // SAFETY: the byte is ours, and may only be read; see `read_at`.
    unsafe { ptr::write_volatile(input.pointer(), 2) };
    Ok(true)
}

/// Writes a byte of an output of 100 bytes, or beside it; then the margin is looked at.
fn write_at(side: Side, at: isize) -> io::Result<bool> {
    let output = lent(100, side)?;
    // SAFETY: beside the buffer stand its guard page or its margin; see `read_at`.
    unsafe { ptr::write_volatile(output.pointer().offset(at), 2) };
    Ok(output.margin_stands())
}

fn wide_number() -> io::Result<bool> {
    let number = lent(4, Side::End)?;
    // SAFETY: the upper half is on the guard page; see `read_at`.
    unsafe { ptr::write_unaligned(number.pointer().cast(), 7_u64) };
    Ok(true)
}

/// Has the library read a state of 28 bytes where only `len` are lent.
fn lie_reading(len: usize) -> io::Result<bool> {
    let record = made::record(made::clean(7));
    let state = Yard::default().lend(&record[..len], Side::End)?;
    let (mut kind, mut b, mut t, mut e) = (9, 0, 0, 0);
    // SAFETY: the lie is the plant; see `read_at`.
    let answer = unsafe {
        face::minnow_read_state(state.pointer(), STATE, &mut kind, &mut b, &mut t, &mut e)
    };
    Ok((answer, kind, b, t, e) == (0, 0, 7, 7, 7))
}

/// Has the library write a state of 28 bytes where only `len` are lent.
fn lie_writing(len: usize) -> io::Result<bool> {
    let out = lent(len, Side::End)?;
    let mut length = 0;
    // SAFETY: the lie is the plant; see `read_at`.
    let answer = unsafe { face::minnow_write_state(0, 7, 7, 7, out.pointer(), STATE, &mut length) };
    Ok(answer == 0 && length == STATE)
}

fn one_block() -> Vec<u8> {
    let ends = Ends {
        kind: LOG,
        p: 5,
        q: 9,
    };
    made::diff(&mut Random::new(0), ends, &[0])
}

/// Has the library check a diff of one record where only the head is lent.
fn lie_checking() -> io::Result<bool> {
    let diff = one_block();
    let head = Yard::default().lend(&diff[..diff.len() - RECORD], Side::End)?;
    let (mut kind, mut p, mut q, mut n) = (0, 0, 0, 0);
    // SAFETY: the lie is the plant; see `read_at`.
    let answer = unsafe {
        face::minnow_check(
            head.pointer(),
            diff.len(),
            &mut kind,
            &mut p,
            &mut q,
            &mut n,
        )
    };
    Ok(answer == 0)
}

/// Has the library run a diff into an image that it may write, or not.
fn run_into(locked: bool) -> io::Result<bool> {
    let diff = one_block();
    let image = lent(512, Side::End)?;
    if locked {
        image.lock()?;
    }
    let mut next = 0;
    // SAFETY: the diff and the number are lent as they are; a fault on the locked image is the plant, see `read_at`.
    let answer = unsafe {
        face::minnow_run(
            diff.as_ptr(),
            diff.len(),
            image.pointer(),
            image.len(),
            0,
            1,
            &mut next,
        )
    };
    Ok(answer == 0 && next == 1 && image.bytes() == diff[diff.len() - 512..])
}

fn never_end() -> io::Result<bool> {
    system::end_after(1);
    loop {
        std::thread::sleep(std::time::Duration::from_secs(1));
    }
}
