//! A tool of the driver's own that does an apply, in the right order or bent: it shows that the judge finds out a wrong one,
//! and finds nothing in a right one.

use crate::history::BLOCK;
use crate::rules::{Head, State, STATE_SIZE};
use crate::stage::{DRAFT, STATE, VOLUME};
use crate::trouble::not_played;
use std::fs::{self, File, OpenOptions};
use std::io::{self, Write};
use std::os::unix::fs::FileExt;

const HEAD: usize = 24;
const RECORD: usize = 518;

#[derive(Clone, Copy, PartialEq, Eq, Debug)]
pub enum Bend {
    None,
    DoneFirst,
    WhileLate,
    NoWhile,
    ExtraBlock,
    TornState,
    CalledClean,
    TrustsBlocks,
}

/// Each bend, its name, and what it does.
pub const BENDS: [(Bend, &str, &str); 8] = [
    (
        Bend::None,
        "none",
        "nothing is bent: While, the blocks, a flush, Done",
    ),
    (
        Bend::DoneFirst,
        "done-first",
        "Done is saved before the blocks move",
    ),
    (
        Bend::WhileLate,
        "while-late",
        "the blocks move before While is saved",
    ),
    (Bend::NoWhile, "no-while", "While is never saved"),
    (
        Bend::ExtraBlock,
        "extra-block",
        "a block moves that the diff does not name",
    ),
    (
        Bend::TornState,
        "torn-state",
        "a record is written in place, in two parts",
    ),
    (
        Bend::CalledClean,
        "called-clean",
        "a dirty volume is called clean after any apply",
    ),
    (
        Bend::TrustsBlocks,
        "trusts-blocks",
        "a block that begins as it should is taken for moved",
    ),
];

pub fn named(name: &str) -> Option<Bend> {
    let found = BENDS.iter().find(|(_, known, _)| *known == name);
    found.map(|(bend, _, _)| *bend)
}

pub fn name(bend: Bend) -> &'static str {
    let found = BENDS.iter().find(|(known, _, _)| *known == bend);
    found.map_or("", |(_, name, _)| name)
}

/// Applies a diff, in the current folder.
pub fn apply(bend: Bend, diff: &str) -> io::Result<()> {
    let diff = fs::read(diff)?;
    let volume = OpenOptions::new().read(true).write(true).open(VOLUME)?;
    let head = head_of(&diff).ok_or_else(|| not_played("no diff"))?;
    let state = State::read(&fs::read(STATE)?).ok_or_else(|| not_played("no state"))?;
    let (during, mut done) = (state.during(&head), state.done(&head));
    if bend == Bend::CalledClean {
        done = State::settled(head.q, head.q);
    }
    match bend {
        Bend::DoneFirst => {
            save(bend, &done)?;
            move_blocks(bend, &volume, &diff)
        }
        Bend::WhileLate => {
            move_blocks(bend, &volume, &diff)?;
            save(bend, &during)?;
            save(bend, &done)
        }
        Bend::NoWhile => {
            move_blocks(bend, &volume, &diff)?;
            save(bend, &done)
        }
        _ => {
            save(bend, &during)?;
            move_blocks(bend, &volume, &diff)?;
            save(bend, &done)
        }
    }
}

fn head_of(diff: &[u8]) -> Option<Head> {
    let gid = |at: usize| {
        let eight = diff.get(at..at + 8)?.try_into().ok()?;
        Some(u64::from_le_bytes(eight))
    };
    Some(Head {
        compared: *diff.get(2)? == 1,
        p: gid(4)?,
        q: gid(12)?,
    })
}

fn move_blocks(bend: Bend, volume: &File, diff: &[u8]) -> io::Result<()> {
    let mut next = 0;
    for record in diff[HEAD..].chunks_exact(RECORD) {
        let address = u32::from_le_bytes([record[2], record[3], record[4], record[5]]);
        let (address, content) = (u64::from(address), &record[6..]);
        if bend == Bend::ExtraBlock && address > next {
            volume.write_all_at(content, next * BLOCK as u64)?;
        }
        if bend != Bend::TrustsBlocks || !begins_so(volume, address, content)? {
            volume.write_all_at(content, address * BLOCK as u64)?;
        }
        next = address + 1;
    }
    volume.sync_all()
}

fn begins_so(volume: &File, address: u64, content: &[u8]) -> io::Result<bool> {
    let mut found = [0; 8];
    volume.read_exact_at(&mut found, address * BLOCK as u64)?;
    Ok(content.starts_with(&found))
}

fn save(bend: Bend, state: &State) -> io::Result<()> {
    let record = state.record();
    if bend == Bend::TornState {
        let file = OpenOptions::new().write(true).open(STATE)?;
        file.write_all_at(&record[..STATE_SIZE / 2], 0)?;
        file.sync_all()?;
        file.write_all_at(&record[STATE_SIZE / 2..], (STATE_SIZE / 2) as u64)?;
        return file.sync_all();
    }
    let mut draft = File::create(DRAFT)?;
    draft.write_all(&record)?;
    draft.sync_all()?;
    fs::rename(DRAFT, STATE)?;
    File::open(".")?.sync_all()
}
