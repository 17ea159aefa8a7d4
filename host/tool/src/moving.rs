//! The order of an apply, written once: decide; While durable; the blocks; the volume durable; Done durable. No byte of the
//! volume moves before While is saved, and Done is not saved before every byte is.

use crate::explain;
use crate::failure::Failure;
use crate::files::Content;
use crate::progress::Progress;
use crate::volume::{StateFile, Volume};
use minnow::{Head, Refusal, State};

/// Records of a run: enough that checking the diff anew for each does not matter, few enough that progress shows.
const RUN: usize = 1024;

pub struct Moved {
    pub head: Head,
    pub state: State,
}

/// Applies a diff. A cut anywhere leaves a state that the next apply of the same diff, or of a merge that contains it, takes.
pub fn apply(
    volume: &mut Volume,
    state: &mut StateFile,
    diff: &Content,
    progress: &Progress,
) -> Result<Moved, Failure> {
    let decided = minnow::decide(&diff.bytes, state.record(), volume.image());
    let further = decided.map_err(|refusal| explain::apply(refusal, diff, state, volume))?;
    let head = minnow::check(&diff.bytes).map_err(|refusal| explain::diff(refusal, diff))?;
    let done = read_back(&further.done)?;

    progress.at(|| format!("{}: setting room aside", volume.name()));
    volume.reserve(diff)?;
    state.save(&further.during)?;
    move_blocks(volume, diff, &head, progress)?;
    progress.at(|| format!("{}: flushing", volume.name()));
    volume.flush()?;
    volume.is_as_long_as_it_was()?;
    state.save(&further.done)?;
    Ok(Moved { head, state: done })
}

fn move_blocks(
    volume: &mut Volume,
    diff: &Content,
    head: &Head,
    progress: &Progress,
) -> Result<(), Failure> {
    let n = head.n as usize;
    let mut next = 0;
    while next < n {
        progress.at(|| format!("{}: {next} of {n} blocks moved", volume.name()));
        next = minnow::run(&diff.bytes, volume.image_mut(), next, RUN)
            .map_err(|refusal| explain::run(refusal, diff, volume, next))?;
    }
    Ok(())
}

/// A record that the library wrote, as a value.
pub fn read_back(record: &[u8]) -> Result<State, Failure> {
    minnow::read_state(record)
        .map_err(|refusal| Failure::internal(format!("a decided state is refused: {refusal}")))
}

/// Whether the volume is an image at all, as far as diffs that were to fit it say.
pub fn is_image(fits: &[Result<(), Failure>]) -> Result<(), Failure> {
    let said = |fit: &&Result<(), Failure>| match fit {
        Err(failure) => failure.refusal == Some(Refusal::BadImage),
        Ok(()) => false,
    };
    fits.iter().find(said).cloned().unwrap_or(Ok(()))
}

/// Whether a diff would fit the volume: a run of no records makes every check of a run and writes nothing.
pub fn fits(volume: &mut Volume, diff: &Content) -> Result<(), Failure> {
    minnow::run(&diff.bytes, volume.image_mut(), 0, 0)
        .map(|_| ())
        .map_err(|refusal| explain::run(refusal, diff, volume, 0))
}
