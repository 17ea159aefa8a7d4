//! `minnow decide` and `minnow apply`: one diff onto one volume.

use crate::args::{self, Args, Command};
use crate::explain;
use crate::failure::Failure;
use crate::files::{self, apart, Content};
use crate::json::Json;
use crate::moving::{self, read_back};
use crate::report::{Answer, Report};
use crate::volume::{StateFile, Volume};
use crate::words;
use std::path::Path;

pub const DECIDE: Command = Command {
    name: "decide",
    summary: "says whether a diff can be applied, and what would come of it",
    help: "usage: minnow decide VOLUME DIFF [--state FILE]\n\n\
        Makes every check of an apply and writes nothing. The answer has both further states: While and\n\
        Done. The state is VOLUME.state unless --state names another file. Nothing is locked.",
    options: &[args::STATE],
    run: decide,
};

pub const APPLY: Command = Command {
    name: "apply",
    summary: "applies a diff to a volume",
    help: "usage: minnow apply VOLUME DIFF [--state FILE]\n\n\
        Saves While, moves the blocks in place, flushes the volume, saves Done, in this order. If it is cut\n\
        at any point, the same command, or one with a merge that contains the diff, goes on from there.\n\
        The state is VOLUME.state unless --state names another file. The volume and the state are locked\n\
        meanwhile: a second minnow on either ends with 75.",
    options: &[args::STATE],
    run: apply,
};

fn decide(args: &Args, report: &mut Report) -> Result<(), Failure> {
    let [volume, diff] = args.exactly(["VOLUME", "DIFF"])?;
    let volume = Volume::to_measure(Path::new(volume))?;
    let state = StateFile::of(volume.path(), args.path("--state"))?;
    apart(volume.is(), state.is())?;
    let diff = diff_beside(&volume, &state, Path::new(diff))?;
    let decided = minnow::decide(&diff.bytes, state.record(), volume.image());
    let further = decided.map_err(|refusal| explain::apply(refusal, &diff, &state, &volume))?;
    let (during, done) = (read_back(&further.during)?, read_back(&further.done)?);
    report.answer(Answer {
        text: format!("{}: accepted: while {during}; done {done}", diff.name),
        fields: vec![
            ("volume", Json::from(volume.name())),
            ("diff", Json::from(diff.name.as_str())),
            ("while", words::state_json(during)),
            ("done", words::state_json(done)),
        ],
    });
    Ok(())
}

fn apply(args: &Args, report: &mut Report) -> Result<(), Failure> {
    let [volume, diff] = args.exactly(["VOLUME", "DIFF"])?;
    let mut volume = Volume::to_change(Path::new(volume))?;
    let mut state = StateFile::to_change(&volume, args.path("--state"))?;
    let diff = diff_beside(&volume, &state, Path::new(diff))?;
    report.on_bus_error(&volume.bus_error());
    let progress = report.progress();
    let moved = moving::apply(&mut volume, &mut state, &diff, &progress)?;
    drop(progress);
    let (name, done, n) = (volume.name(), moved.state, u64::from(moved.head.n));
    let blocks = words::count(n, "block");
    report.answer(Answer {
        text: format!("{name}: {done}, {blocks} written"),
        fields: vec![
            ("volume", Json::from(name)),
            ("diff", Json::from(diff.name.as_str())),
            ("blocks", Json::from(n)),
            ("state", words::state_json(done)),
        ],
    });
    Ok(())
}

/// Reads a diff that is neither the volume nor the state. Neither it nor the volume stands where the state is written first.
fn diff_beside(volume: &Volume, state: &StateFile, diff: &Path) -> Result<Content, Failure> {
    let diff = files::read_diff(diff)?;
    apart(volume.is(), diff.is())?;
    apart(state.is(), diff.is())?;
    state.draft_apart(&[volume.is(), diff.is()])?;
    Ok(diff)
}
