//! `minnow merge` and `minnow compare`: new diffs out of two diffs or two images.

use crate::args::{self, number, Args, Command, Opt};
use crate::explain;
use crate::failure::{shown, Failure};
use crate::files::{self, Access, Content, DIFF_LIMIT};
use crate::json::Json;
use crate::report::{Answer, Report};
use crate::save::Output;
use crate::sys::{self, Lock};
use crate::volume::lock_or_fail;
use crate::words;
use minnow::HEAD;
use std::path::Path;

pub const MERGE: Command = Command {
    name: "merge",
    summary: "merges two log diffs that touch",
    help: "usage: minnow merge FIRST SECOND -o OUT [--force]\n\n\
        OUT gets every block of either diff, the second's where both name it. It appears whole or not at all;\n\
        an OUT that exists is replaced only with --force, and never where it is one of the inputs.",
    options: &[args::OUT, args::FORCE],
    run: merge,
};

pub const COMPARE: Command = Command {
    name: "compare",
    summary: "makes the compared diff of two images",
    help: "usage: minnow compare OLD NEW --from P --to Q -o OUT [--force]\n\n\
        OUT gets the blocks where the image OLD, of gid P, and the image NEW, of gid Q, differ. It appears\n\
        whole or not at all; an OUT that exists is replaced only with --force, and never where it is one of\n\
        the inputs. Neither image may have an apply under way (75).",
    options: &[
        Opt::value("--from"),
        Opt::value("--to"),
        args::OUT,
        args::FORCE,
    ],
    run: compare,
};

fn merge(args: &Args, report: &mut Report) -> Result<(), Failure> {
    let [first, second] = args.exactly(["FIRST", "SECOND"])?;
    let out = Path::new(args.needed("-o")?);
    let progress = report.progress();
    progress.at(|| format!("merging into {}", shown(out)));
    let first = files::read_diff(Path::new(first))?;
    let second = files::read_diff(Path::new(second))?;
    let output = Output::new(out, args.flag("--force"), &[first.is(), second.is()])?;
    let mut merged = room(out, room_for_merge(&first, &second))?;
    let length = minnow::merge(&first.bytes, &second.bytes, &mut merged)
        .map_err(|refusal| explain::merge(refusal, &first, &second, merged.len()))?;
    let answer = made(out, &output, &merged[..length])?;
    progress.step_aside();
    report.answer(answer);
    Ok(())
}

/// Room for an output: zeros; pages that no result reaches are never touched.
fn room(out: &Path, bytes: usize) -> Result<Vec<u8>, Failure> {
    let zeros = sys::zeros(bytes).map_err(|_| Failure::memory(out, bytes))?;
    Ok(sys::in_large_pages(zeros))
}

/// Bytes that always suffice for the merge of two sound diffs.
fn room_for_merge(first: &Content, second: &Content) -> usize {
    let both = first.bytes.len() + second.bytes.len();
    both.saturating_sub(HEAD).min(DIFF_LIMIT)
}

fn compare(args: &Args, report: &mut Report) -> Result<(), Failure> {
    let [old, new] = args.exactly(["OLD", "NEW"])?;
    let p = number(args.needed("--from")?, "--from")?;
    let q = number(args.needed("--to")?, "--to")?;
    let out = Path::new(args.needed("-o")?);
    let progress = report.progress();
    progress.at(|| format!("comparing into {}", shown(out)));
    let (old, new) = (image(Path::new(old))?, image(Path::new(new))?);
    let output = Output::new(out, args.flag("--force"), &[old.is(), new.is()])?;
    let mut diff = room(out, minnow::compared_room(old.bytes.len()))?;
    let length = minnow::compare(&old.bytes, &new.bytes, p, q, &mut diff)
        .map_err(|refusal| explain::compare(refusal, (&old, &new), (p, q), diff.len()))?;
    let answer = made(out, &output, &diff[..length])?;
    progress.step_aside();
    report.answer(answer);
    Ok(())
}

/// Reads an image while no apply moves its blocks.
fn image(path: &Path) -> Result<Content, Failure> {
    let opened = files::open(path, Access::Read)?;
    lock_or_fail(&opened, Lock::Shared)?;
    files::read_image(opened)
}

/// Saves a new diff and says what it is.
fn made(out: &Path, output: &Output, diff: &[u8]) -> Result<Answer, Failure> {
    let head = minnow::check(diff)
        .map_err(|refusal| Failure::internal(format!("a new diff is refused: {refusal}")))?;
    output.save(diff)?;
    let (name, length) = (shown(out), diff.len());
    let mut fields = vec![("file", Json::from(name.as_str()))];
    fields.extend(words::head_fields(&head));
    fields.push(("bytes", Json::from(length as u64)));
    Ok(Answer {
        text: format!("{name}: {}, {length} bytes", words::head(&head)),
        fields,
    })
}
