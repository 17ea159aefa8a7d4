//! `minnow show`: a block of a volume as it would stand after an apply.

use crate::args::{number, Args, Command, Opt};
use crate::explain;
use crate::failure::Failure;
use crate::files::{self, apart};
use crate::json::Json;
use crate::report::{Answer, Report};
use crate::volume::Volume;
use minnow::{Slice, View};
use std::fmt::Write;
use std::path::Path;

pub const SHOW: Command = Command {
    name: "show",
    summary: "shows a block as it would stand after an apply",
    help: "usage: minnow show VOLUME DIFF BLOCK [--raw]\n\n\
        Reads block BLOCK (from 0) of the volume through the diff: the diff's where it names the block, else the\n\
        volume's. It takes no state and applies nothing. The answer is a hex dump, or with --raw the 512 bytes.\n\
        The volume may not have an apply under way (75).",
    options: &[Opt::flag("--raw")],
    run: show,
};

fn show(args: &Args, report: &mut Report) -> Result<(), Failure> {
    let [volume, diff, block] = args.exactly(["VOLUME", "DIFF", "BLOCK"])?;
    if args.flag("--raw") && args.flag("--json") {
        return Err(Failure::usage("--raw and --json exclude each other"));
    }
    let block = number(block, "BLOCK")?;
    let block = usize::try_from(block).unwrap_or(usize::MAX);
    let volume = Volume::to_look_at(Path::new(volume))?;
    let diff = files::read_diff(Path::new(diff))?;
    apart(volume.is(), diff.is())?;
    report.on_bus_error(&volume.read_error());
    let view = minnow::read_through(&diff.bytes, volume.image(), block)
        .map_err(|refusal| explain::read_through(refusal, &diff, &volume, block))?;
    if args.flag("--raw") {
        report.raw(view.bytes);
        return Ok(());
    }
    let (source, name) = match view.slice {
        Slice::Diff => ("diff", diff.name.as_str()),
        Slice::Image => ("volume", volume.name()),
    };
    report.answer(answer(block, source, name, &view));
    Ok(())
}

fn answer(block: usize, source: &'static str, name: &str, view: &View) -> Answer {
    let at = view.at;
    let head = format!("block {block}, from the {source} {name}, byte {at} on");
    Answer {
        text: format!("{head}{}", dump(view.bytes)),
        fields: vec![
            ("block", Json::from(block as u64)),
            ("source", Json::from(source)),
            ("file", Json::from(name)),
            ("at", Json::from(at as u64)),
            ("hex", Json::Text(hex(view.bytes))),
        ],
    }
}

fn hex(bytes: &[u8]) -> String {
    let mut text = String::with_capacity(2 * bytes.len());
    for byte in bytes {
        let _ = write!(text, "{byte:02x}");
    }
    text
}

/// Sixteen bytes to a line, each line with its offset, in numbers and as text.
fn dump(bytes: &[u8]) -> String {
    let mut text = String::new();
    for (i, line) in bytes.chunks(16).enumerate() {
        let _ = write!(text, "\n{:04x} ", 16 * i);
        for byte in line {
            let _ = write!(text, " {byte:02x}");
        }
        text.push_str("  ");
        text.extend(line.iter().map(|byte| match byte {
            b' '..=b'~' => char::from(*byte),
            _ => '.',
        }));
    }
    text
}
