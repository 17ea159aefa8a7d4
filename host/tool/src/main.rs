//! `minnow`: what a site runs at night. It reads the files, asks the library, saves what is to be saved in the order that
//! keeps a cut harmless, and answers with the paper's number as its status.

mod args;
mod commands;
mod explain;
mod failure;
mod files;
mod json;
mod moving;
mod picture;
mod progress;
mod report;
mod save;
mod sys;
mod tour;
mod volume;
mod words;

use args::{Args, Command};
use commands::{applying, check, lag, making, plan, show, state};
use failure::{Failure, INTERNAL};
use report::{Answer, Mode, Report};
use std::ffi::OsString;
use std::panic::catch_unwind;
use std::process::ExitCode;

const COMMANDS: &[&Command] = &[
    &check::CHECK,
    &state::STATE,
    &applying::DECIDE,
    &applying::APPLY,
    &making::MERGE,
    &making::COMPARE,
    &show::SHOW,
    &plan::PLAN,
    &plan::RESTORE,
    &lag::LAG,
    &tour::TOUR,
];

fn main() -> ExitCode {
    sys::ignore_size_signal();
    let line: Vec<OsString> = std::env::args_os().skip(1).collect();
    // A panic would be a fault of ours; its message is out by then.
    let status = catch_unwind(|| run(&line)).unwrap_or(INTERNAL);
    ExitCode::from(status)
}

fn run(line: &[OsString]) -> u8 {
    let wanted = if args::wants_json(line) {
        Mode::Json
    } else {
        Mode::Text
    };
    let mut report = Report::new(wanted, "minnow");
    if let Err(failure) = dispatch(line, &mut report) {
        report.failure(&failure);
    }
    report.status()
}

/// Finds the command, which may stand behind common options, and has it done.
fn dispatch(line: &[OsString], report: &mut Report) -> Result<(), Failure> {
    let named = line.iter().position(|word| !is_option(word));
    let at = match named {
        Some(at) => at,
        None => return about(&Args::parse(line, &[])?, report),
    };
    let command = COMMANDS.iter().find(|command| line[at] == command.name);
    let command = command.ok_or_else(|| {
        let word = args::quoted(&line[at]);
        Failure::usage(format!("{word} is no command; see minnow --help"))
    })?;
    let mut rest = line.to_vec();
    rest.remove(at);
    perform(command, &rest, report)
}

fn is_option(word: &OsString) -> bool {
    word.to_string_lossy().starts_with('-')
}

/// No command: only help and version are left.
fn about(args: &Args, report: &mut Report) -> Result<(), Failure> {
    if args.flag("--version") {
        return say(report, version());
    }
    if args.flag("--help") {
        return say(report, args::help(COMMANDS));
    }
    Err(Failure::usage("no command; see minnow --help"))
}

fn version() -> String {
    format!("minnow {}", env!("CARGO_PKG_VERSION"))
}

fn say(report: &mut Report, text: String) -> Result<(), Failure> {
    let fields = vec![("text", json::Json::from(text.as_str()))];
    report.answer(Answer { text, fields });
    Ok(())
}

fn perform(command: &Command, line: &[OsString], report: &mut Report) -> Result<(), Failure> {
    report.is_about(command.name);
    let hint = |mut failure: Failure| {
        if failure.status == failure::USAGE && failure.file.is_none() {
            failure.message += &format!("; see minnow {} --help", command.name);
        }
        failure
    };
    let args = Args::parse(line, command.options).map_err(hint)?;
    if args.flag("--help") {
        return say(report, args::help_of(command));
    }
    if args.flag("--version") {
        return say(report, version());
    }
    report.speak(args::mode(&args).map_err(hint)?);
    (command.run)(&args, report).map_err(hint)
}
