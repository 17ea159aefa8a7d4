//! `minnow state show` and `minnow state new`: state records in files.

use crate::args::{number, quoted, Args, Command, Opt, FORCE};
use crate::explain;
use crate::failure::{shown, Failure};
use crate::files::{self, Access, Argument, Opened};
use crate::json::Json;
use crate::report::{Answer, Report};
use crate::save::Output;
use crate::sys::Lock;
use crate::volume::{lock_or_fail, volume_of};
use crate::words;
use minnow::State;
use std::ffi::{OsStr, OsString};
use std::path::Path;

pub const STATE: Command = Command {
    name: "state",
    summary: "shows or makes a state record",
    help: "usage: minnow state show STATE\n\
        \x20      minnow state new STATE --clean G | --settled B E | --pair B T | --span B T E [--force]\n\n\
        show says what the record holds. new writes a record for a volume of which somebody knows that\n\
        it is true; a STATE that exists is replaced only with --force, and not while an apply has it (75).\n\
        Where STATE is VOLUME.state and there is such a volume, no apply may be under way on that either.",
    options: &[
        Opt::value("--clean"),
        Opt { name: "--settled", values: 2 },
        Opt { name: "--pair", values: 2 },
        Opt { name: "--span", values: 3 },
        FORCE,
    ],
    run: state,
};

fn state(args: &Args, report: &mut Report) -> Result<(), Failure> {
    let [what, path] = args.exactly(["show or new", "STATE"])?;
    let asked = asked_for(args)?;
    let answer = match (what.to_str(), asked) {
        (Some("show"), None) if !args.flag("--force") => show(Path::new(path))?,
        (Some("show"), _) => return Err(Failure::usage("state show takes no values")),
        (Some("new"), Some(state)) => new(Path::new(path), state, args.flag("--force"))?,
        (Some("new"), None) => {
            let forms = "--clean, --settled, --pair or --span is missing";
            return Err(Failure::usage(forms));
        }
        _ => return Err(not_known(what)),
    };
    report.answer(answer);
    Ok(())
}

fn not_known(what: &OsStr) -> Failure {
    let what = quoted(what);
    Failure::usage(format!("state {what}: only show and new are known"))
}

/// The state that the options spell, if any.
fn asked_for(args: &Args) -> Result<Option<State>, Failure> {
    let mut found = None;
    for name in ["--clean", "--settled", "--pair", "--span"] {
        let values = match args.values(name) {
            Some(values) => values,
            None => continue,
        };
        if found.is_some() {
            return Err(Failure::usage(format!("{name} is one state too many")));
        }
        found = Some(spelt(name, values)?);
    }
    Ok(found)
}

fn spelt(name: &str, values: &[OsString]) -> Result<State, Failure> {
    let gids: Result<Vec<u64>, Failure> = values.iter().map(|value| number(value, name)).collect();
    match (name, gids?.as_slice()) {
        ("--clean", [g]) => Ok(State::clean(*g)),
        ("--settled", [b, e]) => Ok(State::settled(*b, *e)),
        ("--pair", [b, t]) => Ok(State::pair(*b, *t)),
        ("--span", [b, t, e]) => Ok(State::span(*b, *t, *e)),
        _ => Err(Failure::usage(format!("{name} has too few values"))),
    }
}

fn show(path: &Path) -> Result<Answer, Failure> {
    let record = files::read_state(files::open(path, Access::Read)?)?;
    let state =
        minnow::read_state(&record.bytes).map_err(|refusal| explain::state(refusal, &record))?;
    Ok(answer(&record.name, state))
}

fn new(path: &Path, state: State, force: bool) -> Result<Answer, Failure> {
    let name = shown(path);
    let record = minnow::write_state(state)
        .map_err(|refusal| explain::state_values(refusal, &name, state))?;
    let volume = hold_volume(path)?;
    let others: Vec<Argument> = volume
        .iter()
        .map(|volume| ("volume", &*volume.name, volume.identity))
        .collect();
    Output::new(path, force, &others)?.save(&record)?;
    Ok(answer(&name, state))
}

/// Keeps an apply off the volume that this file would be the state of, if there is one.
fn hold_volume(state: &Path) -> Result<Option<Opened>, Failure> {
    let volume = volume_of(state).filter(|path| path.is_file());
    let volume = match volume {
        Some(volume) => volume,
        None => return Ok(None),
    };
    let opened = files::open(&volume, Access::Read)?;
    lock_or_fail(&opened, Lock::Exclusive)?;
    Ok(Some(opened))
}

fn answer(name: &str, state: State) -> Answer {
    Answer {
        text: format!("{name}: {state}"),
        fields: vec![
            ("file", Json::from(name)),
            ("state", words::state_json(state)),
        ],
    }
}
