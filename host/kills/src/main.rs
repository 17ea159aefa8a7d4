//! Kills for real: has `minnow apply` and `minnow restore` move volumes through random histories, kills them at random moments,
//! adds what a power cut may do, and holds volume and state to the history.

mod history;
mod judge;
mod options;
mod power;
mod random;
mod rules;
mod stage;
mod stand_in;
mod tally;
mod trouble;
mod voyage;
mod work;

use options::{Options, Wish};
use stage::{Stage, Tool};
use stand_in::Bend;
use std::io;
use std::process::ExitCode;
use std::time::Instant;
use tally::Tally;
use trouble::{not_played, Trouble};

fn main() -> ExitCode {
    let words: Vec<String> = std::env::args().skip(1).collect();
    let done = match options::read(&words) {
        Ok(Wish::Help) => {
            print!("{}", options::help());
            Ok(true)
        }
        Ok(Wish::StandIn(bend, diff)) => stand_in::apply(bend, &diff).map(|()| true),
        Ok(Wish::Play(options)) => play(&options),
        Err(wrong) => Err(not_played(&format!("{wrong} (kills --help says more)"))),
    };
    match done {
        Ok(true) => ExitCode::SUCCESS,
        Ok(false) => ExitCode::FAILURE,
        Err(error) => {
            eprintln!("kills: {error}");
            ExitCode::from(2)
        }
    }
}

/// Plays the rounds up to the first that goes wrong; says whether it came out as it should.
fn play(options: &Options) -> io::Result<bool> {
    let (tool, start) = (tool(options)?, Instant::now());
    let mut tally = Tally::default();
    let mut fault = None;
    for seed in options.from..options.from + options.rounds {
        fault = round(seed, options, &tool, &mut tally)?;
        if fault.is_some() {
            break;
        }
    }
    tally.print(options.from, start.elapsed());
    let must_fail = !matches!(options.bend, None | Some(Bend::None));
    let right = fault.is_some() == must_fail;
    match (fault, must_fail) {
        (None, false) => println!("no fault"),
        (None, true) => println!("NOT FOUND OUT: the bent tool passed"),
        (Some(fault), false) => println!("FAULT at {fault}"),
        (Some(fault), true) => println!("the bent tool was found out at {fault}"),
    }
    Ok(right)
}

/// Plays one round; a fault is told with its seed.
fn round(
    seed: u64,
    options: &Options,
    tool: &Tool,
    tally: &mut Tally,
) -> io::Result<Option<String>> {
    let stage = Stage::new(seed, tool)?;
    tally.rounds += 1;
    match voyage::play(seed, &stage, options.bend.is_some(), tally) {
        Ok(()) => stage.remove().map(|()| None),
        Err(Trouble::NotPlayed(error)) => stage.remove().and(Err(error)),
        Err(Trouble::Wrong(wrong)) => {
            let told = format!("seed {seed}: {wrong}");
            if options.bend.is_some() {
                return stage.remove().map(|()| Some(told));
            }
            let folder = stage.folder().display();
            let again = format!("kills --from {seed} --rounds 1");
            Ok(Some(format!(
                "{told}\nits files: {folder}\nagain, as far as time lets it: {again}"
            )))
        }
    }
}

/// The tool that is to be tested.
fn tool(options: &Options) -> io::Result<Tool> {
    let own = std::env::current_exe()?;
    if let Some(bend) = options.bend {
        let words = ["--stand-in", stand_in::name(bend)];
        return Ok(Tool {
            program: own,
            words: words.map(str::to_string).to_vec(),
        });
    }
    let program = match &options.tool {
        Some(tool) => tool.clone(),
        None => own.with_file_name("minnow"),
    };
    if !program.is_file() {
        let said = "is not there: cargo build --release -p minnow-tool makes it";
        return Err(not_played(&format!("{} {said}", program.display())));
    }
    let words = Vec::new();
    Ok(Tool { program, words })
}
