//! The independent second program: a model of 01 plays random histories and damaged records against the archive of the
//! proved library, and every answer and every lent byte is compared.

mod bends;
mod call;
mod damage;
mod face;
mod full;
mod history;
mod model;
mod play;
mod rng;
mod table;

use std::env;
use std::process::ExitCode;
use std::time::Instant;

use bends::{Bend, ALL};
use table::{Disagreement, Table};

/// The fixed share: this many rounds from this seed on, then the full-size cases.
const BASE_SEED: u64 = 20_140_929;
const ROUNDS: u64 = 45_000;
/// The full-size cases have a seed outside the rounds' range.
const FULL_SEED: u64 = 1;

const USAGE: &str = "\
second                        plays the fixed share
second --seeds N [--from S]   plays N further seeds, from S on (else right after the fixed share)
second --seed S               replays one seed
second --bend NAME            plays the fixed share with one rule of the model bent
second --bends                plays it with each bend in turn; all must be caught
second --help                 shows this

Exit status: 0 if the two sides agreed throughout (for --bends: if every bend was caught), 1 if not, 2 for a command
line that it does not know.";

enum Command {
    Share,
    Seeds { from: u64, count: u64 },
    Bent(usize),
    AllBends,
    Help,
}

fn main() -> ExitCode {
    let words: Vec<String> = env::args().skip(1).collect();
    let words: Vec<&str> = words.iter().map(String::as_str).collect();
    let agreed = match parse(&words) {
        Some(Command::Share) => share(),
        Some(Command::Seeds { from, count }) => further(from, count),
        Some(Command::Bent(index)) => one_bend(index),
        Some(Command::AllBends) => all_bends(),
        Some(Command::Help) => {
            println!("{USAGE}\n\nBends:");
            ALL.iter().for_each(|(_, name, what)| println!("  {name:<22} {what}"));
            true
        }
        None => {
            eprintln!("{USAGE}");
            return ExitCode::from(2);
        }
    };
    ExitCode::from(u8::from(!agreed))
}

fn parse(words: &[&str]) -> Option<Command> {
    let seeds = |from: u64, count: u64| from.checked_add(count).map(|_| Command::Seeds { from, count });
    match words {
        [] => Some(Command::Share),
        ["--seeds", count] => seeds(BASE_SEED + ROUNDS, count.parse().ok()?),
        ["--seeds", count, "--from", from] => seeds(from.parse().ok()?, count.parse().ok()?),
        ["--seed", seed] => seeds(seed.parse().ok()?, 1),
        ["--bend", name] => ALL.iter().position(|(_, known, _)| known == name).map(Command::Bent),
        ["--bends"] => Some(Command::AllBends),
        ["--help"] => Some(Command::Help),
        _ => None,
    }
}

/// Where a disagreement was found.
struct Finding {
    round: String,
    call: u64,
    lines: String,
}

fn rounds(table: &mut Table, from: u64, count: u64) -> Result<(), Finding> {
    for seed in from..from + count {
        table.open(seed);
        let played = play::round(seed, table);
        played.map_err(|Disagreement(lines)| {
            let round = format!("seed {seed}, round {} of {count}", seed - from + 1);
            Finding { round, call: table.call, lines }
        })?;
    }
    Ok(())
}

fn fixed_share(table: &mut Table) -> Result<(), Finding> {
    rounds(table, BASE_SEED, ROUNDS)?;
    table.open(FULL_SEED);
    full::cases(FULL_SEED, table).map_err(|Disagreement(lines)| {
        let round = format!("full-size cases, seed {FULL_SEED}");
        Finding { round, call: table.call, lines }
    })
}

/// Prints the end of a play: the tally, or the disagreement.
fn close(table: &Table, started: Instant, played: Result<(), Finding>) -> bool {
    print!("{}", table.report());
    let seconds = started.elapsed().as_secs_f64();
    match played {
        Ok(()) => println!("agreed: {} calls in {seconds:.1} s", table.calls()),
        Err(Finding { round, call, ref lines }) => {
            println!("DISAGREEMENT after {seconds:.1} s: {round}, call {call}\n{lines}");
            return false;
        }
    }
    true
}

fn share() -> bool {
    println!(
        "fixed share: base seed {BASE_SEED}, {ROUNDS} rounds, then the full-size cases with seed {FULL_SEED}"
    );
    let (started, mut table) = (Instant::now(), Table::new());
    let played = fixed_share(&mut table);
    let agreed = close(&table, started, played);
    let unreached = table.unreached();
    if agreed && !unreached.is_empty() {
        println!("NOT REACHED: {}", unreached.join("; "));
        return false;
    }
    agreed
}

fn further(from: u64, count: u64) -> bool {
    println!("{count} rounds from seed {from}");
    let (started, mut table) = (Instant::now(), Table::new());
    let played = rounds(&mut table, from, count);
    close(&table, started, played)
}

fn one_bend(index: usize) -> bool {
    let (bend, name, what) = ALL[index];
    println!("bend {name}: {what}");
    bends::choose(bend);
    let agreed = share();
    if agreed {
        println!("NOT CAUGHT: {name}");
    }
    agreed
}

fn all_bends() -> bool {
    let (started, mut caught) = (Instant::now(), 0);
    for (bend, name, what) in ALL {
        bends::choose(*bend);
        let mut table = Table::new();
        match fixed_share(&mut table) {
            Ok(()) => println!("{name:<22} NOT CAUGHT: {what}"),
            Err(Finding { round, call, .. }) => {
                caught += 1;
                println!("{name:<22} caught at {round}, call {call}: {what}");
            }
        }
    }
    bends::choose(Bend::None);
    println!("{caught} of {} bends caught in {:.1} s", ALL.len(), started.elapsed().as_secs_f64());
    caught == ALL.len()
}
