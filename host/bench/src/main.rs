//! Times the proved library against plain Rust that makes the same checks, both in one run, and prints a table in Markdown.

mod agree;
mod baseline;
mod cases;
mod files;
mod machine;
mod made;
mod timing;

use cases::Row;
use minnow::PLACES;
use std::env;
use std::path::PathBuf;
use std::process::ExitCode;
use std::time::Duration;
use timing::{Effort, Times};

const HELP: &str = "\
bench: times check, apply, merge, compare and plan of the proved library against plain Rust.

  bench                 some 20 seconds
  bench --quick         a few seconds, fewer repeats
  bench --files FOLDER  times nothing; writes the files that host/bench/rbd merges
  bench --help          says this

It ends with 0, with 1 if the two sides gave different answers, and with 2 if it could not run.
";

const FULL: Effort = Effort {
    budget: Duration::from_millis(1500),
    least: 25,
    most: 5_000,
};
const QUICK: Effort = Effort {
    budget: Duration::from_millis(150),
    least: 5,
    most: 500,
};
/// Rounds of small random inputs before anything is timed.
const ROUNDS: u64 = 20_000;

fn main() -> ExitCode {
    let words: Vec<String> = env::args().skip(1).collect();
    let words: Vec<&str> = words.iter().map(String::as_str).collect();
    match words[..] {
        [] => ended(bench(FULL, "cargo run --release -p bench")),
        ["--quick"] => ended(bench(QUICK, "cargo run --release -p bench -- --quick")),
        ["--files", folder] => write_files(PathBuf::from(folder)),
        ["--help"] => {
            print!("{HELP}");
            ExitCode::SUCCESS
        }
        _ => {
            eprint!("{HELP}");
            ExitCode::from(2)
        }
    }
}

fn ended(result: Result<(), String>) -> ExitCode {
    match result {
        Ok(()) => ExitCode::SUCCESS,
        Err(error) => {
            eprintln!("bench: {error}");
            ExitCode::from(1)
        }
    }
}

fn write_files(folder: PathBuf) -> ExitCode {
    match files::write(&folder) {
        Ok(()) => ExitCode::SUCCESS,
        Err(error) => {
            eprintln!("bench: {}: {error}", folder.display());
            ExitCode::from(2)
        }
    }
}

fn bench(effort: Effort, command: &str) -> Result<(), String> {
    println!("{}\n", machine::line());
    println!("`{command}`\n");
    let tally = agree::on_small_inputs(ROUNDS)?;
    println!(
        "The same on both sides: {} answers to small random inputs, {} of them refusals; and every case below.\n",
        tally.answers, tally.refusals
    );
    println!("| call | blocks | input | repeats | library, best | plain Rust, best | ratio | library, median | plain Rust, median | ratio | aim |");
    println!("|---|---|---|---|---|---|---|---|---|---|---|");
    blocks(effort)?;
    plans(effort)
}

fn blocks(effort: Effort) -> Result<(), String> {
    for size in [1_000, 60_000] {
        print_row(cases::check(size, effort)?);
        print_row(cases::apply(size, effort)?);
    }
    for size in [1_000, 30_000] {
        let few = made::few_common(size);
        print_row(cases::merge(size, "few common", few, effort)?);
    }
    let fewest = made::fewest_common(60_000);
    let input = "as few common as 65,536 addresses allow";
    print_row(cases::merge(60_000, input, fewest, effort)?);
    for size in [1_000, 60_000] {
        let nearly = made::nearly_all_common(size);
        print_row(cases::merge(size, "nearly all common", nearly, effort)?);
    }
    for size in [1_000, 60_000] {
        let one = |a: usize| a % 100 == 0;
        print_row(cases::compare(size, "1 block in 100 differs", one, effort)?);
        print_row(cases::compare(size, "all differ", |_| true, effort)?);
    }
    Ok(())
}

fn plans(effort: Effort) -> Result<(), String> {
    let last = PLACES as u64;
    let up = || (0..last).map(|g| (g, g + 1));
    let down = || up().rev();
    let without_first = || down().map(|(p, q)| (p + 1, q + 1));
    let all = Some(PLACES);
    print_row(cases::plan(
        "chain in shelf order",
        up(),
        last,
        all,
        effort,
    )?);
    let input = "chain against shelf order (most sweeps)";
    print_row(cases::plan(input, down(), last, all, effort)?);
    let input = "no chain: no diff ends at the target";
    print_row(cases::plan(input, up(), last + 1, None, effort)?);
    let input = "no chain: against shelf order, the first diff missing";
    print_row(cases::plan(input, without_first(), last + 1, None, effort)?);
    Ok(())
}

fn print_row(row: Row) {
    let (library, plain) = (&row.measured.library, &row.measured.plain);
    let ratio = |of: fn(&Times) -> f64| of(library) / of(plain);
    println!(
        "| {} | {} | {} | {} | {} | {} | {:.2} | {} | {} | {:.2} | {} |",
        row.call,
        size(&row),
        row.input,
        row.measured.repeats,
        time(library.best),
        time(plain.best),
        ratio(|times| times.best),
        time(library.median),
        time(plain.median),
        ratio(|times| times.median),
        row.aim.map_or(String::new(), |aim| aim.to_string()),
    );
}

fn size(row: &Row) -> String {
    match row.size {
        PLACES => format!("{PLACES} entries"),
        blocks => format!("{},{:03}", blocks / 1_000, blocks % 1_000),
    }
}

/// Seconds with three digits, in ms or µs.
fn time(seconds: f64) -> String {
    let (value, unit) = match seconds {
        s if s >= 1e-3 => (s * 1e3, "ms"),
        s => (s * 1e6, "µs"),
    };
    let digits = match value {
        v if v >= 100.0 => 0,
        v if v >= 10.0 => 1,
        v if v >= 1.0 => 2,
        _ => 3,
    };
    format!("{value:.digits$} {unit}")
}
