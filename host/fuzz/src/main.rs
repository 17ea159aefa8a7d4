//! Hostile input at the door: plays random, spoiled and sound inputs through the C interface of the proved library, with
//! every lent buffer between pages that fault.

#![warn(unsafe_op_in_unsafe_fn)]

mod board;
mod cases;
mod desk;
mod doctored;
mod guarded;
mod judge;
mod made;
mod options;
mod play;
mod random;
mod self_test;
mod spoil;
mod system;

use std::io;
use std::process::ExitCode;
use std::time::Instant;

use board::Board;
use options::{Options, Wish};
use system::Ended;

fn main() -> ExitCode {
    let wish = match options::read(std::env::args().skip(1)) {
        Ok(wish) => wish,
        Err(wrong) => {
            eprintln!("fuzz: {wrong} (fuzz --help says more)");
            return ExitCode::from(2);
        }
    };
    let done = match wish {
        Wish::Help => {
            print!("{}", options::HELP);
            Ok(true)
        }
        Wish::SelfTest => self_test::run(),
        Wish::Play(options) => play_and_report(&options),
    };
    match done {
        Ok(true) => ExitCode::SUCCESS,
        Ok(false) => ExitCode::FAILURE,
        Err(error) => {
            eprintln!("fuzz: {error}");
            ExitCode::from(2)
        }
    }
}

/// Plays in a child, so that a fault is reported with its seed; says whether all went well.
fn play_and_report(options: &Options) -> io::Result<bool> {
    let board = Board::shared()?;
    let start = Instant::now();
    let ended = system::in_child(|| match play::play(board, options.from, options.rounds) {
        Ok(()) => 0,
        Err(wrong) => {
            println!("wrong: {wrong}");
            1
        }
    })?;
    let seconds = start.elapsed().as_secs_f64();
    board.print();
    println!(
        "{} rounds of two calls, seeds from {}, {seconds:.1} s",
        board.rounds(),
        options.from
    );
    if ended == Ended::Exit(0) && board.rounds() == options.rounds {
        print_unreached(board);
        println!("digest of all outcomes {:016x}", board.digest());
        println!("no fault");
        return Ok(true);
    }
    print_fault(board, ended);
    Ok(false)
}

fn print_unreached(board: &Board) {
    let unreached = board.unreached();
    if unreached.is_empty() {
        println!("every answer that the header lists was given");
    } else {
        println!(
            "listed answers that were not given: {}",
            unreached.join(", ")
        );
    }
}

fn print_fault(board: &Board, ended: Ended) {
    let (seed, call) = board.place();
    let how = match ended {
        Ended::Exit(1) => "see above".to_string(),
        Ended::Exit(code) => format!("the child ended with {code}"),
        Ended::Signal(signal) => format!("signal {signal} ({})", system::signal_name(signal)),
    };
    println!("FAULT at seed {seed}, call {}: {how}", call.name());
    println!("again: fuzz --from {seed} --rounds 1");
}
