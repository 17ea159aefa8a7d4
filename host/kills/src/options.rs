//! The command line.

use crate::stand_in::{self, Bend, BENDS};
use std::path::PathBuf;

const HELP: &str = "\
kills: has minnow apply and restore, kills it at random moments, and holds what is left to the history.

  kills                 plays the fixed share of rounds
  kills --rounds N      plays N rounds
  kills --from SEED     starts at this seed; round i has the seed SEED + i
  kills --tool FILE     the tool; otherwise the `minnow` beside this program
  kills --bend NAME     plays a tool of its own that is bent, which must be found out:
";

const END: &str = "
It ends with 0 if all was right (or the bent tool was found out), with 1 if not, and with 2 if it could not play.
Files stand in the folder for temporary files (TMPDIR) and are removed, but for those of a round that went wrong.
";

/// The share that is played unless --rounds says otherwise: some 40 seconds.
const ROUNDS: u64 = 80;

pub struct Options {
    pub from: u64,
    pub rounds: u64,
    pub tool: Option<PathBuf>,
    pub bend: Option<Bend>,
}

pub enum Wish {
    Help,
    Play(Options),
    /// To be the bent tool: the diff to apply.
    StandIn(Bend, String),
}

pub fn help() -> String {
    let bends = BENDS
        .iter()
        .map(|(_, name, does)| format!("      {name:14}{does}\n"));
    format!("{HELP}{}{END}", bends.collect::<String>())
}

pub fn read(words: &[String]) -> Result<Wish, String> {
    if let [word, name, apply, _, diff] = words {
        if word == "--stand-in" && apply == "apply" {
            return Ok(Wish::StandIn(bend(Some(name))?, diff.clone()));
        }
    }
    let mut options = Options {
        from: 1,
        rounds: ROUNDS,
        tool: None,
        bend: None,
    };
    let mut words = words.iter();
    while let Some(word) = words.next() {
        match word.as_str() {
            "--help" => return Ok(Wish::Help),
            "--rounds" => options.rounds = number(word, words.next())?,
            "--from" => options.from = number(word, words.next())?,
            "--tool" => options.tool = Some(path(words.next())?),
            "--bend" => options.bend = Some(bend(words.next())?),
            _ => return Err(format!("there is no {word}")),
        }
    }
    Ok(Wish::Play(options))
}

fn number(option: &str, word: Option<&String>) -> Result<u64, String> {
    let word = word.ok_or_else(|| format!("{option} wants a number"))?;
    let number = word.parse::<u32>().map(u64::from);
    number.map_err(|_| format!("{option} wants a number below 4294967296, not {word}"))
}

fn path(word: Option<&String>) -> Result<PathBuf, String> {
    let word = word.ok_or("--tool wants a file")?;
    std::fs::canonicalize(word).map_err(|error| format!("{word}: {error}"))
}

fn bend(word: Option<&String>) -> Result<Bend, String> {
    let word = word.ok_or("--bend wants a name")?;
    stand_in::named(word).ok_or_else(|| format!("there is no bend {word}"))
}
