//! The command line.

pub const HELP: &str = "\
fuzz: plays hostile input through the C interface of the proved library, every lent buffer between pages that fault.

  fuzz                  plays the fixed share of rounds
  fuzz --rounds N       plays N rounds
  fuzz --from SEED      starts at this seed; round i has the seed SEED + i
  fuzz --self-test      plants faults and requires that each is caught
  fuzz --help           says this

It ends with 0 if nothing was wrong, with 1 if something was, and with 2 if it could not play.
";

/// The share that is played unless --rounds says otherwise: some 25 seconds.
const ROUNDS: u64 = 650_000;

pub struct Options {
    pub from: u64,
    pub rounds: u64,
}

pub enum Wish {
    Help,
    SelfTest,
    Play(Options),
}

pub fn read(mut words: impl Iterator<Item = String>) -> Result<Wish, String> {
    let mut options = Options {
        from: 0,
        rounds: ROUNDS,
    };
    while let Some(word) = words.next() {
        match word.as_str() {
            "--help" => return Ok(Wish::Help),
            "--self-test" => return Ok(Wish::SelfTest),
            "--rounds" => options.rounds = number(&word, words.next())?,
            "--from" => options.from = number(&word, words.next())?,
            _ => return Err(format!("there is no {word}")),
        }
    }
    Ok(Wish::Play(options))
}

fn number(option: &str, word: Option<String>) -> Result<u64, String> {
    let word = word.ok_or_else(|| format!("{option} wants a number"))?;
    word.parse()
        .map_err(|_| format!("{option} wants a number, not {word}"))
}
