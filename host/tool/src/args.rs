//! The words of the command line: options wherever they stand, `--` before words that only look like options, numbers and
//! paths; and the help.

use crate::failure::Failure;
use crate::report::{Mode, Report};
use std::ffi::{OsStr, OsString};
use std::os::unix::ffi::OsStrExt;
use std::path::Path;

/// A command of the tool: what it is called, what it says about itself, what it takes and what it does.
pub struct Command {
    pub name: &'static str,
    pub summary: &'static str,
    /// Forms, one to a line, and then what they do.
    pub help: &'static str,
    pub options: &'static [Opt],
    pub run: fn(&Args, &mut Report) -> Result<(), Failure>,
}

/// An option and the number of values that follow it.
pub struct Opt {
    pub name: &'static str,
    pub values: usize,
}

/// Options of every command.
const COMMON: &[Opt] = &[
    Opt::flag("--json"),
    Opt::flag("--quiet"),
    Opt::flag("--help"),
    Opt::flag("--version"),
];

pub const FORCE: Opt = Opt::flag("--force");
pub const OUT: Opt = Opt::value("-o");
pub const STATE: Opt = Opt::value("--state");

impl Opt {
    pub const fn flag(name: &'static str) -> Opt {
        Opt { name, values: 0 }
    }

    pub const fn value(name: &'static str) -> Opt {
        Opt { name, values: 1 }
    }
}

/// What stands on the command line behind the command's name.
#[derive(Default, Debug)]
pub struct Args {
    words: Vec<OsString>,
    options: Vec<(&'static str, Vec<OsString>)>,
}

impl Args {
    /// Sorts words and options; `known` are the options that may occur besides the common ones.
    pub fn parse(line: &[OsString], known: &[Opt]) -> Result<Args, Failure> {
        let mut args = Args::default();
        let mut rest = line.iter();
        while let Some(word) = rest.next() {
            if word == "--" {
                args.words.extend(rest.cloned());
                break;
            }
            if word.len() > 1 && word.as_bytes().starts_with(b"-") {
                args.option(word, &mut rest, known)?;
            } else {
                args.words.push(word.clone());
            }
        }
        Ok(args)
    }

    fn option<'a>(
        &mut self,
        word: &OsStr,
        rest: &mut impl Iterator<Item = &'a OsString>,
        known: &[Opt],
    ) -> Result<(), Failure> {
        let (name, joined) = split(word);
        let name = long(name);
        let option = known
            .iter()
            .chain(COMMON)
            .find(|option| name == option.name);
        let option =
            option.ok_or_else(|| Failure::usage(format!("unknown option {}", quoted(word))))?;
        if self.options.iter().any(|(name, _)| *name == option.name) && option.values > 0 {
            return Err(Failure::usage(format!("{} is given twice", option.name)));
        }
        let mut values: Vec<OsString> = joined.map(OsStr::to_os_string).into_iter().collect();
        while values.len() < option.values {
            match rest.next() {
                Some(value) => values.push(value.clone()),
                None => return Err(too_few(option)),
            }
        }
        if values.len() > option.values {
            return Err(Failure::usage(format!("{} takes no value", option.name)));
        }
        self.options.push((option.name, values));
        Ok(())
    }

    pub fn flag(&self, name: &str) -> bool {
        self.values(name).is_some()
    }

    pub fn values(&self, name: &str) -> Option<&[OsString]> {
        let given = self.options.iter().find(|(given, _)| *given == name)?;
        Some(&given.1)
    }

    pub fn path(&self, name: &str) -> Option<&Path> {
        self.values(name)?.first().map(Path::new)
    }

    /// An option that must be there.
    pub fn needed(&self, name: &str) -> Result<&OsStr, Failure> {
        let value = self.values(name).and_then(<[OsString]>::first);
        value
            .map(OsString::as_os_str)
            .ok_or_else(|| Failure::usage(format!("{name} is missing")))
    }

    /// Exactly these words, named as in the help.
    pub fn exactly<const N: usize>(&self, names: [&str; N]) -> Result<[&OsStr; N], Failure> {
        if let Some(extra) = self.words.get(N) {
            let extra = quoted(extra);
            return Err(Failure::usage(format!("one word too many: {extra}")));
        }
        Ok(self.leading(names)?.0)
    }

    /// These words and at least one more.
    pub fn and_more<const N: usize>(
        &self,
        names: [&str; N],
        more: &str,
    ) -> Result<([&OsStr; N], &[OsString]), Failure> {
        let (words, rest) = self.leading(names)?;
        match rest {
            [] => Err(missing(more)),
            _ => Ok((words, rest)),
        }
    }

    fn leading<const N: usize>(
        &self,
        names: [&str; N],
    ) -> Result<([&OsStr; N], &[OsString]), Failure> {
        if let Some(name) = names.get(self.words.len()) {
            return Err(missing(name));
        }
        let words = std::array::from_fn(|i| self.words[i].as_os_str());
        Ok((words, &self.words[N..]))
    }
}

fn missing(name: &str) -> Failure {
    Failure::usage(format!("{name} is missing"))
}

fn too_few(option: &Opt) -> Failure {
    let (name, values) = (option.name, option.values);
    match values {
        1 => Failure::usage(format!("{name} needs a value")),
        _ => Failure::usage(format!("{name} needs {values} values")),
    }
}

/// `--name=value` apart.
fn split(word: &OsStr) -> (&OsStr, Option<&OsStr>) {
    let bytes = word.as_bytes();
    match bytes.iter().position(|byte| *byte == b'=') {
        Some(at) if bytes.starts_with(b"--") => (
            OsStr::from_bytes(&bytes[..at]),
            Some(OsStr::from_bytes(&bytes[at + 1..])),
        ),
        _ => (word, None),
    }
}

/// The long name of a short option.
fn long(name: &OsStr) -> &OsStr {
    match name.as_bytes() {
        b"-h" => OsStr::new("--help"),
        b"-q" => OsStr::new("--quiet"),
        b"-V" => OsStr::new("--version"),
        _ => name,
    }
}

pub fn quoted(word: &OsStr) -> String {
    format!("{:?}", word.to_string_lossy())
}

/// A number: decimal digits and nothing else, at most 18,446,744,073,709,551,615.
pub fn number(word: &OsStr, what: &str) -> Result<u64, Failure> {
    let digits = word.to_str().filter(|text| {
        let mut bytes = text.bytes();
        !text.is_empty() && bytes.all(|byte| byte.is_ascii_digit())
    });
    let digits = digits.ok_or_else(|| {
        let word = quoted(word);
        Failure::usage(format!("{what}: {word} is not a number"))
    })?;
    digits.parse().map_err(|_| {
        let most = u64::MAX;
        Failure::usage(format!("{what}: {digits} is above {most}"))
    })
}

/// How answers are wanted.
pub fn mode(args: &Args) -> Result<Mode, Failure> {
    match (args.flag("--json"), args.flag("--quiet")) {
        (true, true) => Err(Failure::usage("--json and --quiet exclude each other")),
        (true, false) => Ok(Mode::Json),
        (false, true) => Ok(Mode::Quiet),
        (false, false) => Ok(Mode::Text),
    }
}

/// Whether JSON is asked for on a line that may be wrong otherwise.
pub fn wants_json(line: &[OsString]) -> bool {
    let options = line.iter().take_while(|word| *word != "--");
    options.into_iter().any(|word| word == "--json")
}

/// The help of the whole.
pub fn help(commands: &[&Command]) -> String {
    let mut text = String::from(
        "minnow: carries a block volume as diffs\n\n\
         usage: minnow COMMAND [OPTION].. WORD..\n\n",
    );
    for command in commands {
        text.push_str(&format!("  {:8} {}\n", command.name, command.summary));
    }
    text.push_str(
        "\n`minnow COMMAND --help` says more.\n\n\
         Every command takes\n  \
         --json     one JSON object for each answer, refusals and errors too\n  \
         --quiet    no answer and no progress; what goes wrong is still said\n  \
         --help, --version\n\n\
         Status: 0, or the number of the refusal (1 to 20); 64 usage, 66 no input, 70 internal error,\n\
         73 output cannot be made, 74 input or output error, 75 locked, try again, 77 no permission.",
    );
    text
}

/// The help of one command.
pub fn help_of(command: &Command) -> String {
    format!(
        "minnow {}: {}\n\n{}",
        command.name, command.summary, command.help
    )
}

#[cfg(test)]
mod tests {
    use super::*;

    fn line(words: &[&str]) -> Vec<OsString> {
        words.iter().map(OsString::from).collect()
    }

    #[test]
    fn options_may_stand_anywhere() {
        let args = Args::parse(&line(&["a", "-o", "x", "b", "--force"]), &[OUT, FORCE]);
        let args = args.expect("a line that is right");
        assert_eq!(args.exactly(["A", "B"]).expect("two words"), ["a", "b"]);
        assert_eq!(args.path("-o"), Some(Path::new("x")));
        assert!(args.flag("--force"));
    }

    #[test]
    fn words_behind_two_dashes_are_words() {
        let args = Args::parse(&line(&["--", "-o", "--json"]), &[]);
        let args = args.expect("a line that is right");
        assert_eq!(
            args.exactly(["A", "B"]).expect("two words"),
            ["-o", "--json"]
        );
        assert!(!wants_json(&line(&["--", "--json"])));
    }

    #[test]
    fn values_may_be_joined() {
        let args = Args::parse(&line(&["--state=a=b"]), &[STATE]);
        let args = args.expect("a line that is right");
        assert_eq!(args.path("--state"), Some(Path::new("a=b")));
    }

    #[test]
    fn wrong_lines_are_refused() {
        let wrong: [&[&str]; 5] = [
            &["--no"],
            &["-o"],
            &["-o", "a", "-o", "b"],
            &["--force=1"],
            &["-5"],
        ];
        for words in wrong {
            let parsed = Args::parse(&line(words), &[OUT, FORCE]);
            assert!(parsed.is_err(), "{words:?}");
        }
    }

    #[test]
    fn numbers_are_digits_within_64_bits() {
        let most = OsStr::new("18446744073709551615");
        assert_eq!(number(most, "GID").ok(), Some(u64::MAX));
        for word in [
            "",
            "x",
            "+1",
            "-1",
            "1.0",
            "0x1",
            " 1",
            "18446744073709551616",
        ] {
            assert!(number(OsStr::new(word), "GID").is_err(), "{word:?}");
        }
    }
}
