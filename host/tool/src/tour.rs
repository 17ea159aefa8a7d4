//! `minnow tour`: a night in a few seconds, on files of its own. Each step runs this very tool and holds what comes of it to
//! the history that the files were made from; the first step that comes out otherwise ends the tour.

mod history;
mod stage;

use crate::args::{Args, Command, Opt};
use crate::failure::Failure;
use crate::json::Json;
use crate::report::{Answer, Report};
use crate::sys;
use crate::words::count;
use minnow::{HEAD, RECORD};
use stage::{Stage, STATE, VOLUME};
use std::io::stdout;
use std::time::Instant;

pub const TOUR: Command = Command {
    name: "tour",
    summary: "plays a night on files of its own, with an apply killed in the middle",
    help: "usage: minnow tour [--keep DIR]\n\n\
        Makes the files of a queue's volume in a temporary folder, merges, compares and plans, kills an apply in the\n\
        middle, goes on from there, and does it again with a restore. Each step shows what was run and what came of\n\
        it, and is held to the volume's history byte for byte; one that comes out otherwise ends the tour with 70.\n\
        The folder is removed at the end. --keep DIR plays in DIR, which must be empty or not there, and leaves it.",
    options: &[Opt::value("--keep")],
    run: tour,
};

/// The shelf of the plan and of the restore, in our order of preference.
const SHELF: &str = "compared-9-12.diff log-5-9.diff log-9-12.diff";

fn tour(args: &Args, report: &mut Report) -> Result<(), Failure> {
    let [] = args.exactly([])?;
    let stage = Stage::new(args.path("--keep"))?;
    let mut tour = Tour {
        stage,
        report,
        steps: 0,
        start: Instant::now(),
    };
    tour.files()?;
    tour.making()?;
    tour.cut_apply()?;
    tour.resume()?;
    tour.cut_restore()?;
    tour.end()
}

struct Tour<'a> {
    stage: Stage,
    report: &'a mut Report,
    steps: u64,
    start: Instant,
}

/// What a run must come to: its status, the whole of what it says, and what files hold then.
struct Expected {
    status: i32,
    said: String,
    files: Vec<(&'static str, Vec<u8>)>,
    /// What it means that the files are so.
    checked: &'static str,
}

impl Expected {
    fn of(status: i32, said: impl Into<String>) -> Expected {
        Expected {
            status,
            said: said.into(),
            files: Vec::new(),
            checked: "",
        }
    }

    fn with(mut self, name: &'static str, bytes: Vec<u8>, checked: &'static str) -> Expected {
        self.files.push((name, bytes));
        self.checked = checked;
        self
    }
}

fn says(said: impl Into<String>) -> Expected {
    Expected::of(0, said)
}

impl Tour<'_> {
    /// Tells a step: what it is about, what was run, what came of it.
    fn tell(&mut self, about: &str, ran: &str, came: &str) {
        self.steps += 1;
        let step = self.steps;
        let (bold, plain) = match is_coloured() {
            true => ("\x1b[1m", "\x1b[0m"),
            false => ("", ""),
        };
        let mut text = format!("{bold}{step:2}. {about}{plain}");
        let ran_lines = ran.lines().map(|line| format!("$ {line}"));
        for line in ran_lines.chain(came.lines().map(str::to_string)) {
            text += &format!("\n      {line}");
        }
        let fields = vec![
            ("step", Json::from(step)),
            ("about", Json::from(about)),
            ("ran", Json::from(ran)),
            ("came", Json::from(came)),
        ];
        self.report.answer(Answer { text, fields });
    }

    /// Runs the tool, which must come to what is expected, also in the files that it leaves.
    fn step(&mut self, about: &str, line: &str, expected: &Expected) -> Result<(), Failure> {
        let output = self.stage.run(line)?;
        let said = match output.status.code() {
            Some(0) => output.stdout,
            _ => output.stderr,
        };
        let said = String::from_utf8_lossy(&said);
        came_out(line, expected, output.status.code(), said.trim_end())?;
        for (name, bytes) in &expected.files {
            same(&self.stage, name, bytes)?;
        }
        let came = format!("{said}{}", expected.checked);
        self.tell(about, &format!("minnow {line}"), &came);
        Ok(())
    }

    fn files(&mut self) -> Result<(), Failure> {
        for (name, gid) in [(VOLUME, 7), ("image-9", 9), ("image-12", 12)] {
            self.stage.write(name, &history::image(gid))?;
        }
        for (p, q) in [(5, 8), (8, 9), (9, 12)] {
            let diff = history::log(p, q);
            self.stage.write(&format!("log-{p}-{q}.diff"), &diff)?;
        }
        let (first, last, blocks) = (history::FIRST, history::LAST, history::BLOCKS);
        let about = format!(
            "The files of a night, from a history of gids {first} to {last}: \
             a queue's volume of {blocks} blocks as it was at gid 7, and more"
        );
        let diffs = "log-5-8.diff, log-8-9.diff, log-9-12.diff";
        let came = format!("made: {VOLUME}, image-9, image-12, {diffs}");
        self.tell(&about, "", &came);
        let about = "What is known of the volume: every byte is that of gid 7";
        let line = format!("state new {STATE} --clean 7");
        self.step(about, &line, &says(format!("{STATE}: clean 7")))
    }

    /// A merge, a comparison and a plan.
    fn making(&mut self) -> Result<(), Failure> {
        let (log, compared) = (history::log(5, 9), history::compared(9, 12));
        let planned = format!(
            "1: log-5-9.diff: log 5 to 9, {}\n0: compared-9-12.diff: compared 9 to 12, {}",
            blocks_of(&log),
            blocks_of(&compared)
        );
        let checked = "checked: the log of the history, byte for byte";
        self.step(
            "Two log diffs that touch become one: each block once, as the later one has it",
            "merge log-5-8.diff log-8-9.diff -o log-5-9.diff",
            &says(made("log-5-9.diff", "log 5 to 9", &log)).with("log-5-9.diff", log, checked),
        )?;
        let name = "compared-9-12.diff";
        let checked = "checked: the comparison in the history, byte for byte";
        self.step(
            "Two images become a compared diff: the blocks that differ, none that changed and came back",
            "compare image-9 image-12 --from 9 --to 12 -o compared-9-12.diff",
            &says(made(name, "compared 9 to 12", &compared)).with(name, compared, checked),
        )?;
        self.step(
            "A plan from gid 7 to gid 12: of all lists that lead there, the first by place on the shelf",
            &format!("plan {VOLUME} 12 {SHELF}"),
            &says(planned),
        )
    }

    fn cut_apply(&mut self) -> Result<(), Failure> {
        let about = "An apply is killed in the middle, without warning (SIGKILL)";
        self.cut(about, &format!("apply {VOLUME} log-5-9.diff"))?;
        let left = self.stage.read(VOLUME)?;
        let checked = "checked: each byte is that of gid 7 or that of gid 9";
        self.step(
            "The state was saved before the first block moved and says how the volume is",
            &format!("state show {STATE}"),
            &says(format!("{STATE}: pair 7,9,9")).with(VOLUME, left, checked),
        )
    }

    fn resume(&mut self) -> Result<(), Failure> {
        let (left, record) = (self.stage.read(VOLUME)?, self.stage.read(STATE)?);
        let short = "13 Short: the diff ends at gid 8, an apply to 9 was cut: pair 7,9,9";
        let checked = "checked: status 13, and not a byte has changed";
        self.step(
            "A diff that does not fit is refused, with the number of the rule, and changes nothing",
            &format!("apply {VOLUME} log-5-8.diff"),
            &Expected::of(13, format!("log-5-8.diff: {short}"))
                .with(STATE, record, checked)
                .with(VOLUME, left, checked),
        )?;
        let said = format!(
            "{VOLUME}: clean 9, {} written",
            blocks_of(&history::log(5, 9))
        );
        let checked = "checked: the history at gid 9, byte for byte";
        self.step(
            "The same apply again goes on from there",
            &format!("apply {VOLUME} log-5-9.diff"),
            &says(said).with(VOLUME, history::image(9), checked),
        )?;
        self.step(
            "How far the volume is from gid 12: below zero, it is behind",
            &format!("lag {VOLUME} 12"),
            &says("-3: the volume is clean 9, 3 behind gid 12"),
        )
    }

    fn cut_restore(&mut self) -> Result<(), Failure> {
        let line = format!("restore {VOLUME} 12 {SHELF}");
        let about = "Back at gid 7, a restore is killed in its first diff";
        self.cut(about, &line)?;
        let said = format!(
            "1: log-5-9.diff: log 5 to 9, {}: clean 9\n\
             0: compared-9-12.diff: compared 9 to 12, {}: clean 12\n\
             {VOLUME}: clean 12, 2 diffs applied",
            blocks_of(&history::log(5, 9)),
            blocks_of(&history::compared(9, 12))
        );
        let checked = "checked: the history at gid 12, byte for byte";
        self.step(
            "The same restore again plans from the cut volume and goes to the end",
            &line,
            &says(said).with(VOLUME, history::image(12), checked),
        )
    }

    /// A run from clean 7 that is killed while blocks move towards gid 9.
    fn cut(&mut self, about: &str, line: &str) -> Result<(), Failure> {
        let stage = &self.stage;
        let cut = stage.cut(line, (7, 9), || put_back(stage))?;
        is_pair(stage)?;
        let mut came = format!(
            "killed when {} of the {} blocks that change had moved",
            cut.moved, cut.of
        );
        if cut.tries > 1 {
            came += &format!(" (try {}: before, it was too quick)", cut.tries);
        }
        self.tell(about, &format!("minnow {line}"), &came);
        Ok(())
    }

    fn end(&mut self) -> Result<(), Failure> {
        let seconds = self.start.elapsed().as_secs_f64();
        let (steps, end) = (count(self.steps, "step"), self.stage.end()?);
        let line = format!("{steps}, each as expected, in {seconds:.1} s; {end}");
        self.report.line(&line);
        Ok(())
    }
}

fn is_coloured() -> bool {
    sys::is_terminal(&stdout()) && std::env::var_os("NO_COLOR").is_none()
}

/// The volume as it was at gid 7, and its state.
fn put_back(stage: &Stage) -> Result<(), Failure> {
    let record = minnow::write_state(minnow::State::clean(7))
        .map_err(|refusal| Failure::internal(format!("clean 7 is refused: {refusal}")))?;
    stage.write(VOLUME, &history::image(7))?;
    stage.write(STATE, &record)
}

fn blocks_of(diff: &[u8]) -> String {
    count(((diff.len() - HEAD) / RECORD) as u64, "block")
}

/// What `merge` and `compare` say about a diff that they made.
fn made(name: &str, head: &str, diff: &[u8]) -> String {
    format!("{name}: {head}, {}, {} bytes", blocks_of(diff), diff.len())
}

fn came_out(
    line: &str,
    expected: &Expected,
    status: Option<i32>,
    said: &str,
) -> Result<(), Failure> {
    let (wanted, words) = (expected.status, &expected.said);
    if status == Some(wanted) && said == words {
        return Ok(());
    }
    let status = status.map_or("a signal".to_string(), |status| format!("status {status}"));
    Err(Failure::internal(format!(
        "the tour: minnow {line}\nshould end with status {wanted} and say\n{words}\n\
         it ended with {status} and said\n{said}"
    )))
}

/// A file must hold these bytes.
fn same(stage: &Stage, name: &str, bytes: &[u8]) -> Result<(), Failure> {
    let found = stage.read(name)?;
    if found == bytes {
        return Ok(());
    }
    let differs = found
        .iter()
        .zip(bytes)
        .position(|(one, other)| one != other);
    let at = differs.unwrap_or(found.len().min(bytes.len()));
    let said = format!("the tour: {name} is not as it should be, from byte {at} on");
    Err(Failure::internal(said))
}

/// Each byte of the cut volume must be that of gid 7 or that of gid 9.
fn is_pair(stage: &Stage) -> Result<(), Failure> {
    let (volume, old, new) = (stage.read(VOLUME)?, history::image(7), history::image(9));
    let either = |(byte, (old, new)): (&u8, (&u8, &u8))| byte == old || byte == new;
    let mut bytes = volume.iter().zip(old.iter().zip(&new));
    if volume.len() == old.len() && bytes.all(either) {
        return Ok(());
    }
    let said = "the tour: a byte of the cut volume is of neither gid";
    Err(Failure::internal(said))
}

#[cfg(test)]
mod tests {
    use super::*;

    #[test]
    fn any_other_outcome_ends_the_tour() {
        let expected = says("queue: clean 9");
        assert!(came_out("x", &expected, Some(0), "queue: clean 9").is_ok());
        for (status, said) in [
            (Some(0), "queue: clean 12"),
            (Some(13), "queue: clean 9"),
            (None, "queue: clean 9"),
        ] {
            let failure = came_out("x", &expected, status, said).expect_err("a failure");
            assert_eq!(failure.status, crate::failure::INTERNAL);
        }
    }

    #[test]
    fn any_other_byte_ends_the_tour() {
        let stage = Stage::new(None).expect("a folder");
        put_back(&stage).expect("files");
        assert!(is_pair(&stage).is_ok());
        assert!(same(&stage, VOLUME, &history::image(7)).is_ok());
        assert!(same(&stage, VOLUME, &history::image(8)).is_err());
        assert!(same(&stage, VOLUME, &history::image(7)[1..]).is_err());
        let mut volume = history::image(7);
        volume[99] ^= 0xFF;
        stage.write(VOLUME, &volume).expect("a file");
        assert!(is_pair(&stage).is_err());
        stage
            .write(VOLUME, &history::image(7)[512..])
            .expect("a file");
        assert!(is_pair(&stage).is_err());
    }
}
