//! `minnow check`: whether diffs are sound.

use crate::args::{Args, Command};
use crate::explain;
use crate::failure::Failure;
use crate::files;
use crate::json::Json;
use crate::report::{Answer, Report};
use crate::words;
use std::path::Path;

pub const CHECK: Command = Command {
    name: "check",
    summary: "says whether diffs are sound",
    help: "usage: minnow check DIFF..\n\n\
        Checks each diff whole, and goes on after one that is refused.\n\
        The status is that of the first that is not sound.",
    options: &[],
    run: check,
};

fn check(args: &Args, report: &mut Report) -> Result<(), Failure> {
    let ([], diffs) = args.and_more([], "DIFF")?;
    let progress = report.progress();
    for (i, diff) in diffs.iter().enumerate() {
        progress.at(|| format!("checking diff {} of {}", i + 1, diffs.len()));
        let checked = check_one(Path::new(diff));
        progress.step_aside();
        match checked {
            Ok(answer) => report.answer(answer),
            Err(failure) => report.failure(&failure),
        }
    }
    Ok(())
}

fn check_one(path: &Path) -> Result<Answer, Failure> {
    let diff = files::read_diff(path)?;
    let head = minnow::check(&diff.bytes).map_err(|refusal| explain::diff(refusal, &diff))?;
    let mut fields = vec![("file", Json::from(diff.name.as_str()))];
    fields.extend(words::head_fields(&head));
    Ok(Answer {
        text: format!("{}: {}", diff.name, words::head(&head)),
        fields,
    })
}
