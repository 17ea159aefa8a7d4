//! `minnow plan` and `minnow restore`: from a shelf of diffs the first list that leads to a gid, and the way along it.

use crate::args::{self, number, Args, Command, Opt};
use crate::explain;
use crate::failure::{shown, Failure, TRY_AGAIN};
use crate::files::{self, apart, Argument, Content, Identity};
use crate::json::{Fields, Json};
use crate::moving;
use crate::picture;
use crate::progress::Progress;
use crate::report::{Answer, Report};
use crate::save::Output;
use crate::volume::{StateFile, Volume};
use crate::words;
use minnow::{Head, Plan, Refusal, HEAD, PLACES};
use std::ffi::OsString;
use std::fs;
use std::path::{Path, PathBuf};

pub const PLAN: Command = Command {
    name: "plan",
    summary: "plans a restore over a shelf of diffs",
    help: "usage: minnow plan VOLUME TARGET DIFF.. [--state FILE] [--svg FILE [--force]]\n\n\
        The shelf is the diffs in the order given, at most 96; each is checked whole. The answer is the first\n\
        list, in dictionary order of places, that leads from the volume's state to clean at TARGET. Only the\n\
        state is read (VOLUME.state unless --state names another file), the volume is not; nothing is locked.\n\
        --svg draws the shelf, the state, the target and the plan into FILE, also where no list leads to TARGET\n\
        (19) but not after any other refusal. FILE appears whole or not at all; one that exists is replaced only\n\
        with --force, and never where it is one of the inputs or the volume.",
    options: &[args::STATE, Opt::value("--svg"), args::FORCE],
    run: plan,
};

pub const RESTORE: Command = Command {
    name: "restore",
    summary: "plans a restore and applies each diff of the plan in turn",
    help: "usage: minnow restore VOLUME TARGET DIFF.. [--state FILE]\n\n\
        Plans as `minnow plan` does, sees that every diff of the plan fits the volume, and then applies them one\n\
        after the other, each as `minnow apply` does. If it is cut, the same command plans anew from where it was.\n\
        The volume and the state are locked meanwhile: a second minnow on either ends with 75.",
    options: &[args::STATE],
    run: restore,
};

/// The diffs in the order given: names and heads; the diffs themselves are read one at a time.
struct Shelf {
    paths: Vec<PathBuf>,
    names: Vec<String>,
    identities: Vec<Identity>,
    heads: Vec<Head>,
    /// Heads as bytes, back to back.
    bytes: Vec<u8>,
}

impl Shelf {
    fn new() -> Shelf {
        Shelf {
            paths: Vec::new(),
            names: Vec::new(),
            identities: Vec::new(),
            heads: Vec::new(),
            bytes: Vec::new(),
        }
    }

    /// Checks a diff whole and puts it in the next place.
    fn put(&mut self, path: &Path, diff: &Content) -> Result<(), Failure> {
        let head = minnow::check(&diff.bytes).map_err(|refusal| explain::diff(refusal, diff))?;
        self.paths.push(path.to_path_buf());
        self.names.push(diff.name.clone());
        self.identities.push(diff.identity);
        self.heads.push(head);
        self.bytes.extend_from_slice(&diff.bytes[..HEAD]);
        Ok(())
    }

    fn plan(&self, state: &StateFile, target: u64) -> Result<Plan, Failure> {
        let count = self.heads.len();
        minnow::plan(&self.bytes, count, state.record(), target)
            .map_err(|refusal| explain::plan(refusal, &self.heads, count, state, target))
    }

    /// A place as it is shown in a list.
    fn line(&self, place: usize) -> String {
        format!(
            "{place}: {}: {}",
            self.names[place],
            words::head(&self.heads[place])
        )
    }

    fn json(&self, place: usize) -> Json {
        let mut fields = vec![
            ("place", Json::from(place as u64)),
            ("file", Json::from(self.names[place].as_str())),
        ];
        fields.extend(words::head_fields(&self.heads[place]));
        Json::Object(fields)
    }

    fn list(&self, plan: &Plan) -> Json {
        Json::List(
            plan.places()
                .iter()
                .map(|place| self.json(*place))
                .collect(),
        )
    }
}

/// More diffs than a shelf has places are refused before any is read, as a plan refuses them first.
fn no_more_than_places(count: usize, state: &StateFile, target: u64) -> Result<(), Failure> {
    if count <= PLACES {
        return Ok(());
    }
    match minnow::plan(&[], count, state.record(), target) {
        Err(refusal) => Err(explain::plan(refusal, &[], count, state, target)),
        Ok(_) => Err(Failure::internal(format!("a shelf of {count} is accepted"))),
    }
}

fn plan(args: &Args, report: &mut Report) -> Result<(), Failure> {
    let ([volume, target], diffs) = args.and_more(["VOLUME", "TARGET"], "DIFF")?;
    let target = number(target, "TARGET")?;
    let state = StateFile::of(Path::new(volume), args.path("--state"))?;
    no_more_than_places(diffs.len(), &state, target)?;
    let progress = report.progress();
    let shelf = filled(diffs, &state, &progress, |_| Ok(()))?;
    let picture = Picture::asked_for(args, Path::new(volume), &state, &shelf)?;
    let planned = shelf.plan(&state, target);
    let drawn = match picture {
        Some(picture) => picture.save(&shelf, &state, target, &planned)?,
        None => Fields::new(),
    };
    drop(progress);
    match planned {
        Ok(plan) => {
            let mut answer = planned_answer(&shelf, &plan, target);
            answer.fields.extend(drawn);
            report.answer(answer);
            Ok(())
        }
        Err(mut failure) => {
            failure.more.extend(drawn);
            Err(failure)
        }
    }
}

/// The file that --svg names.
struct Picture {
    name: String,
    output: Output,
}

impl Picture {
    /// The volume is no input here, but nothing may replace it.
    fn asked_for(
        args: &Args,
        volume: &Path,
        state: &StateFile,
        shelf: &Shelf,
    ) -> Result<Option<Picture>, Failure> {
        let force = args.flag("--force");
        let path = match args.path("--svg") {
            Some(path) => path,
            None if force => return Err(Failure::usage("--force goes with --svg")),
            None => return Ok(None),
        };
        let volume_name = shown(volume);
        let mut others: Vec<Argument> = vec![state.is()];
        if let Ok(metadata) = fs::metadata(volume) {
            others.push(("volume", &volume_name, Identity::of(&metadata)));
        }
        for (name, identity) in shelf.names.iter().zip(&shelf.identities) {
            others.push(("diff", name, *identity));
        }
        let output = Output::new(path, force, &others)?;
        let name = shown(path);
        Ok(Some(Picture { name, output }))
    }

    /// Draws what was planned, or that there is no plan; any other refusal draws nothing. Gives what the answer says of it.
    fn save(
        &self,
        shelf: &Shelf,
        state: &StateFile,
        target: u64,
        planned: &Result<Plan, Failure>,
    ) -> Result<Fields, Failure> {
        let places = match planned {
            Ok(plan) => Some(plan.places()),
            Err(failure) if failure.refusal == Some(Refusal::NoChain) => None,
            Err(_) => return Ok(Fields::new()),
        };
        let at = moving::read_back(state.record())?;
        let svg = picture::draw(&shelf.heads, &shelf.names, at, target, places);
        self.output.save(svg.as_bytes())?;
        Ok(vec![("svg", Json::from(self.name.as_str()))])
    }
}

/// Reads and checks the diffs one after the other; `look` sees each while it is in memory.
fn filled(
    diffs: &[OsString],
    state: &StateFile,
    progress: &Progress,
    mut look: impl FnMut(&Content) -> Result<(), Failure>,
) -> Result<Shelf, Failure> {
    let mut shelf = Shelf::new();
    for (i, path) in diffs.iter().enumerate() {
        progress.at(|| format!("checking diff {} of {}", i + 1, diffs.len()));
        let path = Path::new(path);
        let diff = files::read_diff(path)?;
        apart(state.is(), diff.is())?;
        look(&diff)?;
        shelf.put(path, &diff)?;
    }
    Ok(shelf)
}

fn planned_answer(shelf: &Shelf, plan: &Plan, target: u64) -> Answer {
    let lines: Vec<String> = plan
        .places()
        .iter()
        .map(|place| shelf.line(*place))
        .collect();
    let text = match lines.as_slice() {
        [] => format!("nothing to do: clean at {target} already"),
        lines => lines.join("\n"),
    };
    let places = plan.places().iter().map(|place| Json::from(*place as u64));
    Answer {
        text,
        fields: vec![
            ("target", Json::from(target)),
            ("places", Json::List(places.collect())),
            ("diffs", shelf.list(plan)),
        ],
    }
}

fn restore(args: &Args, report: &mut Report) -> Result<(), Failure> {
    let ([volume, target], diffs) = args.and_more(["VOLUME", "TARGET"], "DIFF")?;
    let target = number(target, "TARGET")?;
    let mut volume = Volume::to_change(Path::new(volume))?;
    let mut state = StateFile::to_change(&volume, args.path("--state"))?;
    no_more_than_places(diffs.len(), &state, target)?;
    report.on_bus_error(&volume.bus_error());

    let progress = report.progress();
    let mut fits = Vec::new();
    let shelf = filled(diffs, &state, &progress, |diff| {
        apart(volume.is(), diff.is())?;
        state.draft_apart(&[volume.is(), diff.is()])?;
        fits.push(moving::fits(&mut volume, diff));
        Ok(())
    })?;
    let plan = shelf.plan(&state, target)?;
    for place in plan.places() {
        fits[*place].clone()?;
    }
    moving::is_image(&fits)?;
    drop(progress);
    for (done, place) in plan.places().iter().enumerate() {
        let applied = apply_place(&mut volume, &mut state, &shelf, *place, report);
        applied.map_err(|failure| failure.with("applied", Json::from(done as u64)))?;
    }
    report.answer(restored_answer(&volume, &state, &shelf, &plan)?);
    Ok(())
}

/// Applies one diff of the plan, read anew.
fn apply_place(
    volume: &mut Volume,
    state: &mut StateFile,
    shelf: &Shelf,
    place: usize,
    report: &mut Report,
) -> Result<(), Failure> {
    let progress = report.progress();
    let path = &shelf.paths[place];
    let diff = files::read_diff(path)?;
    if minnow::check(&diff.bytes) != Ok(shelf.heads[place]) {
        return Err(Failure::about(
            path,
            TRY_AGAIN,
            "changed since it was planned",
        ));
    }
    let moved = moving::apply(volume, state, &diff, &progress)?;
    drop(progress);
    report.line(&format!("{}: {}", shelf.line(place), moved.state));
    Ok(())
}

fn restored_answer(
    volume: &Volume,
    state: &StateFile,
    shelf: &Shelf,
    plan: &Plan,
) -> Result<Answer, Failure> {
    let at = moving::read_back(state.record())?;
    let count = plan.places().len() as u64;
    let diffs = words::count(count, "diff");
    Ok(Answer {
        text: format!("{}: {at}, {diffs} applied", volume.name()),
        fields: vec![
            ("volume", Json::from(volume.name())),
            ("applied", Json::from(count)),
            ("diffs", shelf.list(plan)),
            ("state", words::state_json(at)),
        ],
    })
}
