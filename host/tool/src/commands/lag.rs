//! `minnow lag`: how far a volume stands from a gid.

use crate::args::{self, number, Args, Command};
use crate::explain;
use crate::failure::Failure;
use crate::json::Json;
use crate::report::{Answer, Report};
use crate::volume::StateFile;
use crate::words;
use std::path::Path;

pub const LAG: Command = Command {
    name: "lag",
    summary: "says how far a volume stands from a gid",
    help: "usage: minnow lag VOLUME TARGET [--state FILE]\n\n\
        The lag is the volume's gid b minus TARGET: below zero, the volume is behind. Only the state is read\n\
        (VOLUME.state unless --state names another file); nothing is locked.",
    options: &[args::STATE],
    run: lag,
};

fn lag(args: &Args, report: &mut Report) -> Result<(), Failure> {
    let [volume, target] = args.exactly(["VOLUME", "TARGET"])?;
    let target = number(target, "TARGET")?;
    let state = StateFile::of(Path::new(volume), args.path("--state"))?;
    let refused = |refusal| explain::lag(refusal, &state, target);
    let lag = minnow::lag(state.record(), target).map_err(refused)?;
    let at = minnow::read_state(state.record()).map_err(refused)?;
    let gids = lag.unsigned_abs();
    let place = match lag {
        0 => format!("at gid {target}"),
        1.. => format!("{gids} ahead of gid {target}"),
        _ => format!("{gids} behind gid {target}"),
    };
    report.answer(Answer {
        text: format!("{lag}: the volume is {at}, {place}"),
        fields: vec![
            ("lag", Json::Signed(lag)),
            ("target", Json::from(target)),
            ("state", words::state_json(at)),
        ],
    });
    Ok(())
}
