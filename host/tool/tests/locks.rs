//! Who keeps whom off: an apply has its volume and its state, by whatever name, from its first record to its last.

mod common;
use common::*;
use std::ffi::OsStr;
use std::fs;
use std::os::unix::ffi::OsStrExt;
use std::time::Duration;

fn ready() -> Folder {
    let folder = Folder::new();
    folder
        .volume(4, 0, &clean(7))
        .write("other", &[0; 2048])
        .write("d", &diff(LOG, 5, 9, &[(1, 1)]))
        .write("e", &diff(LOG, 9, 10, &[]));
    folder
}

/// Everything that would replace the state `s`.
const AT_STATE: [&str; 5] = [
    "apply other d --state s",
    "restore other 9 d --state s",
    "state new s --clean 7 --force",
    "merge d e -o s --force",
    "plan other 9 d --state vol.state --svg s --force",
];

#[test]
fn a_state_in_use_is_left_alone() {
    let folder = ready();
    folder.write("s", &clean(7));
    let lock = locked(&folder.path("s"), EXCLUSIVE);
    for line in AT_STATE {
        folder
            .line(line)
            .fails(75, "s: another minnow is at work on this file");
    }
    folder
        .line("decide other d --state s")
        .says("d: accepted: while pair 7,9,9; done clean 9");
    folder.line("state show s").says("s: clean 7");
    assert_eq!(folder.read("s"), clean(7));
    assert_eq!(folder.read("other"), [0; 2048]);
    drop(lock);
    folder
        .line("apply other d --state s")
        .says("other: clean 9, 1 block written");
}

#[test]
fn the_state_is_held_before_while_is_saved() {
    held_at(
        "the_state_is_held_before_while_is_saved",
        "fallocate",
        &clean(7),
    );
}

#[test]
fn the_state_is_held_before_done_is_saved() {
    held_at(
        "the_state_is_held_before_done_is_saved",
        "msync",
        &pair(7, 9),
    );
}

/// Nobody else replaces the state of an apply that is made to wait at a call, where its state is `record`.
fn held_at(test: &str, call: &str, record: &[u8]) {
    if !can_trace(test) {
        return;
    }
    let folder = ready();
    folder.write("s", &clean(7));
    let trace = format!("trace={call}");
    let delay = format!("inject={call}:delay_enter=4000000");
    let options = ["-o", "/dev/null", "-e", &trace, "-e", &delay];
    let there = || is_locked(&folder.path("s")) && folder.read("s") == record;
    std::thread::scope(|scope| {
        let run = scope.spawn(|| strace(&folder, &options, "apply vol d --state s"));
        while !there() && !run.is_finished() {
            std::thread::sleep(Duration::from_millis(10));
        }
        for line in AT_STATE {
            folder
                .line(line)
                .fails(75, "s: another minnow is at work on this file");
        }
        let answer = run.join().expect("a run");
        answer.says("vol: clean 9, 1 block written");
    });
    assert_eq!(folder.read("s"), clean(9));
    assert_eq!(folder.read("other"), [0; 2048]);
    assert_eq!(folder.names(), ["d", "e", "other", "s", "vol", "vol.state"]);
}

/// The volume of a default state is found by its name, whatever bytes that has.
#[test]
fn a_volume_of_any_name_is_held() {
    let folder = ready();
    let (volume, state) = (
        OsStr::from_bytes(b"v\xff"),
        OsStr::from_bytes(b"v\xff.state"),
    );
    fs::write(folder.0.join(volume), [0; 2048]).expect("a volume");
    fs::write(folder.0.join(state), clean(9)).expect("a state");
    let words = ["state", "new", "STATE", "--clean", "7", "--force"].map(OsStr::new);
    let words = words.map(|word| if word == "STATE" { state } else { word });
    let lock = locked(&folder.0.join(volume), EXCLUSIVE);
    folder
        .run(&words)
        .fails_with(75, "locked: another minnow is at work on this volume");
    assert_eq!(fs::read(folder.0.join(state)).expect("a state"), clean(9));
    drop(lock);
    assert_eq!(folder.run(&words).status, Some(0));
    assert_eq!(fs::read(folder.0.join(state)).expect("a state"), clean(7));
}
