//! Applies that are cut: killed at each system call that matters (by strace, where it is there) and at random moments. Whatever
//! is left, the state is true of it, and the same command goes on to the end.

mod common;
use common::*;
use std::fs::File;
use std::path::Path;
use std::process::{Command, Stdio};
use std::time::{Duration, Instant};

/// A rename as strace knows it: Arm has only the second call, and "?" passes over the one that is missing.
const RENAME: &str = "?rename,?renameat";
const BLOCKS: [(u32, u8); 3] = [(0, 1), (2, 2), (3, 3)];

fn ready() -> Folder {
    let folder = Folder::new();
    folder
        .volume(4, 0, &clean(7))
        .write("d", &diff(LOG, 7, 9, &BLOCKS));
    folder
}

/// The state is true of the volume, byte for byte.
fn truth(folder: &Folder, old: &[u8], new: &[u8], place: &str) {
    let (volume, record) = (folder.read("vol"), folder.read("vol.state"));
    if record == clean(7) {
        assert!(
            volume == old,
            "{place}: a byte moved before While was saved"
        );
    } else if record == clean(9) {
        assert!(
            volume == new,
            "{place}: Done was saved before the last byte moved"
        );
    } else {
        let cut_twice = state(1, 7, 9, 9);
        assert!(
            record == pair(7, 9) || record == cut_twice,
            "{place}: no state"
        );
        let mixed = volume.iter().zip(old.iter().zip(new));
        let mut bytes = mixed.map(|(byte, (old, new))| byte == old || byte == new);
        assert!(
            bytes.all(|is_either| is_either),
            "{place}: a byte of neither"
        );
    }
}

#[test]
fn killed_at_each_call_it_goes_on_from_there() {
    if !can_trace("killed_at_each_call_it_goes_on_from_there") {
        return;
    }
    let (old, new) = ([0; 2048].to_vec(), written(&[0; 2048], &BLOCKS));
    let mut cuts = 0;
    for call in [
        "flock",
        "fallocate",
        "openat",
        "write",
        "fsync",
        RENAME,
        "msync",
        "munmap",
        "exit_group",
    ] {
        for when in 1.. {
            let folder = ready();
            let inject = format!("inject={call}:signal=SIGKILL:when={when}");
            let trace = format!("trace={call}");
            let answer = strace(
                &folder,
                &["-o", "/dev/null", "-e", &trace, "-e", &inject],
                "apply vol d",
            );
            let place = format!("{call} {when}");
            truth(&folder, &old, &new, &place);
            if answer.status == Some(0) {
                break;
            }
            assert_eq!(answer.status, None, "{place}: {answer:?}");
            cuts += 1;
            finish(&folder, &new, &place);
        }
    }
    assert!(cuts > 20, "only {cuts} cuts");
}

/// The same command again ends clean, unless the cut came after Done.
fn finish(folder: &Folder, new: &[u8], place: &str) {
    if folder.read("vol.state") != clean(9) {
        let answer = folder.line("apply vol d");
        assert_eq!(answer.status, Some(0), "{place}: {answer:?}");
    }
    assert!(folder.read("vol") == new, "{place}");
    assert_eq!(folder.read("vol.state"), clean(9), "{place}");
    assert_eq!(folder.names(), ["d", "vol", "vol.state"], "{place}");
}

/// While durable, then the blocks, then the volume durable, then Done durable.
#[test]
fn the_calls_come_in_this_order() {
    if !can_trace("the_calls_come_in_this_order") {
        return;
    }
    let folder = ready();
    let calls = format!("trace=fallocate,openat,write,fsync,{RENAME},msync");
    let answer = strace(
        &folder,
        &["-y", "-o", "trace", "-e", &calls],
        "apply vol d --quiet",
    );
    answer.is_silent();
    let trace = String::from_utf8(folder.read("trace")).expect("a trace");
    let lines = trace
        .lines()
        .skip_while(|line| !line.starts_with("fallocate"));
    let name = folder
        .0
        .file_name()
        .expect("a name")
        .to_string_lossy()
        .into_owned();
    let seen: Vec<String> = lines.filter_map(|line| step(line, &name)).collect();
    let saved = [
        "create",
        "write record",
        "fsync record",
        "rename",
        "fsync folder",
    ];
    let mut expected = vec!["fallocate"];
    expected.extend(saved);
    expected.extend(["msync", "fsync volume"]);
    expected.extend(saved);
    assert_eq!(seen, expected, "{trace}");
}

/// A line of the trace in a word or two; opening the folder is no step.
fn step(line: &str, folder: &str) -> Option<String> {
    let call = line.split('(').next()?;
    let on = if line.contains(".minnow-new") {
        "record"
    } else if line.contains("/vol>") {
        "volume"
    } else if line.contains(&format!("{folder}>)")) {
        "folder"
    } else {
        ""
    };
    match call {
        "openat" => line.contains("O_EXCL").then(|| "create".to_string()),
        "write" | "fsync" => Some(format!("{call} {on}")),
        "renameat" => Some("rename".to_string()),
        "fallocate" | "rename" | "msync" => Some(call.to_string()),
        _ => None,
    }
}

/// A volume that somebody cuts short while its blocks move: no silent end, and the state says that an apply was under way.
#[test]
fn a_volume_cut_short_under_the_apply() {
    if !can_trace("a_volume_cut_short_under_the_apply") {
        return;
    }
    let folder = ready();
    let trace = format!("trace={RENAME}");
    let delay = format!("inject={RENAME}:delay_exit=1000000:when=1");
    let options = ["-o", "/dev/null", "-e", &trace, "-e", &delay];
    let answer = std::thread::scope(|scope| {
        let run = scope.spawn(|| strace(&folder, &options, "apply vol d"));
        while folder.read("vol.state") == clean(7) && !run.is_finished() {
            std::thread::sleep(Duration::from_millis(10));
        }
        folder.write("vol", b"");
        run.join().expect("a run")
    });
    answer.fails_with(
        74,
        "vol: the disk failed, or the file was cut, while its blocks moved",
    );
    assert_eq!(folder.read("vol.state"), pair(7, 9));
    assert_eq!(folder.names(), ["d", "vol", "vol.state"]);
}

/// A volume that grows while its blocks move was in other hands: Done is not saved.
#[test]
fn a_volume_that_grows_under_the_apply() {
    if !can_trace("a_volume_that_grows_under_the_apply") {
        return;
    }
    let folder = ready();
    let delay = "inject=msync:delay_enter=1000000";
    let options = ["-o", "/dev/null", "-e", "trace=msync", "-e", delay];
    let answer = std::thread::scope(|scope| {
        let run = scope.spawn(|| strace(&folder, &options, "apply vol d"));
        while folder.read("vol.state") == clean(7) && !run.is_finished() {
            std::thread::sleep(Duration::from_millis(10));
        }
        let volume = File::options().write(true).open(folder.path("vol"));
        volume
            .and_then(|volume| volume.set_len(4096))
            .expect("a longer volume");
        run.join().expect("a run")
    });
    let said = "vol: its length changed while its blocks moved; the state says so, apply again";
    answer.fails(74, said);
    assert_eq!(folder.read("vol.state"), pair(7, 9));
    assert_eq!(folder.names(), ["d", "vol", "vol.state"]);
}

/// A volume that is cut short between the look at its length and the look at its block.
#[test]
fn a_volume_cut_short_under_a_look() {
    if !can_trace("a_volume_cut_short_under_a_look") {
        return;
    }
    let folder = ready();
    let delay = "inject=flock:delay_exit=1000000";
    let options = ["-o", "/dev/null", "-e", "trace=flock", "-e", delay];
    let answer = std::thread::scope(|scope| {
        let run = scope.spawn(|| strace(&folder, &options, "show vol d 1"));
        while !is_locked(&folder.path("vol")) && !run.is_finished() {
            std::thread::sleep(Duration::from_millis(10));
        }
        folder.write("vol", b"");
        run.join().expect("a run")
    });
    answer.fails(
        74,
        "vol: the disk failed, or the file was cut, while it was read",
    );
}

/// A merge that contains the diff of a cut apply goes on from there, too; a compared one or a shorter one does not.
#[test]
fn a_merge_goes_on_from_a_cut() {
    let folder = ready();
    folder
        .write("vol", &written(&[0; 2048], &BLOCKS[..1]))
        .write("vol.state", &pair(7, 9));
    folder.write("e", &diff(LOG, 9, 12, &[(1, 7), (2, 8)]));
    folder.write("short", &diff(LOG, 7, 8, &[]));
    folder.line("apply vol short").fails_with(13, "13 Short");
    folder.line("merge d e -o both --quiet").is_silent();
    folder
        .line("apply vol both")
        .says("vol: clean 12, 4 blocks written");
    let expected = written(&[0; 2048], &[(0, 1), (1, 7), (2, 8), (3, 3)]);
    assert_eq!(folder.read("vol"), expected);
    assert_eq!(folder.read("vol.state"), clean(12));
}

/// Kills a large apply at moments spread over the time that one takes.
#[test]
fn killed_at_any_moment_it_goes_on_from_there() {
    let folder = Folder::new();
    let image = 33_554_432;
    let (old, new) = (vec![0; image], vec![1; image]);
    folder.write("d", &full_diff(7, 9, 1));
    folder.write("vol", &old).write("vol.state", &clean(7));
    let start = Instant::now();
    folder.line("apply vol d --quiet").is_silent();
    let whole = start.elapsed();
    for part in 1..=8 {
        folder.write("vol", &old).write("vol.state", &clean(7));
        kill_after(&folder.0, whole * part / 9);
        let place = format!("part {part} of 9 of {whole:?}");
        truth(&folder, &old, &new, &place);
        finish(&folder, &new, &place);
    }
}

fn kill_after(folder: &Path, time: Duration) {
    let mut run = Command::new(binary())
        .args(["apply", "vol", "d"])
        .current_dir(folder)
        .stdout(Stdio::null())
        .spawn()
        .expect("the binary runs");
    std::thread::sleep(time);
    let _ = run.kill();
    run.wait().expect("the run ends");
}
