//! What happens around a write: locks, files left by killed runs, full disks, and the size of things.

mod common;
use common::*;
use std::fs::{self, File};
use std::io::Write;
use std::os::unix::fs::{symlink, MetadataExt, PermissionsExt};
use std::path::{Path, PathBuf};
use std::process::{Command, Stdio};
use std::time::Duration;

fn ready() -> Folder {
    let folder = Folder::new();
    folder
        .volume(4, 0, &clean(7))
        .write("d", &diff(LOG, 5, 9, &[(1, 1)]));
    folder.write("e", &diff(LOG, 9, 10, &[]));
    folder
}

#[test]
fn a_volume_under_an_apply_is_left_alone() {
    let folder = ready();
    let lock = locked(&folder.path("vol"), EXCLUSIVE);
    let said = "vol: locked: another minnow is at work on this volume";
    for line in [
        "apply vol d",
        "restore vol 9 d",
        "show vol d 0",
        "compare vol vol --from 1 --to 2 -o out",
        "state new vol.state --clean 1 --force",
    ] {
        folder.line(line).fails(75, said);
    }
    folder
        .line("decide vol d")
        .says("d: accepted: while pair 7,9,9; done clean 9");
    folder
        .line("plan vol 9 d")
        .says("0: d: log 5 to 9, 1 block");
    folder
        .line("lag vol 9")
        .says("-2: the volume is clean 7, 2 behind gid 9");
    assert_eq!(folder.read("vol.state"), clean(7));
    assert_eq!(folder.names(), ["d", "e", "vol", "vol.state"]);
    drop(lock);
    folder
        .line("apply vol d")
        .says("vol: clean 9, 1 block written");
}

#[test]
fn readers_do_not_keep_each_other_off_but_an_apply() {
    let folder = ready();
    fs::hard_link(folder.path("vol"), folder.path("same")).expect("a link");
    let _lock = locked(&folder.path("same"), SHARED);
    assert_eq!(folder.line("show vol d 0 --raw").raw, [0; 512]);
    let said = "vol: locked: another minnow is at work on this volume";
    folder.line("apply vol d").fails(75, said);
}

/// What a killed run left is removed, and never written into: here it is a second name of a file that matters.
#[test]
fn stale_temporary_files_do_not_disturb() {
    let folder = ready();
    folder.write("precious", b"precious");
    for name in ["vol.state.minnow-new", "out.minnow-new"] {
        fs::hard_link(folder.path("precious"), folder.path(name)).expect("a link");
    }
    folder
        .line("apply vol d")
        .says("vol: clean 9, 1 block written");
    folder
        .line("merge d e -o out")
        .says("out: log 5 to 10, 1 block, 542 bytes");
    assert_eq!(folder.read("precious"), b"precious");
    assert_eq!(
        folder.names(),
        ["d", "e", "out", "precious", "vol", "vol.state"]
    );
}

#[test]
fn a_temporary_file_in_use_is_left_alone() {
    let folder = ready();
    folder.write("out.minnow-new", b"half");
    let lock = locked(&folder.path("out.minnow-new"), EXCLUSIVE);
    folder
        .line("merge d e -o out")
        .fails(75, "out.minnow-new: another minnow is at work on this file");
    assert_eq!(folder.read("out.minnow-new"), b"half");
    drop(lock);
    folder
        .line("merge d e -o out")
        .says("out: log 5 to 10, 1 block, 542 bytes");
}

/// A folder, a pipe and a link at the temporary name: nothing is removed, and nothing is done.
#[test]
fn a_temporary_name_that_is_no_file() {
    let folder = ready();
    let make: [fn(&Path); 3] = [
        |path| fs::create_dir(path).expect("a folder"),
        |path| {
            let made = Command::new("mkfifo").arg(path).status();
            assert!(made.expect("mkfifo runs").success());
        },
        |path| symlink("nowhere", path).expect("a link"),
    ];
    for make in make {
        for (name, line) in [
            ("out.minnow-new", "merge d e -o out"),
            ("vol.state.minnow-new", "apply vol d"),
        ] {
            let path = folder.path(name);
            make(&path);
            let kind = fs::symlink_metadata(&path).expect("an entry").file_type();
            let said = format!("{name}: exists and is not a regular file; it stays as it is");
            folder.line(line).fails_with(73, &said);
            let now = fs::symlink_metadata(&path).expect("an entry").file_type();
            assert_eq!(now, kind, "{line}");
            let removed = match kind.is_dir() {
                true => fs::remove_dir(&path),
                false => fs::remove_file(&path),
            };
            removed.expect("it is removed");
        }
    }
    assert_eq!(folder.read("vol"), [0; 2048]);
    assert_eq!(folder.read("vol.state"), clean(7));
    assert_eq!(folder.names(), ["d", "e", "vol", "vol.state"]);
}

/// What stands at the temporary name and is an input is not taken for what a killed run left.
#[test]
fn a_temporary_name_that_is_an_input() {
    let folder = ready();
    folder
        .write("out.minnow-new", &folder.read("e"))
        .write("image.minnow-new", &[1; 2048])
        .write("vol.state.minnow-new", &folder.read("d"));
    fs::hard_link(folder.path("vol.state"), folder.path("linked")).expect("a link");
    fs::hard_link(folder.path("vol"), folder.path("linked.minnow-new")).expect("a link");
    let names = folder.names();
    for (line, what, name) in [
        ("merge d out.minnow-new -o out", "diff", "out.minnow-new"),
        (
            "compare vol image.minnow-new --from 1 --to 2 -o image",
            "image",
            "image.minnow-new",
        ),
        (
            "plan vol 9 d out.minnow-new --svg out",
            "diff",
            "out.minnow-new",
        ),
        (
            "decide vol vol.state.minnow-new",
            "diff",
            "vol.state.minnow-new",
        ),
        (
            "apply vol vol.state.minnow-new",
            "diff",
            "vol.state.minnow-new",
        ),
        (
            "restore vol 9 vol.state.minnow-new",
            "diff",
            "vol.state.minnow-new",
        ),
        (
            "apply linked.minnow-new d --state linked",
            "volume",
            "linked.minnow-new",
        ),
    ] {
        let said = format!("{name}: the temporary file is the same file as the {what} {name}");
        folder.line(line).fails_with(64, &said);
    }
    assert_eq!(folder.names(), names);
    assert_eq!(folder.read("vol"), [0; 2048]);
    assert_eq!(folder.read("vol.state"), clean(7));
}

/// Where a rename was made of a link and the run was killed in between, both names are the state's.
#[test]
fn a_temporary_name_that_is_the_state_itself() {
    let folder = ready();
    for line in [
        "apply vol d --quiet",
        "state new vol.state --clean 7 --force --quiet",
    ] {
        let (state, draft) = (
            folder.path("vol.state"),
            folder.path("vol.state.minnow-new"),
        );
        fs::hard_link(state, draft).expect("a link");
        folder.line(line).is_silent();
        assert_eq!(folder.names(), ["d", "e", "vol", "vol.state"]);
    }
}

/// Runs words as one who is not root, in a folder of root's.
fn as_other(folder: &Folder, groups: &str, line: &str) -> Answer {
    let output = Command::new("setpriv")
        .args(["--reuid=65534", "--regid=65534", groups])
        .arg(binary())
        .args(line.split_whitespace())
        .current_dir(&folder.0)
        .output();
    Answer::of(output.expect("setpriv runs"))
}

fn can_be_other(test: &str) -> bool {
    let tried = Command::new("setpriv")
        .args(["--reuid=65534", "--regid=65534", "--groups=1234", "true"])
        .output();
    let works = tried.map_or(false, |output| output.status.success());
    if !works {
        skipped(test, "needs setpriv and root to become another");
    }
    works
}

fn set_mode(path: &Path, mode: u32) {
    fs::set_permissions(path, fs::Permissions::from_mode(mode)).expect("a mode");
}

/// A member of the state's group applies: he cannot keep the owner, but he keeps the group and the mode.
#[test]
fn a_state_keeps_its_group() {
    if !can_be_other("a_state_keeps_its_group") {
        return;
    }
    let folder = ready();
    set_mode(&folder.0, 0o777);
    set_mode(&folder.path("vol"), 0o666);
    set_mode(&folder.path("vol.state"), 0o660);
    chown(&folder.path("vol.state"), 0, 1234);
    as_other(&folder, "--groups=1234", "apply vol d --quiet").is_silent();
    let now = fs::metadata(folder.path("vol.state")).expect("the state");
    assert_eq!(
        (now.uid(), now.gid(), now.mode() & 0o7777),
        (65_534, 1234, 0o660)
    );
}

fn chown(path: &Path, owner: u32, group: u32) {
    let given = Command::new("chown")
        .arg(format!("{owner}:{group}"))
        .arg(path)
        .status();
    assert!(given.expect("chown runs").success());
}

/// A folder that may be written but not read could not be flushed: that shows before anything is done.
#[test]
fn a_folder_that_cannot_be_flushed() {
    if !can_be_other("a_folder_that_cannot_be_flushed") {
        return;
    }
    let folder = ready();
    set_mode(&folder.path("vol"), 0o666);
    set_mode(&folder.0, 0o733);
    for line in ["apply vol d", "merge d e -o out", "state new s --clean 1"] {
        as_other(&folder, "--clear-groups", line)
            .fails_with(77, "cannot open the folder: Permission denied");
    }
    assert_eq!(folder.names(), ["d", "e", "vol", "vol.state"]);
    assert_eq!(folder.read("vol"), [0; 2048]);
    assert_eq!(folder.read("vol.state"), clean(7));
}

/// A temporary file that cannot be locked is not left behind.
#[test]
fn a_temporary_file_that_cannot_be_locked() {
    if !can_trace("a_temporary_file_that_cannot_be_locked") {
        return;
    }
    let folder = ready();
    let options = |inject| ["-o", "/dev/null", "-e", "trace=flock", "-e", inject];
    let refused = options("inject=flock:error=ENOLCK:when=1");
    strace(&folder, &refused, "merge d e -o out").fails_with(74, "out.minnow-new: cannot lock");
    assert_eq!(folder.names(), ["d", "e", "vol", "vol.state"]);
    // A lock that a signal cut is asked for again.
    let cut = options("inject=flock:error=EINTR:when=1+2");
    strace(&folder, &cut, "apply vol d --quiet").is_silent();
}

/// Two merges into one file at once: one of them makes it, whole.
#[test]
fn two_at_once_make_one_output() {
    let folder = ready();
    for _ in 0..20 {
        let spawn = || {
            folder
                .command()
                .args(["merge", "d", "e", "-o", "out", "--quiet"])
                .stderr(Stdio::piped())
                .spawn()
                .expect("a run")
        };
        let mut answers = [spawn(), spawn()]
            .map(|run| Answer::of(run.wait_with_output().expect("the end of a run")));
        answers.sort_by_key(|answer| answer.status);
        assert_eq!(answers[0].status, Some(0), "{answers:?}");
        assert!(matches!(answers[1].status, Some(73 | 75)), "{answers:?}");
        assert_eq!(folder.read("out"), diff(LOG, 5, 10, &[(1, 1)]));
        assert_eq!(folder.names(), ["d", "e", "out", "vol", "vol.state"]);
        fs::remove_file(folder.path("out")).expect("the output");
    }
}

/// Other runs may take the temporary file for stale in the moment between its creation and its lock, which is made long here.
#[test]
fn a_file_taken_for_stale_is_created_again() {
    if !can_trace("a_file_taken_for_stale_is_created_again") {
        return;
    }
    let folder = ready();
    let pause = "inject=flock:delay_enter=100000";
    let options = ["-o", "/dev/null", "-e", "trace=flock", "-e", pause];
    let (answer, taken) = std::thread::scope(|scope| {
        let run = scope.spawn(|| strace(&folder, &options, "merge d e -o out"));
        let mut taken = 0;
        while taken < 20 && !run.is_finished() {
            taken += u32::from(take_for_stale(&folder.path("out.minnow-new")));
            std::thread::sleep(Duration::from_millis(1));
        }
        (run.join().expect("a run"), taken)
    });
    assert!(taken > 0, "the run was never seen");
    answer.says("out: log 5 to 10, 1 block, 542 bytes");
    assert_eq!(folder.read("out"), diff(LOG, 5, 10, &[(1, 1)]));
    assert_eq!(folder.names(), ["d", "e", "out", "vol", "vol.state"]);
}

/// What a killed run left is locked until it is gone: a run that comes in between does not go on with it.
#[test]
fn a_stale_file_is_held_until_it_is_removed() {
    if !can_trace("a_stale_file_is_held_until_it_is_removed") {
        return;
    }
    let folder = ready();
    folder.write("out.minnow-new", b"half");
    let unlink = "?unlink,?unlinkat";
    let trace = format!("trace={unlink}");
    let pause = format!("inject={unlink}:delay_enter=2000000");
    let options = ["-o", "/dev/null", "-e", &trace, "-e", &pause];
    std::thread::scope(|scope| {
        let run = scope.spawn(|| strace(&folder, &options, "merge d e -o out --quiet"));
        while !is_locked(&folder.path("out.minnow-new")) && !run.is_finished() {
            std::thread::sleep(Duration::from_millis(10));
        }
        std::thread::sleep(Duration::from_millis(100));
        let said = "out.minnow-new: another minnow is at work on this file";
        folder.line("merge d e -o out").fails(75, said);
        run.join().expect("a run").is_silent();
    });
    assert_eq!(folder.read("out"), diff(LOG, 5, 10, &[(1, 1)]));
    assert_eq!(folder.names(), ["d", "e", "out", "vol", "vol.state"]);
}

/// Removes a file if nobody has locked it.
fn take_for_stale(path: &Path) -> bool {
    Locked::new(path, EXCLUSIVE).map_or(false, |_lock| fs::remove_file(path).is_ok())
}

/// A limit on file sizes stands for a disk that fills up while a result is written.
#[test]
fn an_output_that_does_not_fit_leaves_nothing() {
    let folder = Folder::new();
    let blocks: Vec<(u32, u8)> = (0..100).map(|address| (address, 1)).collect();
    folder
        .write("d", &diff(LOG, 5, 9, &blocks))
        .write("e", &diff(LOG, 9, 10, &[]));
    let answer = folder.shell("ulimit -f 8; minnow merge d e -o out");
    answer.fails_with(74, "out: cannot write: File too large");
    assert_eq!(folder.names(), ["d", "e"]);
}

/// A small file system in memory, if we may mount one.
struct Disk(PathBuf);

impl Disk {
    fn new(folder: &Folder, test: &str) -> Option<Disk> {
        let path = folder.path("disk");
        fs::create_dir(&path).expect("a folder");
        let mounted = Command::new("mount")
            .args(["-t", "tmpfs", "-o", "size=64k", "tmpfs"])
            .arg(&path)
            .output();
        match mounted {
            Ok(output) if output.status.success() => Some(Disk(path)),
            _ => {
                skipped(test, "a file system cannot be mounted here");
                None
            }
        }
    }

    /// Writes until nothing more fits. Nothing is removed: a child that another test is starting could keep the room of a
    /// removed file for a moment.
    fn fill(&self) {
        let mut filler = File::create(self.0.join("filler")).expect("a filler");
        while filler.write_all(&[1; 512]).is_ok() {}
    }
}

impl Drop for Disk {
    fn drop(&mut self) {
        // Lazily: a child that another test is starting may have a file of the disk open for a moment.
        let _ = Command::new("umount").arg("-l").arg(&self.0).status();
    }
}

#[test]
fn a_full_disk_is_noticed_before_the_first_byte_moves() {
    let folder = Folder::new();
    let disk = match Disk::new(
        &folder,
        "a_full_disk_is_noticed_before_the_first_byte_moves",
    ) {
        Some(disk) => disk,
        None => return,
    };
    let blocks: Vec<(u32, u8)> = (0..200).map(|address| (address, 1)).collect();
    folder.write("d", &diff(LOG, 5, 9, &blocks));
    folder
        .sparse("disk/vol", b"", 512 * 256)
        .write("disk/vol.state", &clean(7));
    let said = "disk/vol: no room set aside: No space left on device (os error 28)";
    folder.line("apply disk/vol d").fails(74, said);
    assert_eq!(folder.read("disk/vol"), vec![0; 512 * 256]);
    assert_eq!(folder.read("disk/vol.state"), clean(7));
    drop(disk);
}

/// Room is set aside for what the diff names alone: a sparse volume that would never fit stays sparse.
#[test]
fn a_volume_larger_than_the_disk_takes_what_is_named() {
    let folder = Folder::new();
    let disk = match Disk::new(&folder, "a_volume_larger_than_the_disk_takes_what_is_named") {
        Some(disk) => disk,
        None => return,
    };
    let length = 512 * 65_536;
    folder.write("d", &diff(LOG, 5, 9, &[(1, 1), (200, 2), (65_535, 3)]));
    folder
        .sparse("disk/vol", b"", length)
        .write("disk/vol.state", &clean(7));
    folder
        .line("apply disk/vol d")
        .says("disk/vol: clean 9, 3 blocks written");
    let now = fs::metadata(folder.path("disk/vol")).expect("the volume");
    assert_eq!((now.len(), now.blocks()), (length, 3 * 8));
    drop(disk);
}

#[test]
fn a_disk_too_full_for_the_state_moves_no_byte() {
    let folder = Folder::new();
    let disk = match Disk::new(&folder, "a_disk_too_full_for_the_state_moves_no_byte") {
        Some(disk) => disk,
        None => return,
    };
    folder
        .write("d", &diff(LOG, 5, 9, &[(1, 1)]))
        .write("e", &diff(LOG, 9, 10, &[]));
    folder
        .write("disk/vol", &[0; 2048])
        .write("disk/vol.state", &clean(7));
    disk.fill();
    let names = fs::read_dir(&disk.0).expect("the disk").count();
    folder
        .line("apply disk/vol d")
        .fails_with(74, "No space left on device");
    folder
        .line("merge d e -o disk/out")
        .fails_with(74, "disk/out: cannot write: No space left on device");
    folder
        .line("state new disk/s --clean 1")
        .fails_with(74, "No space left on device");
    assert_eq!(folder.read("disk/vol"), [0; 2048]);
    assert_eq!(folder.read("disk/vol.state"), clean(7));
    assert_eq!(fs::read_dir(&disk.0).expect("the disk").count(), names);
}

/// Full size: 32 MiB of volume, diffs of 34 MB, in no more memory than the files and 12 MiB for everything else.
#[test]
fn full_size_in_no_more_memory_than_the_files() {
    let folder = Folder::new();
    let (image, full) = (33_554_432, 33_947_672);
    folder
        .write("vol", &vec![0; image])
        .write("vol.state", &clean(0));
    folder
        .write("d", &full_diff(0, 1, 1))
        .write("e", &full_diff(1, 2, 2));
    let within = |files: usize, line: &str| {
        let kib = files / 1024 + 12 * 1024;
        folder.shell(&format!("ulimit -v {kib}; minnow {line}"))
    };
    within(full, "check d").says("d: log 0 to 1, 65536 blocks");
    let answer = within(3 * full, "merge d e -o out");
    answer.says(&format!("out: log 0 to 2, 65536 blocks, {full} bytes"));
    assert!(
        folder.read("out") == full_diff(0, 2, 2),
        "the merge is wrong"
    );
    within(image + full, "apply vol d").says("vol: clean 1, 65536 blocks written");
    assert!(folder.read("vol") == vec![1; image], "the image is wrong");
    folder.write("old", &vec![0; image]);
    let answer = within(
        2 * image + full,
        "compare old vol --from 0 --to 1 -o compared",
    );
    answer.says(&format!(
        "compared: compared 0 to 1, 65536 blocks, {full} bytes"
    ));
    let answer = within(image + full, "restore vol 2 d e");
    answer.says("1: e: log 1 to 2, 65536 blocks: clean 2\nvol: clean 2, 1 diff applied");
}

/// Memory that is refused is an answer, not the end of the process.
#[test]
fn no_memory_for_the_files() {
    let folder = Folder::new();
    let full = 33_947_672;
    folder
        .write("d", &full_diff(0, 1, 1))
        .write("e", &full_diff(1, 2, 2));
    folder
        .sparse("old", b"", 33_554_432)
        .sparse("new", b"", 33_554_432);
    let within = |files: usize, line: &str| {
        let kib = files / 1024 + 12 * 1024;
        folder.shell(&format!("ulimit -v {kib}; minnow {line}"))
    };
    within(0, "check d").fails(71, &format!("d: no memory for {full} bytes"));
    let said = format!("out: no memory for {full} bytes");
    within(2 * full, "merge d e -o out").fails(71, &said);
    within(2 * full, "compare old new --from 0 --to 1 -o out").fails(71, &said);
    within(0, "show old d 0").fails_with(71, "old: cannot map: Cannot allocate memory");
    assert_eq!(folder.names(), ["d", "e", "new", "old"]);
}
