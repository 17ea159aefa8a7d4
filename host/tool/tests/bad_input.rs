//! Inputs that no library call could be made of: a clear line, a status of sysexits, nothing lost and nothing left behind.

mod common;
use common::*;
use std::ffi::OsStr;
use std::fs;
use std::os::unix::ffi::OsStrExt;
use std::os::unix::fs::{symlink, PermissionsExt};
use std::os::unix::process::CommandExt;
use std::process::Command;

fn ready() -> Folder {
    let folder = Folder::new();
    folder
        .volume(4, 0, &clean(7))
        .write("d", &diff(LOG, 5, 9, &[(1, 1)]));
    folder.write("e", &diff(LOG, 9, 10, &[]));
    folder
}

/// The folder is as `ready` made it.
#[track_caller]
fn untouched(folder: &Folder) {
    assert_eq!(folder.read("vol"), [0; 2048]);
    assert_eq!(folder.read("vol.state"), clean(7));
    assert_eq!(folder.read("d"), diff(LOG, 5, 9, &[(1, 1)]));
    assert_eq!(folder.read("e"), diff(LOG, 9, 10, &[]));
    let ours = ["d", "e", "vol", "vol.state"];
    let others: Vec<String> = folder
        .names()
        .into_iter()
        .filter(|name| !ours.contains(&name.as_str()))
        .collect();
    assert!(
        others.iter().all(|name| name.starts_with("x-")),
        "{others:?}"
    );
}

/// Lines in which `X` stands for a file that will not do as a diff, a volume or a state.
const WITH_DIFF: [&str; 8] = [
    "check X",
    "decide vol X",
    "apply vol X",
    "merge X e -o out",
    "merge d X -o out",
    "show vol X 0",
    "plan vol 9 d X",
    "restore vol 9 d X",
];
const WITH_VOLUME: [&str; 5] = [
    "decide X d --state vol.state",
    "apply X d --state vol.state",
    "show X d 0",
    "restore X 9 d --state vol.state",
    "compare vol X --from 1 --to 2 -o out",
];
const WITH_STATE: [&str; 5] = [
    "state show X",
    "decide vol d --state X",
    "apply vol d --state X",
    "plan vol 9 d --state X",
    "lag vol 9 --state X",
];

#[track_caller]
fn everywhere(folder: &Folder, name: &str, status: i32, part: &str) {
    for line in WITH_DIFF.iter().chain(&WITH_VOLUME).chain(&WITH_STATE) {
        let answer = folder.line(&line.replace('X', name));
        answer.fails_with(status, part);
        let named = answer.err.starts_with(&format!("{name}: "));
        assert!(named, "{line}: {}", answer.err);
    }
    untouched(folder);
}

#[test]
fn missing_files() {
    let folder = ready();
    for line in WITH_DIFF.iter().chain(&WITH_VOLUME) {
        folder.line(&line.replace('X', "x-none")).fails(
            66,
            "x-none: cannot open: No such file or directory (os error 2)",
        );
    }
    folder.line("lag none 9").fails(
        66,
        "none.state: there is no state; `minnow state new` makes one",
    );
    folder
        .line("check vol/d")
        .fails(66, "vol/d: cannot open: Not a directory (os error 20)");
    let long = "n".repeat(300);
    folder
        .run(&["check", &long])
        .fails_with(66, "File name too long");
    folder.run(&["check", ""]).fails_with(66, "No such file");
    untouched(&folder);
}

#[test]
fn folders_pipes_devices_and_circles() {
    let folder = ready();
    fs::create_dir(folder.path("x-folder")).expect("a folder");
    everywhere(&folder, "x-folder", 66, "a folder, not a file");
    let made = Command::new("mkfifo").arg(folder.path("x-pipe")).status();
    assert!(made.map_or(false, |status| status.success()), "mkfifo");
    everywhere(&folder, "x-pipe", 66, "not a regular file");
    symlink("/dev/zero", folder.path("x-zero")).expect("a link");
    everywhere(&folder, "x-zero", 66, "not a regular file");
    symlink("x-circle", folder.path("x-circle")).expect("a link");
    everywhere(&folder, "x-circle", 66, "");
}

#[test]
fn files_that_may_not_be_read() {
    let folder = ready();
    folder.write("x-shut", b"");
    fs::set_permissions(folder.path("x-shut"), fs::Permissions::from_mode(0o000)).expect("a mode");
    fs::set_permissions(&folder.0, fs::Permissions::from_mode(0o755)).expect("a mode");
    let mut command = folder.command();
    command.args(["check", "x-shut"]);
    if is_root() {
        // Root may read everything: somebody else is asked.
        command.uid(65_534);
    }
    match command.output() {
        Ok(output) => {
            Answer::of(output).fails(77, "x-shut: cannot open: Permission denied (os error 13)")
        }
        Err(error) => skipped("files_that_may_not_be_read", &error.to_string()),
    }
}

#[test]
fn a_volume_or_folder_that_may_not_be_written() {
    if !is_root() {
        return skipped(
            "a_volume_or_folder_that_may_not_be_written",
            "needs root to become another",
        );
    }
    let folder = ready();
    fs::set_permissions(&folder.0, fs::Permissions::from_mode(0o755)).expect("a mode");
    let as_other = |line: &str| {
        let words = line.split_whitespace();
        let output = folder.command().args(words).uid(65_534).output();
        Answer::of(output.expect("the binary runs as another"))
    };
    as_other("apply vol d").fails(77, "vol: cannot open: Permission denied (os error 13)");
    as_other("merge d e -o out").fails(
        77,
        "out.minnow-new: cannot create: Permission denied (os error 13)",
    );
    as_other("state new s --clean 1").fails_with(77, "s.minnow-new: cannot create");
    // The volume may be written, the folder may not: While cannot be saved, so no block moves.
    fs::set_permissions(folder.path("vol"), fs::Permissions::from_mode(0o666)).expect("a mode");
    as_other("apply vol d").fails_with(77, "vol.state.minnow-new: cannot create");
    as_other("decide vol d").says("d: accepted: while pair 7,9,9; done clean 9");
    untouched(&folder);
}

#[test]
fn one_file_under_two_names() {
    let folder = ready();
    fs::hard_link(folder.path("vol"), folder.path("x-hard")).expect("a link");
    symlink("vol", folder.path("x-soft")).expect("a link");
    fs::hard_link(folder.path("vol.state"), folder.path("x-state")).expect("a link");
    for name in ["vol", "x-hard", "x-soft"] {
        let said = format!("{name}: the diff is the same file as the volume vol");
        for line in [
            "decide vol X",
            "apply vol X",
            "show vol X 0",
            "restore vol 9 X",
        ] {
            folder.line(&line.replace('X', name)).fails(64, &said);
        }
        let said = format!("{name}: the state is the same file as the volume vol");
        for line in [
            "decide vol d --state X",
            "apply vol d --state X",
            "restore vol 9 d --state X",
        ] {
            folder.line(&line.replace('X', name)).fails(64, &said);
        }
    }
    for line in [
        "apply vol x-state",
        "plan vol 9 x-state",
        "restore vol 9 x-state",
    ] {
        folder.line(line).fails(
            64,
            "x-state: the diff is the same file as the state vol.state",
        );
    }
    untouched(&folder);
}

#[test]
fn an_output_that_is_an_input() {
    let folder = ready();
    fs::hard_link(folder.path("d"), folder.path("x-hard")).expect("a link");
    symlink("d", folder.path("x-soft")).expect("a link");
    folder.write("x-new", &[1; 2048]);
    for out in ["d", "./d", "x-hard", "x-soft"] {
        let said = format!("{out}: the output is the same file as the diff d");
        folder.line(&format!("merge d e -o {out}")).fails(64, &said);
        folder
            .line(&format!("merge d e -o {out} --force"))
            .fails(64, &said);
    }
    let line = "compare vol x-new --from 1 --to 2 -o x-new --force";
    folder
        .line(line)
        .fails(64, "x-new: the output is the same file as the image x-new");
    untouched(&folder);
}

#[test]
fn outputs_that_exist_already() {
    let folder = ready();
    folder.write("x-there", b"mine");
    let said = "x-there: exists already; --force replaces a regular file";
    for line in [
        "merge d e -o x-there",
        "compare vol vol --from 1 --to 2 -o x-there",
        "state new x-there --clean 1",
    ] {
        folder.line(line).fails(73, said);
        assert_eq!(folder.read("x-there"), b"mine");
    }
    folder
        .line("merge d e -o x-there --force")
        .says("x-there: log 5 to 10, 1 block, 542 bytes");
    assert_eq!(folder.read("x-there"), diff(LOG, 5, 10, &[(1, 1)]));
    untouched(&folder);
}

#[test]
fn outputs_that_no_file_can_be() {
    let folder = ready();
    fs::create_dir(folder.path("x-folder")).expect("a folder");
    symlink("/dev/null", folder.path("x-null")).expect("a link");
    symlink("nowhere", folder.path("x-nowhere")).expect("a link");
    let not_regular = "exists and is not a regular file; it stays as it is";
    for (out, said) in [
        ("x-folder", not_regular),
        ("x-null", not_regular),
        ("/dev/null", not_regular),
        ("x-nowhere", not_regular),
        ("x-folder/", "names no file"),
        ("x-new/", "names no file"),
        ("..", "names no file"),
        ("/", "names no file"),
        ("x-none/out", "cannot open the folder: No such file"),
        ("vol/out", "Not a directory"),
    ] {
        for force in ["", "--force"] {
            let answer = folder.line(&format!("merge d e -o {out} {force}"));
            answer.fails_with(73, said);
        }
    }
    let null = fs::metadata("/dev/null").expect("the device");
    assert!(!null.is_file());
    untouched(&folder);
}

#[test]
fn lines_that_are_wrong() {
    let folder = ready();
    let rows = [
        ("", "no command"),
        ("frobnicate", "\"frobnicate\" is no command"),
        ("check", "DIFF is missing"),
        ("apply vol", "DIFF is missing"),
        ("apply vol d e", "one word too many: \"e\""),
        ("apply vol d --state", "--state needs a value"),
        ("apply vol d --force", "unknown option \"--force\""),
        ("merge d e", "-o is missing"),
        ("merge d e -o a -o b", "-o is given twice"),
        ("compare vol vol --from 1 -o out", "--to is missing"),
        (
            "compare vol vol --from x --to 2 -o out",
            "--from: \"x\" is not a number",
        ),
        ("show vol d 1e3", "BLOCK: \"1e3\" is not a number"),
        ("show vol d 0 --raw --json", "--raw and --json"),
        (
            "lag vol 18446744073709551616",
            "TARGET: 18446744073709551616 is above 18446744073709551615",
        ),
        ("lag vol -2", "unknown option \"-2\""),
        ("lag vol -- -2", "TARGET: \"-2\" is not a number"),
        ("plan vol 9", "DIFF is missing"),
        ("check d --json --quiet", "--json and --quiet"),
        ("state", "show or new is missing"),
        ("state look vol.state", "only show and new are known"),
        (
            "state new s",
            "--clean, --settled, --pair or --span is missing",
        ),
        ("state new s --clean 1 --pair 1 2", "one state too many"),
        ("state new s --pair 1", "--pair needs 2 values"),
        (
            "state show vol.state --clean 1",
            "state show takes no values",
        ),
    ];
    for (line, part) in rows {
        let answer = folder.line(line);
        if line.contains("--json") {
            assert_eq!((answer.status, &*answer.err), (Some(64), ""), "{line}");
            assert!(
                answer.out.contains("\"status\":64,\"message\":\""),
                "{}",
                answer.out
            );
            assert!(answer.out.contains(part), "{}", answer.out);
        } else {
            answer.fails_with(64, part);
        }
    }
    untouched(&folder);
}

#[test]
fn names_of_any_bytes() {
    let folder = ready();
    let odd = OsStr::from_bytes(b"x-\xff\x1b[2J\"\n");
    fs::write(folder.0.join(odd), diff(LOG, 9, 10, &[])).expect("a file");
    let answer = folder.run(&[OsStr::new("check"), odd]);
    answer.says("x-\u{fffd}\\u{1b}[2J\"\\n: log 9 to 10, 0 blocks");
    let answer = folder.run(&[OsStr::new("check"), OsStr::new("--json"), odd]);
    let name = "\"file\":\"x-\u{fffd}\\\\u{1b}[2J\\\"\\\\n\"";
    assert!(answer.out.contains(name), "{}", answer.out);
    fs::write(folder.path("-o"), diff(LOG, 9, 10, &[])).expect("a file");
    folder.line("check -- -o").says("-o: log 9 to 10, 0 blocks");
}

#[test]
fn errors_in_json() {
    let folder = ready();
    let answer = folder.line("check x-none --json");
    assert_eq!(answer.status, Some(66));
    assert_eq!(
        answer.out,
        "{\"command\":\"check\",\"status\":66,\"file\":\"x-none\",\
         \"message\":\"cannot open: No such file or directory (os error 2)\"}\n"
    );
}

#[test]
fn a_reader_that_goes_away() {
    let folder = ready();
    let answer = folder.shell("(minnow show vol d 0; echo $? >x-status) | true; cat x-status");
    assert_eq!((&*answer.out, &*answer.err), ("0\n", ""));
    let answer = folder.shell("minnow show vol d 0 --raw >&-");
    assert_eq!((answer.status, &*answer.err), (Some(0), ""));
    let answer = folder.shell("minnow lag vol 9 >/dev/full");
    answer.fails_with(74, "the answer cannot be written: No space left");
}
