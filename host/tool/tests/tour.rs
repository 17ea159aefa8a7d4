//! `minnow tour`: it plays to the end, leaves nothing behind unless asked to, and does not end well where it cannot play.

mod common;
use common::*;
use std::fs;

/// Runs the tour with the folder as the place for temporary files.
fn tour(folder: &Folder, words: &[&str]) -> Answer {
    let mut command = folder.command();
    command.arg("tour").args(words).env("TMPDIR", &folder.0);
    Answer::of(command.output().expect("the binary runs"))
}

#[test]
fn it_plays_to_the_end_and_leaves_nothing() {
    let folder = Folder::new();
    let answer = tour(&folder, &[]);
    assert_eq!((answer.status, &*answer.err), (Some(0), ""), "{answer:?}");
    for part in [
        " 6. An apply is killed",
        "queue.state: pair 7,9,9\n",
        "13 Short: ",
        "queue: clean 9, ",
        "queue: clean 12, 2 diffs applied\n",
        "12 steps, each as expected",
    ] {
        assert!(answer.out.contains(part), "{part}: {}", answer.out);
    }
    assert!(!answer.out.contains('\x1b'), "colours without a terminal");
    assert!(folder.names().is_empty(), "{:?}", folder.names());
}

/// What is kept can be gone on with.
#[test]
fn it_keeps_its_files_where_it_is_told() {
    let folder = Folder::new();
    let answer = tour(&folder, &["--keep", "kept", "--quiet"]);
    answer.is_silent();
    assert_eq!(folder.names(), ["kept"]);
    let state = folder.line("state show kept/queue.state");
    state.says("kept/queue.state: clean 12");
    assert!(folder.read("kept/queue") == folder.read("kept/image-12"));
}

#[test]
fn a_folder_that_is_not_empty_is_left_alone() {
    let folder = Folder::new();
    fs::create_dir(folder.path("full")).expect("a folder");
    folder.write("full/x", b"mine").write("file", b"mine");
    let answer = tour(&folder, &["--keep", "full"]);
    answer.fails(73, "full: is not empty");
    tour(&folder, &["--keep", "file"]).fails_with(73, "file: is no folder");
    tour(&folder, &["--keep", "no/such"]).fails_with(73, "no/such: cannot make the folder");
    assert_eq!(folder.names(), ["file", "full"]);
    assert_eq!(folder.read("full/x"), b"mine");
}

/// A limit on the size of files stands for a full disk: an error with its status, and no file is left.
#[test]
fn it_says_when_it_cannot_play() {
    let folder = Folder::new();
    let answer = folder.shell("export TMPDIR=.; ulimit -f 64; minnow tour");
    answer.fails_with(74, "queue: cannot write");
    assert!(folder.names().is_empty(), "{:?}", folder.names());
}

#[test]
fn each_step_is_an_object_for_a_machine() {
    let folder = Folder::new();
    let answer = tour(&folder, &["--json"]);
    assert_eq!(answer.status, Some(0), "{answer:?}");
    for (i, line) in answer.out.lines().enumerate() {
        let front = format!("{{\"command\":\"tour\",\"status\":0,\"step\":{},", i + 1);
        assert!(line.starts_with(&front), "{line}");
    }
    assert_eq!(answer.out.lines().count(), 12);
}
