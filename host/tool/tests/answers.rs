//! Each command where it succeeds, as text and as JSON; the expected answers are the paper's.

mod common;
use common::*;

#[test]
fn check_says_what_a_diff_is() {
    let folder = Folder::new();
    folder.write("empty", &diff(LOG, 5, 9, &[]));
    folder.write("two", &diff(COMPARED, 0, 1, &[(3, 1), (65_535, 2)]));
    let answer = folder.line("check empty two");
    answer.says("empty: log 5 to 9, 0 blocks\ntwo: compared 0 to 1, 2 blocks");
    folder.line("check empty --json").says(
        "{\"command\":\"check\",\"status\":0,\"file\":\"empty\",\"kind\":\"log\",\"p\":5,\"q\":9,\"n\":0}",
    );
    folder.line("check two --quiet").is_silent();
}

#[test]
fn check_goes_on_after_a_refusal_and_keeps_its_status() {
    let folder = Folder::new();
    folder.write("cut", b"WD");
    folder.write("good", &diff(LOG, 5, 9, &[]));
    let answer = folder.line("check cut none good");
    assert_eq!(answer.status, Some(1));
    assert_eq!(answer.out, "good: log 5 to 9, 0 blocks\n");
    assert_eq!(answer.err.lines().count(), 2, "{}", answer.err);
    let answer = folder.line("check --json cut none good");
    let statuses: Vec<&str> = answer.out.lines().map(|line| &line[..30]).collect();
    let expected = [
        "{\"command\":\"check\",\"status\":1,",
        "{\"command\":\"check\",\"status\":66",
        "{\"command\":\"check\",\"status\":0,",
    ];
    assert_eq!(statuses, expected);
    assert_eq!(answer.err, "");
}

#[test]
fn states_are_made_and_shown() {
    let folder = Folder::new();
    let rows: [(&str, &str, Vec<u8>); 5] = [
        ("--clean 7", "clean 7", clean(7)),
        ("--settled 4 10", "dirty 4,4,10", state(0, 4, 4, 10)),
        ("--pair 7 9", "pair 7,9,9", pair(7, 9)),
        ("--span 4 8 10", "span 4,8,10", state(1, 4, 8, 10)),
        (
            "--clean 9223372036854775807",
            "clean 9223372036854775807",
            clean(9_223_372_036_854_775_807),
        ),
    ];
    for (options, text, record) in rows {
        let line = format!("state new s --force {options}");
        folder.line(&line).says(&format!("s: {text}"));
        assert_eq!(folder.read("s"), record);
        folder.line("state show s").says(&format!("s: {text}"));
    }
    folder.line("state new t --pair 7 9 --json").says(
        "{\"command\":\"state\",\"status\":0,\"file\":\"t\",\"state\":{\"kind\":\"pair\",\"b\":7,\"t\":9,\"e\":9,\
         \"clean\":false,\"text\":\"pair 7,9,9\"}}",
    );
    assert_eq!(folder.names(), ["s", "t"]);
}

/// The night book's rows that are accepted; the others are among the refusals.
#[test]
fn decide_answers_as_the_night_book() {
    let dirty = state(0, 4, 4, 10);
    let rows: [(Vec<u8>, Vec<u8>, &str); 5] = [
        (
            clean(7),
            diff(LOG, 5, 9, &[]),
            "while pair 7,9,9; done clean 9",
        ),
        (
            clean(7),
            diff(COMPARED, 7, 9, &[]),
            "while pair 7,9,9; done clean 9",
        ),
        (
            dirty.clone(),
            diff(LOG, 4, 8, &[]),
            "while span 4,8,10; done dirty 8,8,10",
        ),
        (
            dirty,
            diff(LOG, 2, 10, &[]),
            "while span 4,10,10; done clean 10",
        ),
        (
            pair(7, 9),
            diff(LOG, 7, 9, &[]),
            "while span 7,9,9; done clean 9",
        ),
    ];
    for (state, diff, answer) in rows {
        let folder = Folder::new();
        folder.volume(4, 0, &state).write("d", &diff);
        folder
            .line("decide vol d")
            .says(&format!("d: accepted: {answer}"));
        assert_eq!(folder.read("vol.state"), state, "decide writes nothing");
    }
}

#[test]
fn decide_in_json() {
    let folder = Folder::new();
    folder
        .volume(4, 0, &clean(7))
        .write("d", &diff(LOG, 5, 9, &[]));
    folder.line("decide vol d --json").says(
        "{\"command\":\"decide\",\"status\":0,\"volume\":\"vol\",\"diff\":\"d\",\
         \"while\":{\"kind\":\"pair\",\"b\":7,\"t\":9,\"e\":9,\"clean\":false,\"text\":\"pair 7,9,9\"},\
         \"done\":{\"kind\":\"settled\",\"b\":9,\"t\":9,\"e\":9,\"clean\":true,\"text\":\"clean 9\"}}",
    );
}

#[test]
fn apply_moves_the_named_blocks_and_the_state() {
    let folder = Folder::new();
    let blocks = [(0, 1), (2, 3), (63, 9)];
    folder
        .volume(64, 0x55, &clean(7))
        .write("d", &diff(LOG, 5, 9, &blocks));
    folder
        .line("apply vol d")
        .says("vol: clean 9, 3 blocks written");
    assert_eq!(folder.read("vol"), written(&[0x55; 512 * 64], &blocks));
    assert_eq!(folder.read("vol.state"), clean(9));
    assert_eq!(folder.names(), ["d", "vol", "vol.state"]);
}

#[test]
fn apply_takes_a_state_by_another_name_and_leaves_links_alone() {
    let folder = Folder::new();
    folder.volume(4, 0, &clean(1)).write("other", &clean(7));
    folder.write("d", &diff(LOG, 5, 9, &[(1, 1)]));
    std::os::unix::fs::symlink("other", folder.path("link")).expect("a link");
    folder
        .line("apply vol d --state link")
        .says("vol: clean 9, 1 block written");
    assert_eq!(folder.read("other"), clean(9));
    assert_eq!(folder.read("vol.state"), clean(1));
    let link = folder.path("link").symlink_metadata().expect("the link");
    assert!(link.is_symlink());
}

#[test]
fn a_state_keeps_its_mode() {
    use std::os::unix::fs::{MetadataExt, PermissionsExt};
    let folder = Folder::new();
    folder
        .volume(4, 0, &clean(7))
        .write("d", &diff(LOG, 5, 9, &[]));
    let mode = std::fs::Permissions::from_mode(0o640);
    std::fs::set_permissions(folder.path("vol.state"), mode).expect("a mode");
    folder.line("apply vol d --quiet").is_silent();
    let now = folder.path("vol.state").metadata().expect("the state");
    assert_eq!(now.mode() & 0o7777, 0o640);
}

#[test]
fn apply_in_json() {
    let folder = Folder::new();
    folder
        .volume(4, 0, &state(0, 4, 4, 10))
        .write("d", &diff(LOG, 4, 8, &[(1, 1)]));
    folder.line("--json apply vol d").says(
        "{\"command\":\"apply\",\"status\":0,\"volume\":\"vol\",\"diff\":\"d\",\"blocks\":1,\
         \"state\":{\"kind\":\"settled\",\"b\":8,\"t\":8,\"e\":10,\"clean\":false,\"text\":\"dirty 8,8,10\"}}",
    );
}

/// The paper's example: {1: A, 3: B} with {3: C, 6: D} gives {1: A, 3: C, 6: D}, 1,578 bytes.
#[test]
fn merge_takes_the_second_where_both_name_a_block() {
    let folder = Folder::new();
    folder.write("one", &diff(LOG, 0, 4, &[(1, b'A'), (3, b'B')]));
    folder.write("two", &diff(LOG, 4, 9, &[(3, b'C'), (6, b'D')]));
    folder
        .line("merge one two -o out")
        .says("out: log 0 to 9, 3 blocks, 1578 bytes");
    let expected = diff(LOG, 0, 9, &[(1, b'A'), (3, b'C'), (6, b'D')]);
    assert_eq!(folder.read("out"), expected);
    assert_eq!(folder.names(), ["one", "out", "two"]);
    folder.line("merge one two -o out --force --json").says(
        "{\"command\":\"merge\",\"status\":0,\"file\":\"out\",\"kind\":\"log\",\"p\":0,\"q\":9,\"n\":3,\"bytes\":1578}",
    );
}

#[test]
fn compare_names_exactly_the_blocks_that_differ() {
    let folder = Folder::new();
    let old = vec![7; 512 * 5];
    let mut new = written(&old, &[(1, 8), (4, 9)]);
    new[512 * 3 + 100] = 1;
    folder.write("old", &old).write("new", &new);
    let line = "compare old new --from 7 --to 9 -o out";
    folder
        .line(line)
        .says("out: compared 7 to 9, 3 blocks, 1578 bytes");
    let mut expected = head(COMPARED, 7, 9, 3);
    for address in [1, 3, 4] {
        let at = 512 * address as usize;
        expected.extend([0x57, 0x42]);
        expected.extend(u32::to_le_bytes(address));
        expected.extend(&new[at..at + 512]);
    }
    assert_eq!(folder.read("out"), expected);
    folder
        .line("compare old old --from 7 --to 9 -o none")
        .says("none: compared 7 to 9, 0 blocks, 24 bytes");
}

#[test]
fn show_reads_through_the_diff() {
    let folder = Folder::new();
    folder
        .volume(4, b'v', &clean(7))
        .write("d", &diff(LOG, 5, 9, &[(2, b'd')]));
    let answer = folder.line("show vol d 2 --raw");
    assert_eq!(
        (answer.status, &answer.raw[..]),
        (Some(0), &[b'd'; 512][..])
    );
    let answer = folder.line("show vol d 3 --raw");
    assert_eq!(
        (answer.status, &answer.raw[..]),
        (Some(0), &[b'v'; 512][..])
    );
    let answer = folder.line("show vol d 2");
    let lines: Vec<&str> = answer.out.lines().collect();
    assert_eq!(lines.len(), 33);
    assert_eq!(lines[0], "block 2, from the diff d, byte 30 on");
    let dumped = format!("01f0  {}  dddddddddddddddd", ["64"; 16].join(" "));
    assert_eq!(lines[32], dumped);
    let json = format!(
        "{{\"command\":\"show\",\"status\":0,\"block\":3,\"source\":\"volume\",\"file\":\"vol\",\"at\":1536,\"hex\":\"{}\"}}",
        "76".repeat(512)
    );
    folder.line("show vol d 3 --json").says(&json);
}

/// The paper's shelf: log 0 to 4, compared 4 to 9, log 4 to 6, log 6 to 9.
fn shelf(folder: &Folder) {
    folder.write("s0", &diff(LOG, 0, 4, &[(0, 1)]));
    folder.write("s1", &diff(COMPARED, 4, 9, &[(1, 2)]));
    folder.write("s2", &diff(LOG, 4, 6, &[(2, 3)]));
    folder.write("s3", &diff(LOG, 6, 9, &[(3, 4)]));
}

#[test]
fn plans_are_the_papers() {
    let rows: [(Vec<u8>, &str); 3] = [
        (
            clean(0),
            "0: s0: log 0 to 4, 1 block\n1: s1: compared 4 to 9, 1 block",
        ),
        (
            clean(5),
            "2: s2: log 4 to 6, 1 block\n3: s3: log 6 to 9, 1 block",
        ),
        (
            state(0, 0, 0, 5),
            "0: s0: log 0 to 4, 1 block\n2: s2: log 4 to 6, 1 block\n3: s3: log 6 to 9, 1 block",
        ),
    ];
    for (state, answer) in rows {
        let folder = Folder::new();
        shelf(&folder);
        folder.write("vol.state", &state);
        folder.line("plan vol 9 s0 s1 s2 s3").says(answer);
    }
}

#[test]
fn plan_in_json_and_with_nothing_to_do() {
    let folder = Folder::new();
    shelf(&folder);
    folder.write("vol.state", &clean(5));
    folder.line("plan vol 9 s0 s1 s2 s3 --json").says(
        "{\"command\":\"plan\",\"status\":0,\"target\":9,\"places\":[2,3],\"diffs\":[\
         {\"place\":2,\"file\":\"s2\",\"kind\":\"log\",\"p\":4,\"q\":6,\"n\":1},\
         {\"place\":3,\"file\":\"s3\",\"kind\":\"log\",\"p\":6,\"q\":9,\"n\":1}]}",
    );
    folder
        .line("plan vol 5 s0")
        .says("nothing to do: clean at 5 already");
    folder
        .line("plan vol 5 s0 --json")
        .says("{\"command\":\"plan\",\"status\":0,\"target\":5,\"places\":[],\"diffs\":[]}");
}

#[test]
fn restore_goes_along_the_plan() {
    let folder = Folder::new();
    shelf(&folder);
    folder.volume(4, 0, &state(0, 0, 0, 5));
    folder.line("restore vol 9 s0 s1 s2 s3").says(
        "0: s0: log 0 to 4, 1 block: dirty 4,4,5\n2: s2: log 4 to 6, 1 block: clean 6\n\
         3: s3: log 6 to 9, 1 block: clean 9\nvol: clean 9, 3 diffs applied",
    );
    assert_eq!(
        folder.read("vol"),
        written(&[0; 2048], &[(0, 1), (2, 3), (3, 4)])
    );
    assert_eq!(folder.read("vol.state"), clean(9));
    folder
        .line("restore vol 9 s0 s1 s2 s3")
        .says("vol: clean 9, 0 diffs applied");
    let names = ["s0", "s1", "s2", "s3", "vol", "vol.state"];
    assert_eq!(folder.names(), names);
}

#[test]
fn restore_in_json() {
    let folder = Folder::new();
    shelf(&folder);
    folder.volume(4, 0, &clean(0));
    folder.line("restore vol 4 s0 --json").says(
        "{\"command\":\"restore\",\"status\":0,\"volume\":\"vol\",\"applied\":1,\"diffs\":[\
         {\"place\":0,\"file\":\"s0\",\"kind\":\"log\",\"p\":0,\"q\":4,\"n\":1}],\
         \"state\":{\"kind\":\"settled\",\"b\":4,\"t\":4,\"e\":4,\"clean\":true,\"text\":\"clean 4\"}}",
    );
}

#[test]
fn the_lag_has_a_sign() {
    let folder = Folder::new();
    folder.write("vol.state", &clean(7));
    folder
        .line("lag vol 9")
        .says("-2: the volume is clean 7, 2 behind gid 9");
    folder
        .line("lag vol 7")
        .says("0: the volume is clean 7, at gid 7");
    folder
        .line("lag vol 0")
        .says("7: the volume is clean 7, 7 ahead of gid 0");
    folder.line("lag vol 9223372036854775807").says(
        "-9223372036854775800: the volume is clean 7, 9223372036854775800 behind gid 9223372036854775807",
    );
    folder.line("lag vol 9 --json").says(
        "{\"command\":\"lag\",\"status\":0,\"lag\":-2,\"target\":9,\"state\":{\"kind\":\"settled\",\"b\":7,\"t\":7,\
         \"e\":7,\"clean\":true,\"text\":\"clean 7\"}}",
    );
}

#[test]
fn every_command_has_help() {
    let folder = Folder::new();
    let whole = folder.line("--help");
    assert_eq!(whole.status, Some(0));
    for command in [
        "check", "state", "decide", "apply", "merge", "compare", "show", "plan", "restore", "lag",
    ] {
        assert!(whole.out.contains(&format!("\n  {command} ")), "{command}");
        let own = folder.line(&format!("{command} --help"));
        assert_eq!(own.status, Some(0));
        assert!(
            own.out.starts_with(&format!("minnow {command}: ")),
            "{command}"
        );
        assert!(
            own.out.contains(&format!("usage: minnow {command} ")),
            "{command}"
        );
    }
    folder
        .line("--version")
        .says(&format!("minnow {}", env!("CARGO_PKG_VERSION")));
}
