//! Every refusal that a command can get: its number as the status, its name and what it means here. (10 and 17 cannot reach the
//! command line; their sentences are tested beside them.)

mod common;
use common::*;

/// Refused: the status, the line, and nothing in the folder is touched.
#[track_caller]
fn refused(folder: &Folder, line: &str, status: i32, said: &str) {
    let before: Vec<_> = folder
        .names()
        .iter()
        .map(|name| (name.clone(), folder.read(name)))
        .collect();
    folder.line(line).fails(status, said);
    let after: Vec<_> = folder
        .names()
        .iter()
        .map(|name| (name.clone(), folder.read(name)))
        .collect();
    assert!(before == after, "{line}: a file changed");
}

fn with_diff(bytes: &[u8]) -> Folder {
    let folder = Folder::new();
    folder.volume(64, 0, &clean(7)).write("d", bytes);
    folder
}

/// Refusals 1 to 6 come from every command that reads a diff.
#[track_caller]
fn unsound(bytes: &[u8], status: i32, said: &str) {
    let folder = with_diff(bytes);
    folder.write("good", &diff(LOG, 0, 1, &[]));
    let lines = [
        "check d",
        "decide vol d",
        "apply vol d",
        "merge d good -o out",
        "merge good d -o out",
        "show vol d 0",
        "plan vol 9 good d",
        "restore vol 9 good d",
    ];
    for line in lines {
        refused(&folder, line, status, &format!("d: {status} {said}"));
    }
}

#[test]
fn cut_off() {
    unsound(b"WD\0\0\x05", 1, "CutOff: 5 bytes, a head alone has 24");
    unsound(b"", 1, "CutOff: 0 bytes, a head alone has 24");
    let whole = diff(LOG, 5, 9, &[(1, 1), (2, 2)]);
    unsound(
        &whole[..1059],
        1,
        "CutOff: 1059 bytes, under the 24 + 518 * 2 = 1060 of the diff",
    );
}

#[test]
fn bad_mark() {
    let mut bytes = diff(LOG, 5, 9, &[(1, 1), (2, 2)]);
    bytes[542] = 0;
    unsound(
        &bytes,
        2,
        "BadMark: record 1, at byte 542, opens with 00 42 instead of 57 42",
    );
    bytes[1] = 0x45;
    unsound(
        &bytes,
        2,
        "BadMark: the file opens with 57 45 instead of 57 44: it is no diff",
    );
}

#[test]
fn bad_head() {
    unsound(
        &head(2, 5, 9, 0),
        3,
        "BadHead: kind 2, only 0 (log) and 1 (compared) exist",
    );
    let mut spare = head(LOG, 5, 9, 0);
    spare[3] = 1;
    unsound(&spare, 3, "BadHead: the spare byte is 1, not zero");
    let large = 9_223_372_036_854_775_808;
    let said = "BadHead: gid 9223372036854775808 is above 9223372036854775807";
    unsound(&head(LOG, 5, large, 0), 3, said);
    unsound(
        &head(LOG, 9, 9, 0),
        3,
        "BadHead: it would lead from gid 9 to 9, not forward",
    );
}

#[test]
fn too_many() {
    let said = "TooMany: the head counts 65537 blocks, at most 65536 are allowed";
    unsound(&head(LOG, 5, 9, 65_537), 4, said);
}

#[test]
fn bad_order() {
    let said = "BadOrder: record 1, at byte 542, names block 4 after block 4";
    unsound(&diff(LOG, 5, 9, &[(4, 1), (4, 2)]), 5, said);
    let said = "BadOrder: record 0, at byte 24, names block 65536, above 65535";
    unsound(&diff(LOG, 5, 9, &[(65_536, 1)]), 5, said);
}

#[test]
fn tail() {
    let mut bytes = diff(LOG, 5, 9, &[(1, 1), (2, 2)]);
    bytes.extend([0; 3]);
    unsound(
        &bytes,
        6,
        "Tail: 3 bytes beyond the 24 + 518 * 2 of the diff",
    );
    let mut bytes = head(LOG, 5, 9, 0);
    bytes.push(0);
    unsound(
        &bytes,
        6,
        "Tail: 1 byte beyond the 24 + 518 * 0 of the diff",
    );
}

#[test]
fn bad_state() {
    let (mut spare, mut mark) = (clean(7), clean(7));
    spare[3] = 4;
    mark[0] = 0;
    let rows: [(Vec<u8>, &str); 8] = [
        (b"WS".to_vec(), "2 bytes, a state record has 28"),
        (vec![0; 1000], "1000 bytes, a state record has 28"),
        (
            mark,
            "the file opens with 00 53 instead of 57 53: it is no state",
        ),
        (spare, "the spare byte is 4, not zero"),
        (state(3, 7, 7, 7), "kind 3, only 0, 1 and 2 exist"),
        (
            state(0, 7, 8, 9),
            "a settled state has t = b ≤ e; here b = 7, t = 8, e = 9",
        ),
        (
            state(2, 7, 8, 9),
            "a pair state has b < t = e; here b = 7, t = 8, e = 9",
        ),
        (
            state(1, 7, 8, 1 << 63),
            "gid 9223372036854775808 is above 9223372036854775807",
        ),
    ];
    for (record, said) in rows {
        let folder = with_diff(&diff(LOG, 5, 9, &[]));
        folder.write("vol.state", &record);
        let said = format!("vol.state: 7 BadState: {said}");
        for line in [
            "state show vol.state",
            "decide vol d",
            "apply vol d",
            "plan vol 9 d",
            "restore vol 9 d",
            "lag vol 9",
        ] {
            refused(&folder, line, 7, &said);
        }
    }
    let folder = Folder::new();
    let said = "s: 7 BadState: a span state has b < t ≤ e; here b = 4, t = 4, e = 9";
    refused(&folder, "state new s --span 4 4 9", 7, said);
}

#[test]
fn bad_image() {
    let rows: [(u64, &str); 4] = [
        (0, "the image has no bytes"),
        (1000, "1000 bytes are 1 block of 512 and 488 bytes"),
        (
            33_554_944,
            "33554944 bytes, an image has at most 65536 blocks, 33554432 bytes",
        ),
        (
            1 << 40,
            "1099511627776 bytes, an image has at most 65536 blocks, 33554432 bytes",
        ),
    ];
    for (length, said) in rows {
        let folder = Folder::new();
        folder
            .sparse("vol", b"", length)
            .write("vol.state", &clean(7));
        folder
            .write("d", &diff(LOG, 5, 9, &[]))
            .write("one", &[0; 512]);
        let said = format!("vol: 8 BadImage: {said}");
        for line in [
            "decide vol d",
            "apply vol d",
            "show vol d 0",
            "restore vol 9 d",
            "restore vol 7 d",
            "compare vol one --from 1 --to 2 -o out",
            "compare one vol --from 1 --to 2 -o out",
        ] {
            folder.line(line).fails(8, &said);
        }
        assert_eq!(folder.names(), ["d", "one", "vol", "vol.state"]);
    }
    let folder = Folder::new();
    folder.write("one", &[0; 512]).write("two", &[0; 1024]);
    let said = "two: 8 BadImage: 1024 bytes, one has 512";
    refused(&folder, "compare one two --from 1 --to 2 -o out", 8, said);
}

#[test]
fn outside() {
    let folder = with_diff(&diff(LOG, 5, 9, &[(1, 1), (70, 7), (80, 8)]));
    let said = "d: 9 Outside: the diff names block 70, the volume has 64";
    for line in [
        "decide vol d",
        "apply vol d",
        "show vol d 1",
        "restore vol 9 d",
    ] {
        refused(&folder, line, 9, said);
    }
    let said = "vol: 9 Outside: block 64 is asked for, the volume has 64";
    folder.write("d", &diff(LOG, 5, 9, &[]));
    refused(&folder, "show vol d 64", 9, said);
    let said = "vol: 9 Outside: block 18446744073709551615 is asked for, the volume has 64";
    refused(&folder, "show vol d 18446744073709551615", 9, said);
}

/// A diff of the plan that does not fit is found before the first one moves a block.
#[test]
fn restore_moves_nothing_if_a_later_diff_is_outside() {
    let folder = with_diff(&diff(LOG, 5, 8, &[(1, 1)]));
    folder.write("later", &diff(LOG, 8, 9, &[(64, 1)]));
    let said = "later: 9 Outside: the diff names block 64, the volume has 64";
    refused(&folder, "restore vol 9 d later", 9, said);
    folder
        .line("restore vol 8 d later")
        .says("0: d: log 5 to 8, 1 block: clean 8\nvol: clean 8, 1 diff applied");
}

/// Rows P2, P3, P5, P6, P9, P10, P11 of the night book.
#[test]
fn not_accepted() {
    let rows: [(Vec<u8>, Vec<u8>, i32, &str); 7] = [
        (clean(7), head(LOG, 8, 9, 0), 12, "12 Gap: the diff starts at gid 8, the volume stands at 7"),
        (clean(7), head(LOG, 3, 7, 0), 11, "11 Behind: the diff ends at gid 7, the volume stands at 7 already"),
        (
            clean(7),
            head(COMPARED, 5, 9, 0),
            14,
            "14 NotExact: a compared diff from 5 to 9 goes onto clean 5 or pair 5,9,9 alone, the volume is clean 7",
        ),
        (clean(7), head(COMPARED, 5, 7, 0), 11, "11 Behind: the diff ends at gid 7, the volume stands at 7 already"),
        (pair(7, 9), head(LOG, 5, 8, 0), 13, "13 Short: the diff ends at gid 8, an apply to 9 was cut: pair 7,9,9"),
        (pair(7, 12), head(LOG, 8, 10, 0), 12, "12 Gap: the diff starts at gid 8, the volume stands at 7"),
        (
            pair(7, 9),
            head(COMPARED, 7, 10, 0),
            14,
            "14 NotExact: a compared diff from 7 to 10 goes onto clean 7 or pair 7,10,10 alone, the volume is pair 7,9,9",
        ),
    ];
    for (state, diff, status, said) in rows {
        let folder = with_diff(&diff);
        folder.write("vol.state", &state);
        refused(&folder, "decide vol d", status, &format!("d: {said}"));
        refused(&folder, "apply vol d", status, &format!("d: {said}"));
    }
}

#[test]
fn not_merged() {
    let folder = Folder::new();
    folder
        .write("log", &head(LOG, 1, 5, 0))
        .write("compared", &head(COMPARED, 5, 9, 0));
    folder.write("early", &head(LOG, 0, 2, 0));
    let said = "compared: 15 Compared: a compared diff (5 to 9); only log diffs are merged";
    refused(&folder, "merge log compared -o out", 15, said);
    refused(&folder, "merge compared log -o out", 15, said);
    let said = "early: 16 Apart: the first diff ends at gid 5, this one starts at 0";
    refused(&folder, "merge log early -o out", 16, said);
}

#[test]
fn not_compared() {
    let folder = Folder::new();
    folder.write("old", &[0; 512]).write("new", &[1; 512]);
    let said = "new: 3 BadHead: it would lead from gid 9 to 5, not forward";
    refused(&folder, "compare old new --from 9 --to 5 -o out", 3, said);
    let said = "new: 3 BadHead: gid 9223372036854775808 is above 9223372036854775807";
    refused(
        &folder,
        "compare old new --from 9 --to 9223372036854775808 -o out",
        3,
        said,
    );
}

#[test]
fn shelf_full() {
    let folder = Folder::new();
    folder
        .volume(1, 0, &clean(7))
        .write("d", &head(LOG, 5, 9, 0));
    for command in ["plan", "restore"] {
        let line = format!("{command} vol 9 {}", "d ".repeat(97));
        refused(
            &folder,
            &line,
            18,
            "minnow: 18 ShelfFull: 97 diffs, a shelf holds 96",
        );
    }
    let line = format!("plan vol 9 {}", "d ".repeat(96));
    folder.line(&line).says("0: d: log 5 to 9, 0 blocks");
}

#[test]
fn no_chain() {
    let rows: [(Vec<u8>, u64, &str); 4] = [
        (clean(0), 5, "from clean 0 to clean 5; none of them ends at 5"),
        (clean(3), 6, "from clean 3 to clean 6; none of them takes the volume on from gid 3"),
        (
            state(0, 4, 4, 10),
            9,
            "from dirty 4,4,10 to clean 9; the volume has bytes up to gid 10, and no diff leads back",
        ),
        (clean(0), 9, "from clean 0 to clean 9"),
    ];
    for (state, target, said) in rows {
        let folder = Folder::new();
        folder.volume(1, 0, &state);
        folder
            .write("a", &head(LOG, 0, 2, 0))
            .write("b", &head(LOG, 4, 6, 0))
            .write("c", &head(LOG, 6, 9, 0));
        let said = format!("vol.state: 19 NoChain: no list of the 3 diffs leads {said}");
        for command in ["plan", "restore"] {
            refused(&folder, &format!("{command} vol {target} a b c"), 19, &said);
        }
    }
}

#[test]
fn no_chain_of_one() {
    let folder = with_diff(&head(LOG, 5, 8, 0));
    let said = "vol.state: 19 NoChain: no list of the 1 diff leads from clean 7 to clean 9; none of them ends at 9";
    refused(&folder, "plan vol 9 d", 19, said);
}

#[test]
fn bad_gid() {
    let folder = with_diff(&head(LOG, 5, 9, 0));
    let said = "minnow: 20 BadGid: the target gid 9223372036854775808 is above 9223372036854775807";
    for line in [
        "plan vol 9223372036854775808 d",
        "restore vol 9223372036854775808 d",
        "lag vol 9223372036854775808",
    ] {
        refused(&folder, line, 20, said);
    }
}

#[test]
fn refusals_in_json() {
    let folder = with_diff(&head(LOG, 8, 9, 0));
    let answer = folder.line("apply vol d --json");
    assert_eq!(answer.status, Some(12));
    assert_eq!(answer.err, "");
    assert_eq!(
        answer.out,
        "{\"command\":\"apply\",\"status\":12,\"refusal\":\"Gap\",\"file\":\"d\",\
         \"message\":\"the diff starts at gid 8, the volume stands at 7\"}\n"
    );
    let answer = folder.line("lag vol 9223372036854775808 --json");
    let opening = "{\"command\":\"lag\",\"status\":20,\"refusal\":\"BadGid\",\"message\":";
    assert!(answer.out.starts_with(opening), "{answer:?}");
    folder.line("apply vol d --quiet").fails(
        12,
        "d: 12 Gap: the diff starts at gid 8, the volume stands at 7",
    );
}

/// The answer for a file that is longer than anything sound is that for the whole file, with little memory.
#[test]
fn huge_files_are_answered_in_little_memory() {
    let rows: [(Vec<u8>, i32, &str); 5] = [
        (
            head(LOG, 5, 9, 0),
            6,
            "Tail: 1099511627752 bytes beyond the 24 + 518 * 0 of the diff",
        ),
        (
            head(LOG, 5, 9, 65_536),
            6,
            "Tail: 1099477680104 bytes beyond the 24 + 518 * 65536 of the diff",
        ),
        (
            head(LOG, 5, 9, 65_537),
            4,
            "TooMany: the head counts 65537 blocks, at most 65536 are allowed",
        ),
        (
            head(LOG, 9, 5, 0),
            3,
            "BadHead: it would lead from gid 9 to 5, not forward",
        ),
        (
            vec![0; 24],
            2,
            "BadMark: the file opens with 00 00 instead of 57 44: it is no diff",
        ),
    ];
    for (start, status, said) in rows {
        let folder = with_diff(b"");
        folder.sparse("d", &start, 1 << 40);
        let answer = folder.shell("ulimit -v 65536; minnow check d");
        answer.fails(status, &format!("d: {status} {said}"));
        let answer = folder.shell("ulimit -v 65536; minnow apply vol d");
        answer.fails(status, &format!("d: {status} {said}"));
    }
    let folder = with_diff(&head(LOG, 5, 9, 0));
    folder.sparse("vol.state", &clean(7), 1 << 40);
    let said = "vol.state: 7 BadState: 1099511627776 bytes, a state record has 28";
    folder
        .shell("ulimit -v 65536; minnow apply vol d")
        .fails(7, said);
}
