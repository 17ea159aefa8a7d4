//! `minnow plan --svg`: what is drawn, when nothing is, and what is never replaced.

mod common;
use common::*;
use std::fs;

/// The paper's shelf: log 0 to 4, compared 4 to 9, log 4 to 6, log 6 to 9.
fn ready(state: &[u8]) -> Folder {
    let folder = Folder::new();
    folder
        .volume(4, 0, state)
        .write("s0", &diff(LOG, 0, 4, &[(0, 1)]))
        .write("s1", &diff(COMPARED, 4, 9, &[(1, 2)]))
        .write("s2", &diff(LOG, 4, 6, &[(2, 3)]))
        .write("s3", &diff(LOG, 6, 9, &[(3, 4)]));
    folder
}

fn picture(folder: &Folder, name: &str) -> String {
    let svg = String::from_utf8(folder.read(name)).expect("a picture in UTF-8");
    assert!(
        svg.starts_with("<svg ") && svg.ends_with("</svg>\n"),
        "{svg}"
    );
    svg
}

#[test]
fn the_plan_is_drawn_and_the_answer_stays() {
    let rows: [(Vec<u8>, &str, &[usize]); 3] = [
        (clean(0), "clean 0", &[0, 1]),
        (clean(5), "clean 5", &[2, 3]),
        (state(0, 0, 0, 5), "dirty 0,0,5", &[0, 2, 3]),
    ];
    for (state, named, places) in rows {
        let folder = ready(&state);
        let answer = folder.line("plan vol 9 s0 s1 s2 s3");
        folder
            .line("plan vol 9 s0 s1 s2 s3 --svg p.svg")
            .says(answer.out.trim_end());
        let svg = picture(&folder, "p.svg");
        assert!(svg.contains(&format!(">volume: {named}</text>")));
        assert!(svg.contains("target gid 9"));
        for place in 0..4 {
            let order = places.iter().position(|used| *used == place);
            let said = order.map(|at| format!("; number {} of the plan</title>", at + 1));
            let row = svg
                .split(&format!("<title>{place}: s{place}: "))
                .nth(1)
                .expect("a row");
            let title = row.split_inclusive("</title>").next().expect("a title");
            match said {
                Some(said) => assert!(title.ends_with(&said), "{title}"),
                None => assert!(!title.contains("of the plan"), "{title}"),
            }
        }
        folder
            .line("plan vol 9 s0 s1 s2 s3 --svg again.svg --quiet")
            .is_silent();
        assert_eq!(folder.read("again.svg"), svg.as_bytes());
    }
}

#[test]
fn a_picture_that_exists_is_replaced_only_with_force() {
    let folder = ready(&clean(0));
    folder.write("p.svg", b"mine");
    let said = "p.svg: exists already; --force replaces a regular file";
    folder.line("plan vol 9 s0 s1 --svg p.svg").fails(73, said);
    assert_eq!(folder.read("p.svg"), b"mine");
    let answer = folder.line("plan vol 9 s0 s1 --svg p.svg --force --json");
    assert_eq!(answer.status, Some(0));
    assert!(answer.out.ends_with(",\"svg\":\"p.svg\"}\n"), "{answer:?}");
    picture(&folder, "p.svg");
    let said = "minnow: --force goes with --svg; see minnow plan --help";
    folder.line("plan vol 9 s0 s1 --force").fails(64, said);
    folder
        .line("plan vol 9 s0 s1 --svg no/p.svg")
        .fails_with(73, "no: cannot open the folder");
}

#[test]
fn no_chain_is_drawn_without_a_plan() {
    let folder = ready(&clean(0));
    let line = "plan vol 5 s0 s1 s2 s3 --svg p.svg";
    folder.line(line).fails_with(19, "vol.state: 19 NoChain");
    let svg = picture(&folder, "p.svg");
    assert!(svg.contains("no plan reaches gid 5"));
    assert!(!svg.contains("of the plan"));
    let answer = folder.line(&format!("{line} --force --json"));
    assert_eq!(answer.status, Some(19));
    assert!(answer.out.ends_with(",\"svg\":\"p.svg\"}\n"), "{answer:?}");
}

#[test]
fn any_other_refusal_draws_nothing() {
    let folder = ready(&clean(0));
    folder
        .write("cut", &head(LOG, 0, 4, 1))
        .write("other", &state(0, 4, 3, 2))
        .write("p.svg", b"mine");
    let full = format!("plan vol 9 {}", "s0 ".repeat(97));
    let rows = [
        ("plan vol 9 s0 cut", 1),
        ("plan vol 9 s0 --state other", 7),
        ("plan vol 9223372036854775808 s0", 20),
        (&*full, 18),
    ];
    for (line, status) in rows {
        let answer = folder.line(&format!("{line} --svg new.svg"));
        assert_eq!(answer.status, Some(status), "{answer:?}");
        assert!(!folder.path("new.svg").exists(), "{line}");
        let answer = folder.line(&format!("{line} --svg p.svg --force --json"));
        assert_eq!(answer.status, Some(status), "{answer:?}");
        assert!(!answer.out.contains("svg"), "{answer:?}");
        assert_eq!(folder.read("p.svg"), b"mine", "{line}");
    }
}

#[test]
fn neither_an_input_nor_the_volume_is_ever_replaced() {
    let folder = ready(&clean(0));
    fs::hard_link(folder.path("vol"), folder.path("same")).expect("a link");
    let before: Vec<Vec<u8>> = folder
        .names()
        .iter()
        .map(|name| folder.read(name))
        .collect();
    for (name, what) in [
        ("vol", "volume vol"),
        ("same", "volume vol"),
        ("vol.state", "state vol.state"),
        ("s1", "diff s1"),
    ] {
        let said = format!("{name}: the output is the same file as the {what}");
        let line = format!("plan vol 9 s0 s1 --svg {name} --force");
        folder.line(&line).fails(64, &said);
    }
    let after: Vec<Vec<u8>> = folder
        .names()
        .iter()
        .map(|name| folder.read(name))
        .collect();
    assert_eq!(before, after);
}

/// The volume is not read: a picture is drawn where there is none.
#[test]
fn the_volume_need_not_be_there() {
    let folder = ready(&clean(0));
    fs::remove_file(folder.path("vol")).expect("a volume to remove");
    assert_eq!(folder.line("plan vol 9 s0 s1 --svg p.svg").status, Some(0));
    picture(&folder, "p.svg");
}

#[test]
fn names_of_files_stay_text() {
    let folder = ready(&clean(0));
    let name = "a<b>&\"c'\u{1b}[2J\n.diff";
    folder.write(name, &diff(LOG, 0, 9, &[]));
    let answer = folder.run(&["plan", "vol", "9", name, "--svg", "p.svg"]);
    assert_eq!(answer.status, Some(0), "{answer:?}");
    let svg = picture(&folder, "p.svg");
    assert!(
        svg.contains("a&lt;b&gt;&amp;&quot;c&apos;\\u{1b}[2J\\n.diff"),
        "{svg}"
    );
    assert!(!svg.contains('\u{1b}') && !svg.contains("<b>"));
}
