//! The driver as a program: every bent tool is found out, a right one is not, a share with the tool is clean, bad words are refused.

use std::path::Path;
use std::process::{Command, Output};

fn kills(words: &[&str]) -> Output {
    Command::new(env!("CARGO_BIN_EXE_kills"))
        .args(words)
        .output()
        .expect("the driver starts")
}

fn text(output: &Output) -> String {
    String::from_utf8_lossy(&output.stdout).into_owned()
}

/// The names behind `--bend` in the help.
fn bends() -> Vec<String> {
    let help = text(&kills(&["--help"]));
    let listed = help.lines().filter(|line| line.starts_with("      "));
    let name = |line: &str| line.split_whitespace().next().map(str::to_string);
    listed.filter_map(name).collect()
}

#[test]
fn a_bent_tool_is_found_out() {
    let bends = bends();
    assert!(bends.len() > 5 && bends[0] == "none", "{bends:?}");
    for bend in &bends[1..] {
        let output = kills(&["--bend", bend, "--rounds", "60"]);
        let text = text(&output);
        assert!(output.status.success(), "{bend}: {text}");
        assert!(
            text.contains("the bent tool was found out at seed"),
            "{bend}: {text}"
        );
    }
}

#[test]
fn a_right_stand_in_is_not_found_out() {
    let output = kills(&["--bend", "none", "--rounds", "12", "--from", "100"]);
    let text = text(&output);
    assert!(output.status.success(), "{text}");
    assert_eq!(text.lines().last(), Some("no fault"));
}

#[test]
fn a_share_with_the_tool_is_clean() {
    let tool = Path::new(env!("CARGO_BIN_EXE_kills")).with_file_name("minnow");
    if !tool.is_file() {
        println!("skipped: {} is not built", tool.display());
        return;
    }
    let output = kills(&["--rounds", "10", "--from", "200"]);
    let text = text(&output);
    assert!(output.status.success(), "{text}");
    assert_eq!(text.lines().last(), Some("no fault"));
}

#[test]
fn bad_words_are_refused() {
    for words in [
        &["--often"][..],
        &["--rounds"],
        &["--from", "-1"],
        &["--bend", "straight"],
        &["--tool", "/no/such/tool"],
        &["--stand-in", "none"],
    ] {
        let output = kills(words);
        assert_eq!(output.status.code(), Some(2), "{words:?}");
        assert!(output.stdout.is_empty(), "{words:?}");
    }
}
