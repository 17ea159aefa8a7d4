//! The driver as a program: its planted faults are caught, a share of rounds is clean and repeatable, bad words are refused.

use std::process::{Command, Output};

fn fuzz(words: &[&str]) -> Output {
    Command::new(env!("CARGO_BIN_EXE_fuzz"))
        .args(words)
        .output()
        .expect("the driver starts")
}

/// What it printed, without the line that tells the time.
fn lines(output: &Output) -> Vec<String> {
    let text = String::from_utf8_lossy(&output.stdout);
    let timeless = text.lines().filter(|line| !line.contains("seeds from"));
    timeless.map(str::to_string).collect()
}

#[test]
fn planted_faults_are_caught() {
    let output = fuzz(&["--self-test"]);
    let lines = lines(&output);
    assert!(output.status.success(), "{lines:#?}");
    assert!(lines.len() > 30, "{lines:#?}");
    assert!(lines.iter().all(|line| !line.starts_with("WRONG")));
}

#[test]
fn a_share_is_clean_and_repeatable() {
    let words = ["--from", "1000", "--rounds", "5000"];
    let (once, again) = (fuzz(&words), fuzz(&words));
    assert!(once.status.success(), "{:#?}", lines(&once));
    assert_eq!(lines(&once), lines(&again));
    assert_eq!(lines(&once).last().map(String::as_str), Some("no fault"));
}

#[test]
fn bad_words_are_refused() {
    for words in [&["--often"][..], &["--rounds"], &["--from", "-1"]] {
        let output = fuzz(words);
        assert_eq!(output.status.code(), Some(2), "{words:?}");
        assert!(output.stdout.is_empty(), "{words:?}");
    }
}
