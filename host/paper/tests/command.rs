//! The program `paper`: good input, and what bad input leads to.
use std::io::Write;
use std::path::Path;
use std::process::{Command, Output, Stdio};

use paper::FIRST;

const PAPER: &str = env!("CARGO_BIN_EXE_paper");

/// A key program that does `paper key` and changes its lines by sed, as the
/// environment says.
const STAND_IN: &str = concat!(env!("CARGO_MANIFEST_DIR"), "/tests/stand-in");

fn paper(arguments: &[&str], input: &[u8]) -> Output {
    paper_beside("", arguments, input)
}

/// With this change of the stand-in's lines.
fn paper_beside(change: &str, arguments: &[&str], input: &[u8]) -> Output {
    let mut child = Command::new(PAPER)
        .args(arguments)
        .env("PAPER", PAPER)
        .env("SIDE", FIRST)
        .env("CHANGE", change)
        .stdin(Stdio::piped())
        .stdout(Stdio::piped())
        .stderr(Stdio::piped())
        .spawn()
        .unwrap();
    // It may end without reading: then the pipe is closed already.
    let _ = child.stdin.take().unwrap().write_all(input);
    child.wait_with_output().unwrap()
}

fn good(arguments: &[&str], input: &[u8]) -> Vec<u8> {
    let output = paper(arguments, input);
    let message = String::from_utf8_lossy(&output.stderr);
    assert!(output.status.success(), "{arguments:?}: {message}");
    output.stdout
}

/// The exit status and the message of one that fails, which prints nothing.
fn bad(arguments: &[&str], input: &[u8]) -> (i32, String) {
    failure(arguments, &paper(arguments, input))
}

fn failure(arguments: &[&str], output: &Output) -> (i32, String) {
    assert_eq!(output.stdout, b"", "{arguments:?}");
    let message = String::from_utf8(output.stderr.clone()).unwrap();
    (output.status.code().unwrap(), message)
}

fn stored() -> String {
    let folder = Path::new(env!("CARGO_MANIFEST_DIR")).join("../../papers");
    folder.to_str().unwrap().into()
}

#[test]
fn a_paper_is_written_read_and_marked() {
    let text = b"# the example\nsubmit 1 81 8\n\nabort 1 81 0 # of all\n";
    let paper = good(&["write"], text);
    assert_eq!(script::hex(&paper), "00181000000000405018100000000000");
    assert_eq!(good(&["read"], &paper), b"submit 1 81 8\nabort 1 81 0\n");
    assert_eq!(good(&["key"], &paper), b"0 0 P 1\n1 0 A 0\n");
    for side in paper::SIDES {
        assert_eq!(
            good(&["key", "--side", side], &paper),
            b"0 0 P 1\n1 0 A 0\n"
        );
    }
    assert_eq!(good(&["key"], &paper[1..]), b"56\n");
}

#[test]
fn bad_text_ends_with_2_and_nothing_is_written() {
    for (text, message) in [
        (
            &b"submit 1 81 8\nsubmit 1 81 131072\n"[..],
            "line 2: length: `131072` is out of range",
        ),
        (
            b"submit 1 81 8\nwithdraw 1 81 0\n",
            "line 2: unknown word `withdraw`",
        ),
        (b"submit 1 81 8\n\xff\n", "line 2: not UTF-8 text"),
    ] {
        let (status, told) = bad(&["write"], text);
        assert_eq!((status, told), (2, format!("paper: {message}\n")));
    }
}

#[test]
fn bad_arguments_end_with_2() {
    for arguments in [
        &[][..],
        &["write", "now"],
        &["key", "--side", "left"],
        &["generate", "1"],
        &["generate", "1", "8193"],
        &["generate", "1", "-1"],
        &["compare", "1", "10", "--key"],
        &["compare", "1", "10", "--key", "no/such/program"],
        &["check", "no/such/program", "."],
        &["check", PAPER, "no/such/folder"],
    ] {
        let (status, told) = bad(arguments, b"");
        assert_eq!(status, 2, "{arguments:?}: {told}");
        assert!(told.starts_with("paper: "), "{arguments:?}: {told}");
    }
}

#[test]
fn a_seeds_paper_is_the_same_again() {
    let paper = good(&["generate", "7", "100"], b"");
    assert_eq!(paper.len(), 800);
    assert_eq!(good(&["generate", "7", "100"], b""), paper);
    let table = String::from_utf8(good(&["generate", "7", "100", "--table"], b"")).unwrap();
    assert!(table.starts_with("papers "), "{table}");
}

#[test]
fn a_program_is_compared_and_checked() {
    let out = good(&["compare", "1", "3000", "--key", STAND_IN], b"");
    let out = String::from_utf8(out).unwrap();
    assert!(out.contains("the key program, seed 1"), "{out}");
    let out = good(&["check", STAND_IN, &stored()], b"");
    assert!(out.starts_with(b"paper check: "));
}

#[test]
fn a_program_that_is_wrong_is_found() {
    let wrong = |arguments: &[&str]| {
        let output = paper_beside("s/ 43 A/ 43 -/", arguments, b"");
        failure(arguments, &output)
    };
    let (status, told) = wrong(&["compare", "1", "30000", "--key", STAND_IN]);
    assert_eq!(status, 1, "{told}");
    assert!(told.contains("cut down to 3 events:\nsubmit "), "{told}");
    assert!(told.trim_end().ends_with("#   2 43 - 0"), "{told}");
    let (status, told) = wrong(&["compare", "1", "30000", "--uncut", "--key", STAND_IN]);
    assert_eq!(status, 1, "{told}");
    assert!(told.contains("; shown by "), "{told}");
    let (status, told) = wrong(&["check", STAND_IN, &stored()]);
    assert_eq!(status, 1, "{told}");
    assert!(told.contains("letters.paper: line "), "{told}");
}

#[test]
fn a_program_that_fails_is_found() {
    let (status, told) = bad(&["check", "/bin/false", &stored()], b"");
    assert_eq!(status, 1);
    assert!(told.contains("ended by exit status: 1"), "{told}");
}
