//! The driver as a program: good input, and what bad input leads to.
#![cfg(feature = "rust")]
use std::io::Write;
use std::process::{Command, Output, Stdio};

fn drive(arguments: &[&str], input: &[u8]) -> Output {
    let mut driver = Command::new(env!("CARGO_BIN_EXE_driver"))
        .args(arguments)
        .stdin(Stdio::piped())
        .stdout(Stdio::piped())
        .stderr(Stdio::piped())
        .spawn()
        .unwrap();
    // The driver may end without reading: then the pipe is closed already.
    let _ = driver.stdin.take().unwrap().write_all(input);
    driver.wait_with_output().unwrap()
}

fn stdout(output: &Output) -> String {
    String::from_utf8(output.stdout.clone()).unwrap()
}

fn failure(input: &[u8]) -> String {
    let output = drive(&[], input);
    assert!(!output.status.success());
    String::from_utf8(output.stderr).unwrap()
}

const OPEN: &str = "open session=1 seq=0 rev=0 ports=1\n";

#[test]
fn one_answer_line_a_call() {
    let output = drive(&[], format!("# a comment\n\n{OPEN}dump\n").as_bytes());
    assert!(output.status.success());
    assert_eq!(
        stdout(&output),
        "ok | backend none reads=0 | Closed held=0 bytes=0\n\
         dump session=1 next=0 rev=0 stall=- rows=0 ports=1:1/- | backend none reads=0 | Closed held=0 bytes=0\n"
    );
}

#[test]
fn answers_before_a_bad_line_are_printed_and_the_line_is_named() {
    let output = drive(&[], format!("{OPEN}# two\nfrobnicate\ndump\n").as_bytes());
    assert!(!output.status.success());
    assert_eq!(stdout(&output).lines().count(), 1);
    let message = String::from_utf8(output.stderr).unwrap();
    assert_eq!(message, "driver: line 3: unknown verb `frobnicate`\n");
}

#[test]
fn bad_fields_are_named_with_their_line() {
    for (line, message) in [
        ("cancel", "line 2: `cancel` lacks the field `id`"),
        (
            "raw slot=256 set=1",
            "line 2: field `slot`: `256` is out of range",
        ),
        (
            "raw slot=1 set=1 slot=2",
            "line 2: field `slot` is given twice",
        ),
    ] {
        let text = failure(format!("{OPEN}{line}\n").as_bytes());
        assert!(text.contains(message), "{text}");
    }
}

#[test]
fn calls_without_a_rust_side_stop_the_run() {
    let many = vec!["81:bulk"; 31].join(",");
    for (line, message) in [
        (
            format!("endpoints slot=1 list={many}"),
            "refusal 53 has no Rust side",
        ),
        (
            "withdraw id=1.0.0".into(),
            "`withdraw` is for the port's side only",
        ),
        (
            "store rows=1 bytes=1".into(),
            "`store` is for the port's side only",
        ),
    ] {
        let text = failure(format!("{OPEN}{line}\n").as_bytes());
        assert!(
            text.starts_with("driver: line 2: ") && text.contains(message),
            "{text}"
        );
    }
}

#[test]
fn a_call_before_the_opening_is_an_error() {
    assert!(failure(b"dump\n").contains("line 1: no session is open"));
}

#[test]
fn text_that_is_not_utf8_is_named_with_its_line() {
    let input = [OPEN.as_bytes(), b"dump\n\xff\n"].concat();
    assert!(failure(&input).contains("line 3: not UTF-8"));
}

#[test]
fn unknown_options_sides_and_files_are_errors() {
    for arguments in [
        &["--fast"][..],
        &["--side"],
        &["--side", "left"],
        &["no-such-file.script"],
        &["a", "b"],
    ] {
        let output = drive(arguments, b"");
        assert!(!output.status.success(), "{arguments:?}");
        assert!(output.stderr.starts_with(b"driver: "), "{arguments:?}");
    }
}
