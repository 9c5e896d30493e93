//! C programs that include the header and link the archive: one that opens a
//! session and prints what the header says, one that makes every call, and that
//! one on a painted stack.
use std::path::{Path, PathBuf};
use std::process::Command;

use tapewoad::calls::{
    ANSWER_WORDS, BUS_WORDS, LIST_WORDS, ROW_WORDS, SESSION_WORDS, Store, VERSION,
};
use tapewoad::library;

/// Compiles a program of tests/c with every warning an error.
fn compiled(name: &str) -> PathBuf {
    let package = Path::new(env!("CARGO_MANIFEST_DIR"));
    let program = Path::new(env!("CARGO_TARGET_TMPDIR")).join(name);
    let compiler = std::env::var("CC").unwrap_or("cc".into());
    let status = Command::new(compiler)
        .args(["-std=c99", "-pedantic", "-Wall", "-Wextra", "-Werror", "-I"])
        .arg(package.join("../../include"))
        .arg(package.join("tests/c").join(name).with_extension("c"))
        .arg("-pthread")
        .args(["-L", env!("TAPEWOAD_FOLDER"), "-ltapewoad", "-o"])
        .arg(&program)
        .status();
    assert!(status.expect("a C compiler").success(), "{name}.c");
    program
}

/// What a program of tests/c prints.
fn printed(name: &str) -> String {
    let output = Command::new(compiled(name)).output().unwrap();
    assert!(output.status.success(), "{name}");
    String::from_utf8(output.stdout).unwrap()
}

#[test]
fn a_c_program_opens_a_session_and_reads_it() {
    let [session, bus, row] = [SESSION_WORDS, BUS_WORDS, ROW_WORDS];
    let (out, lists) = (ANSWER_WORDS, LIST_WORDS);
    let (rows, row_bytes) = (Store::ROWS, Store::ROW_BYTES);
    let version = library::version();
    let expected = format!(
        "version {version}\nheader {VERSION}\nsession {session}\nbus {bus}\nrow {row}\nout {out}\n\
         lists {lists}\nrows {rows}\nrow bytes {row_bytes}\nopen 0\nanswer 1\nstatus 0\nanswer 11\n\
         number 7\ncount 0\nanswer 7\nheld 0\nunknown 1\nno report 1\n"
    );
    assert_eq!(printed("open"), expected);
}

/// The lines of calls.stdout are written by hand, from the papers and
/// docs/CALLS.md.
const EVERY_CALL: &str = include_str!("c/calls.stdout");

#[test]
fn a_c_program_makes_every_call() {
    assert_eq!(printed("calls"), EVERY_CALL);
}

/// No proof bounds the stack; docs/TRUST.md has what was measured. The bound
/// leaves room for other compilers.
#[test]
fn a_call_uses_little_stack() {
    let printed = printed("stack");
    let measured = printed.strip_prefix(EVERY_CALL).expect("the same calls");
    let [apply, read] = ["apply ", "read "].map(|name| {
        let bytes = measured.lines().find_map(|line| line.strip_prefix(name));
        bytes.unwrap().parse::<usize>().unwrap()
    });
    for used in [apply, read] {
        assert!((1024..32 * 1024).contains(&used), "{used} bytes");
    }
}
