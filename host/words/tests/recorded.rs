//! The program `replay` has the calls and the answers that the Rust gives today.
use std::fs;
use std::path::{Path, PathBuf};

use script::first_difference;
use words::Recording;

fn recorded() -> PathBuf {
    Path::new(env!("CARGO_MANIFEST_DIR")).join("../recorded")
}

fn recording() -> Recording {
    let list = fs::read_to_string(recorded().join("words.list")).unwrap();
    Recording::new(&recorded(), &list).unwrap()
}

#[test]
fn the_program_has_what_is_recorded() {
    let recording = recording();
    for (name, text) in [("stdin", recording.stdin), ("stdout", recording.stdout)] {
        let path = recorded().join("../../crates/replay").join(name);
        let kept = fs::read_to_string(&path).unwrap();
        assert_eq!(first_difference(&text, &kept), None, "{name}");
        assert_eq!(text.len(), kept.len(), "{name}");
    }
}

#[test]
fn every_refusal_and_report_inside_the_store_is_met() {
    let table = recording().table;
    assert_eq!(table.missing(), [0; 0]);
    assert_eq!(table.unexpected(), [0; 0]);
    // `dump` is no call of the library; the store has 160 rows.
    let outside = [
        "dump",
        "dump with a recoverable stall",
        "dump with rev=-",
        "5 with all 1,024 rows used",
    ];
    assert_eq!(table.missing_kinds(), outside);
}

#[test]
fn every_line_prints_one_but_for_buffers_and_lists() {
    let recording = recording();
    let lines = recording.stdin.lines();
    let calls = lines.filter(|line| !line.is_empty() && !line.starts_with('#'));
    let more = |line: &str| match line.split(' ').next() {
        Some("begun" | "plan" | "recover") => 1,
        Some("recovered") => 2,
        _ => 0,
    };
    let more: usize = recording.stdout.lines().map(more).sum();
    assert_eq!(calls.count() + more, recording.stdout.lines().count());
}

#[test]
fn what_the_library_has_no_call_for_is_not_recorded() {
    let folder = std::env::temp_dir().join(format!("words-{}", std::process::id()));
    fs::create_dir_all(&folder).unwrap();
    let open = "open session=1 seq=0 rev=0 ports=1";
    let force = format!("{open}\nforce state=Initialized\n");
    fs::write(folder.join("forced.script"), force).unwrap();
    fs::write(folder.join("dumped.script"), format!("{open}\ndump\n")).unwrap();
    let forced = Recording::new(&folder, "forced\n").err();
    let dumped = Recording::new(&folder, "dumped\n").map(|it| it.table.calls);
    fs::remove_dir_all(&folder).unwrap();
    assert!(forced.unwrap().contains("force"));
    assert_eq!(dumped, Ok(1));
}
