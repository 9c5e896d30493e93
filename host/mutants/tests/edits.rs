//! Every edit still fits the sources that it changes.
use std::fs;

use mutants::{Edit, Row, edits, root};

fn all() -> Vec<Edit> {
    edits(&root().join("host/mutants")).unwrap()
}

#[test]
fn every_edit_applies() {
    for edit in all() {
        let before = fs::read_to_string(root().join(&edit.file)).unwrap();
        let after = edit.apply(&before);
        let after = after.unwrap_or_else(|error| panic!("{}.edit: {error}", edit.name));
        assert_ne!(before, after, "{}.edit changes nothing", edit.name);
    }
}

/// `chain`, the lowest crate, has no function; the kit's have no sources here.
#[test]
fn every_crate_of_the_library_and_of_the_key_has_edits() {
    let list = fs::read_to_string(root().join("crates.txt")).unwrap();
    let below = |program| list.lines().find_map(|it| it.strip_prefix(program));
    let names = [
        below("tapewoad staticlib: "),
        below("key: "),
        Some("tapewoad"),
    ];
    let names = names.into_iter().flat_map(|it| it.unwrap().split(' '));
    let edits = all();
    for name in names.filter(|name| !["chain", "io"].contains(name)) {
        let source = format!("crates/{name}/src/");
        let there = edits.iter().any(|edit| edit.file.starts_with(&source));
        assert!(there, "no edit of {name}");
    }
}

#[test]
fn the_page_has_a_line_for_every_edit() {
    let page = fs::read_to_string(root().join("docs/mutants.md")).unwrap();
    let lines = page.lines().filter_map(Row::read).map(|row| row.name);
    let names = all().into_iter().map(|edit| edit.name);
    assert_eq!(lines.collect::<Vec<_>>(), names.collect::<Vec<_>>());
}

/// One mutant stands for it, and no proof is tried on it any more.
#[test]
fn an_edit_that_went_is_named_once() {
    let mut went: Vec<_> = all().into_iter().flat_map(|edit| edit.was).collect();
    let count = went.len();
    went.sort();
    went.dedup();
    assert_eq!(went.len(), count);
    for was in went {
        let (name, edit) = was.split_once('/').unwrap();
        let path = format!("crates/{name}/must-fail/{edit}.edit");
        assert!(!root().join(&path).exists(), "{path}");
    }
}

#[test]
fn the_impostors_of_demand_2_are_there() {
    let edits = all();
    let names = edits.iter().map(|edit| edit.name.as_str());
    let impostors: Vec<_> = names.filter(|name| name.starts_with("impostor_")).collect();
    let expected = [
        "impostor_every_refused",
        "impostor_one_report",
        "impostor_poll_nothing",
        "impostor_rows_full",
        "impostor_stall_kept",
    ];
    assert_eq!(impostors, expected);
}
