//! The stored papers: text, paper and key belong together.
use std::fs;
use std::path::{Path, PathBuf};

use paper::generate::{Generator, MOST_EVENTS};
use paper::lines::{self, Key};
use paper::stored::{self, Stored};
use paper::{SIDES, Table, event, new_side, text};

fn folder() -> PathBuf {
    Path::new(env!("CARGO_MANIFEST_DIR")).join("../../papers")
}

fn papers() -> Vec<Stored> {
    stored::papers(&folder()).unwrap()
}

fn text_of(stored: &Stored) -> Option<String> {
    fs::read_to_string(stored.path.with_extension("txt")).ok()
}

fn key_by(side: &str, paper: &[u8]) -> Key {
    lines::key(new_side(side).unwrap().as_mut(), paper).unwrap()
}

/// The lines that a side prints.
fn lines_by(side: &str, paper: &[u8]) -> String {
    key_by(side, paper).to_string()
}

/// Words in front of the comment, and what it says after `-> `.
fn parts(line: &str) -> (&str, Option<&str>) {
    let (words, comment) = line.split_once('#').unwrap_or((line, ""));
    (words.trim(), comment.trim().strip_prefix("-> "))
}

#[test]
fn every_text_writes_its_paper_and_is_read_back() {
    let mut without = Vec::new();
    for stored in papers() {
        let Some(text) = text_of(&stored) else {
            without.push(stored.path.file_stem().unwrap().to_owned());
            continue;
        };
        assert_eq!(text::write(&text).unwrap(), stored.paper, "{text}");
        let events: Vec<_> = text.lines().map(|line| parts(line).0).collect();
        let read = text::read(&stored.paper);
        let events: Vec<_> = events.into_iter().filter(|it| !it.is_empty()).collect();
        assert_eq!(read.lines().collect::<Vec<_>>(), events);
    }
    // Made by the generator.
    assert_eq!(without, ["largest"]);
}

#[test]
fn every_key_is_that_of_each_side() {
    for stored in papers() {
        for side in SIDES {
            let key = Ok(lines_by(side, &stored.paper).into_bytes());
            assert_eq!(stored.difference(&key), None, "{side}");
        }
    }
}

/// The comments of a text, written by hand, say what its lines are.
#[test]
fn the_keys_are_what_the_texts_say() {
    let mut told = 0;
    for stored in papers() {
        let text = text_of(&stored).unwrap_or_default();
        let events = text
            .lines()
            .map(parts)
            .filter(|(words, _)| !words.is_empty());
        for (index, (words, expected)) in events.enumerate() {
            let Some(expected) = expected else { continue };
            let line = stored.key.lines().nth(index).unwrap_or("no line");
            let fields: Vec<_> = expected.split_ascii_whitespace().take(3).collect();
            let expected = format!("{index} {}", fields.join(" "));
            assert_eq!(line, expected, "{}: {words}", stored.path.display());
            told += 1;
        }
    }
    assert!(told > 150, "only {told} lines");
}

#[test]
fn the_papers_together_meet_everything() {
    let mut table = Table::default();
    for stored in papers() {
        if text_of(&stored).is_some() {
            table.count(&stored.paper, &key_by(SIDES[0], &stored.paper));
        }
    }
    assert_eq!(table.missing(), Vec::<u16>::new());
    assert_eq!(table.missing_ends(), []);
    assert_eq!(table.unexpected_ends(), []);
    assert_eq!(table.missing_corners(), Vec::<&str>::new());
}

/// Document 02's example, to the letter.
#[test]
fn the_example_of_document_02() {
    let paper = script::hex_bytes("00181000000000405018100000000000").unwrap();
    for side in SIDES {
        assert_eq!(lines_by(side, &paper), "0 0 P 1\n1 0 A 0\n");
    }
    assert_eq!(text::read(&paper), "submit 1 81 8\nabort 1 81 0\n");
    assert_eq!(fs::read(folder().join("example.paper")).unwrap(), paper);
}

/// By the seed that papers/README.md names.
#[test]
fn the_largest_paper_is_the_generators() {
    let mut side = new_side(SIDES[0]).unwrap();
    let paper = Generator::new(19).paper(side.as_mut(), MOST_EVENTS);
    let stored = fs::read(folder().join("largest.paper")).unwrap();
    assert!(paper.unwrap() == stored, "run `make -C host papers`");
}

#[test]
fn a_paper_has_65536_bytes_at_most() {
    let largest = fs::read(folder().join("largest.paper")).unwrap();
    assert_eq!(largest.len(), lines::MOST_BYTES);
    let event = [0; event::BYTES];
    for side in SIDES {
        let lines = lines_by(side, &largest);
        assert_eq!(lines.lines().count(), 8_192);
        for more in [1, event.len()] {
            let larger = [&largest, &event[..more]].concat();
            assert_eq!(lines_by(side, &larger), "56\n");
        }
        for less in 1..event.len() {
            assert_eq!(lines_by(side, &largest[less..]), "56\n");
        }
        assert_eq!(lines_by(side, &[]), "");
    }
}

/// Each bit of an unused field, each kind above 5: at its event, then the end.
#[test]
fn damage_of_every_bit_ends_the_paper() {
    let submit = text::write("submit 7 82 256").unwrap();
    for kind in 0..16u64 {
        for bit in 0..60 {
            let word = kind << 60 | 1u64 << bit;
            let event = event::Event::decode(word.to_be_bytes());
            if event.good_kind().is_some() {
                continue;
            }
            let paper = [&submit[..], &word.to_be_bytes(), &submit].concat();
            let side = SIDES[(bit % SIDES.len() as u64) as usize];
            assert_eq!(lines_by(side, &paper), "0 0 P 1\n1 57 - 1\n", "{word:016x}");
        }
    }
}
