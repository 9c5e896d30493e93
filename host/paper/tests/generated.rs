//! Generated papers: what they meet, and that a difference is found.
use paper::compare::{Marker, Stop, compare, markers};
use paper::cut::cut_down;
use paper::generate::{Generator, MOST_EVENTS};
use paper::{FIRST, REFUSALS, SIDES, Table, lines, new_side, text};

fn compared(seed: u64, events: u64, markers: &[Marker]) -> Result<Table, String> {
    let mut table = Table::default();
    match compare(seed, events, markers, cut_down, &mut table) {
        Ok(()) => Ok(table),
        Err(Stop::Failure(message)) => panic!("{message}"),
        Err(Stop::Difference(_, found)) => Err(found.to_string()),
    }
}

#[test]
fn papers_meet_every_refusal_that_a_paper_can_meet() {
    let table = compared(1, 60_000, &markers(None)).unwrap();
    assert_eq!(table.missing(), Vec::<u16>::new());
    assert_eq!(table.missing_ends(), []);
    assert_eq!(table.unexpected_ends(), []);
    assert_eq!(table.missing_corners(), Vec::<&str>::new());
    assert!(table.events >= 60_000 && table.times(0) > table.events / 2);
    for refusal in REFUSALS {
        assert!(table.times(refusal) > 2, "{refusal}\n{table}");
    }
}

#[test]
fn a_seed_gives_the_same_papers_everywhere() {
    let paper = |seed, side: &str| {
        let mut side = new_side(side).unwrap();
        Generator::new(seed).paper(side.as_mut(), 500).unwrap()
    };
    assert_eq!(paper(3, FIRST).len(), 4_000);
    assert_ne!(paper(3, FIRST), paper(4, FIRST));
    for side in SIDES {
        assert_eq!(paper(3, side), paper(3, FIRST));
    }
}

#[test]
fn most_papers_live_long() {
    let (mut printed, mut marked) = (0, 0);
    for seed in 0..50 {
        let paper = Generator::new(seed).paper(new_side(FIRST).unwrap().as_mut(), 400);
        let key = lines::key(new_side(FIRST).unwrap().as_mut(), &paper.unwrap());
        let lines::Key::Lines(lines) = key.unwrap() else {
            panic!("400 events are a good size");
        };
        printed += lines.len();
        let first = lines.iter().position(|line| line.refusal == 28);
        marked += usize::from(first.is_some_and(|place| place < 300));
    }
    assert!(printed > 50 * 400 * 9 / 10, "{printed} lines");
    assert!(marked < 50 / 4, "{marked} marked early");
}

#[test]
fn the_largest_paper_can_be_generated() {
    let mut generator = Generator::new(1);
    for events in [0, 1, MOST_EVENTS] {
        let mut side = new_side(FIRST).unwrap();
        let paper = generator.paper(side.as_mut(), events).unwrap();
        assert_eq!(paper.len(), events * 8);
    }
}

/// The lines of the first side, but after a change.
fn liar(change: impl Fn(&str) -> String + 'static) -> Vec<Marker> {
    let honest = |paper: &[u8]| {
        let key = lines::key(new_side(FIRST).unwrap().as_mut(), paper);
        key.map(|key| key.to_string())
    };
    vec![
        Marker::by_calls(FIRST),
        Marker::new("a liar", move |paper| {
            honest(paper).map(|lines| change(&lines).into_bytes())
        }),
    ]
}

#[test]
fn a_wrong_line_is_found_and_cut_down() {
    // A reclaim of a held row.
    let told = compared(5, 10_000, &liar(|lines| lines.replace(" 42 P", " 0 P"))).unwrap_err();
    let lines: Vec<_> = told.lines().collect();
    let [submit, reclaim, ..] = lines[..] else {
        panic!("{told}");
    };
    assert!(submit.starts_with("submit "), "{told}");
    assert!(
        reclaim.starts_with("reclaim ") && reclaim.ends_with(" 0"),
        "{told}"
    );
    let rest = "# rust:\n#   0 0 P 1\n#   1 42 P 1\n# a liar:\n#   0 0 P 1\n#   1 0 P 1\n";
    assert!(told.ends_with(&rest.replace("rust", FIRST)), "{told}");
}

#[test]
fn a_missing_newline_a_missing_line_and_a_failure_are_found() {
    let paper = text::write("submit 1 81 8\nabort 1 81 0\n").unwrap();
    let short = |lines: &str| lines.trim_end().to_owned();
    let one = |lines: &str| lines.split_inclusive('\n').take(1).collect();
    for markers in [liar(short), liar(one)] {
        assert!(cut_down(&paper, &markers).is_some());
    }
    let fails = Marker::new("it fails", |_| Err("ended by a signal".into()));
    let markers = [Marker::by_calls(FIRST), fails];
    let found = cut_down(&paper, &markers).unwrap();
    assert_eq!(found.events(), 0);
    assert!(found.to_string().contains("no answer: ended by a signal"));
}

#[test]
fn a_wrong_size_taken_is_found() {
    let taken = |lines: &str| match lines {
        "56\n" => String::new(),
        _ => lines.into(),
    };
    let told = compared(6, 100_000, &liar(taken)).unwrap_err();
    assert!(told.starts_with("bytes "), "{told}");
    assert!(told.contains("#   56\n"), "{told}");
}
