//! What a run of papers met.
use std::collections::{BTreeMap, BTreeSet};
use std::fmt::{self, Display, Formatter};

use crate::event::{Event, Kind, PRESENT};
use crate::lines::{Key, Line, WRONG_SIZE, events};

/// What stands for the kind of a damaged event.
const DAMAGED_EVENT: &str = "damaged";

/// Every end that an event can have: its kind, refusal and the letters.
const ENDS: &[(&str, u16, &str)] = &[
    ("submit", 0, "P"),
    ("submit", 5, "-"),
    ("submit", 6, "-"),
    ("submit", 7, "-"),
    ("submit", 8, "-"),
    ("submit", 15, "-"),
    ("submit", 16, "-"),
    ("submit", 28, "-"),
    ("poll", 0, "PCFA"),
    ("poll", 28, "P"),
    ("poll", 40, "-"),
    ("cancel", 0, "P"),
    ("cancel", 40, "-"),
    ("cancel", 41, "CFA"),
    ("timeout", 0, "P"),
    ("timeout", 40, "-"),
    ("timeout", 41, "CFA"),
    ("reclaim", 0, "-"),
    ("reclaim", 40, "-"),
    ("reclaim", 42, "PF"),
    ("abort", 0, "A"),
    ("abort", 40, "-"),
    ("abort", 43, "CFA"),
    (DAMAGED_EVENT, 57, "-"),
];

/// The refusals that a paper can meet.
pub const REFUSALS: [u16; 13] = [5, 6, 7, 8, 15, 16, 28, 40, 41, 42, 43, 56, 57];

/// What a line alone does not show.
const CORNERS: [&str; 8] = [
    "an abort that releases several rows",
    "an abort after a mark",
    "a poll whose rest is not read",
    "a poll whose reply is dropped",
    "a completion that says more than 256",
    "5 before another refusal",
    "6 or 7 before another refusal",
    "another refusal before 28",
];

type End = (&'static str, u16, char);

/// What a paper met before an event.
#[derive(Debug, Default)]
struct Before {
    held: u64,
    marked: bool,
}

impl Before {
    fn corners(&self, event: &Event, line: &Line) -> [bool; 8] {
        let kind = event.good_kind();
        let is = |other| kind == Some(other);
        let done = line.refusal == 0;
        let poll = is(Kind::Poll) && done;
        let bare = (event.code, event.length, event.flags) == (0, 0, 0);
        let long = event.length > 256;
        let bad_endpoint = !(0x81..=0x8f).contains(&event.endpoint);
        [
            is(Kind::Abort) && done && self.held > line.held + 1,
            is(Kind::Abort) && done && self.marked,
            poll && line.letter == 'P' && !event.has(PRESENT) && !bare,
            poll && line.letter != 'P' && self.held == line.held && event.has(PRESENT),
            poll && line.letter == 'F' && event.has(PRESENT) && long,
            line.refusal == 5 && (long || bad_endpoint),
            matches!(line.refusal, 6 | 7) && bad_endpoint,
            self.marked && matches!(line.refusal, 5..28),
        ]
    }

    fn note(&mut self, line: &Line) {
        self.held = line.held;
        self.marked |= line.refusal == 28;
    }
}

#[derive(Debug, Default)]
pub struct Table {
    pub papers: u64,
    /// Also those that no line is printed for.
    pub events: u64,
    wrong_sizes: u64,
    ends: BTreeMap<End, u64>,
    corners: [u64; 8],
}

impl Table {
    /// Counts a paper and its key.
    pub fn count(&mut self, paper: &[u8], key: &Key) {
        self.papers += 1;
        match (events(paper), key) {
            (Some(events), Key::Lines(lines)) => {
                self.events += events.len() as u64;
                let mut before = Before::default();
                for (event, line) in events.iter().zip(lines) {
                    let end = (kind_name(event), line.refusal, line.letter);
                    *self.ends.entry(end).or_default() += 1;
                    let met = before.corners(event, line);
                    let corners = self.corners.iter_mut().zip(met);
                    corners.for_each(|(times, met)| *times += u64::from(met));
                    before.note(line);
                }
            }
            _ => self.wrong_sizes += 1,
        }
    }

    /// How often a refusal was met; 0 is an event that was not refused.
    pub fn times(&self, refusal: u16) -> u64 {
        match refusal {
            WRONG_SIZE => self.wrong_sizes,
            _ => self.sum(|(_, number, _)| *number == refusal),
        }
    }

    /// The refusals that a paper can meet and none of these did.
    pub fn missing(&self) -> Vec<u16> {
        let missing = |number: &u16| self.times(*number) == 0;
        REFUSALS.into_iter().filter(missing).collect()
    }

    /// The ends that no event had.
    pub fn missing_ends(&self) -> Vec<End> {
        let met: BTreeSet<End> = self.ends.keys().copied().collect();
        every_end().difference(&met).copied().collect()
    }

    /// The ends that an event had and none can have.
    pub fn unexpected_ends(&self) -> Vec<End> {
        let met: BTreeSet<End> = self.ends.keys().copied().collect();
        met.difference(&every_end()).copied().collect()
    }

    pub fn missing_corners(&self) -> Vec<&'static str> {
        let corners = CORNERS.into_iter().zip(self.corners);
        corners
            .filter(|(_, times)| *times == 0)
            .map(|(name, _)| name)
            .collect()
    }

    fn sum(&self, counts: impl Fn(&End) -> bool) -> u64 {
        let met = self.ends.iter().filter(|(end, _)| counts(end));
        met.map(|(_, times)| times).sum()
    }
}

impl Display for Table {
    fn fmt(&self, f: &mut Formatter<'_>) -> fmt::Result {
        writeln!(f, "papers {:>39}\nevents {:>39}", self.papers, self.events)?;
        for refusal in [0].into_iter().chain(REFUSALS) {
            writeln!(f, "refusal {refusal:<2} {:>35}", self.times(refusal))?;
        }
        for letter in "PCFA-".chars() {
            let times = self.sum(|(_, _, other)| *other == letter);
            writeln!(f, "letter {letter} {times:>37}")?;
        }
        let kinds = Kind::ALL.into_iter().map(Kind::name);
        for kind in kinds.chain([DAMAGED_EVENT]) {
            let times = self.sum(|(other, _, _)| *other == kind);
            writeln!(f, "kind {kind:<8} {times:>32}")?;
        }
        for (name, times) in CORNERS.into_iter().zip(self.corners) {
            writeln!(f, "{name:<37} {times:>8}")?;
        }
        writeln!(f, "\nkind, refusal and letter together")?;
        for ((kind, refusal, letter), times) in &self.ends {
            writeln!(f, "{kind:<8} {refusal:>2} {letter} {times:>32}")?;
        }
        for (kind, refusal, letter) in self.missing_ends() {
            writeln!(f, "{kind:<8} {refusal:>2} {letter} {:>32}", "NOT MET")?;
        }
        Ok(())
    }
}

fn every_end() -> BTreeSet<End> {
    let ends = ENDS.iter().flat_map(|(kind, refusal, letters)| {
        let letters = letters.chars();
        letters.map(|letter| (*kind, *refusal, letter))
    });
    ends.collect()
}

fn kind_name(event: &Event) -> &'static str {
    event.good_kind().map_or(DAMAGED_EVENT, Kind::name)
}
