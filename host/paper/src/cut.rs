//! Cutting a paper down to few events that still show a difference.
use std::fmt::{self, Display, Formatter};

use script::fewest;

use crate::compare::Marker;
use crate::event::{BYTES, Event, Kind};
use crate::text;

/// How often a paper is run anew at most, for each of two passes.
const TRIALS: usize = 2_000;

/// A paper whose outputs are not all the same.
pub struct Difference {
    events: Vec<[u8; BYTES]>,
    /// The bytes after the last event.
    rest: Vec<u8>,
    outputs: Vec<Output>,
}

struct Output {
    marker: String,
    bytes: Vec<u8>,
}

impl Difference {
    pub fn events(&self) -> usize {
        self.events.len()
    }

    /// The events without the submission at this place, the later ones' numbers
    /// such that they mean the same rows. None where no submission was taken
    /// there.
    fn without_submission(&self, place: usize) -> Option<Vec<[u8; BYTES]>> {
        let first = String::from_utf8_lossy(&self.outputs.first()?.bytes);
        let passed: Vec<_> = (first.lines().zip(&self.events))
            .map(|(line, event)| {
                let submit = Event::decode(*event).good_kind() == Some(Kind::Submit);
                submit && line.split(' ').nth(1) == Some("0")
            })
            .collect();
        if !*passed.get(place)? {
            return None;
        }
        let number = passed[..place].iter().filter(|passed| **passed).count();
        let mut events = self.events.clone();
        events.remove(place);
        for bytes in &mut events[place..] {
            let mut event = Event::decode(*bytes);
            let of_row = !matches!(event.good_kind(), None | Some(Kind::Submit));
            if of_row && usize::from(event.sequence) > number {
                event.sequence -= 1;
                *bytes = event.encode();
            }
        }
        Some(events)
    }
}

impl Display for Difference {
    fn fmt(&self, f: &mut Formatter<'_>) -> fmt::Result {
        f.write_str(&text::read(&joined(&self.events, &self.rest)))?;
        for output in &self.outputs {
            writeln!(f, "# {}:", output.marker)?;
            for line in String::from_utf8_lossy(&output.bytes).lines() {
                writeln!(f, "#   {line}")?;
            }
        }
        Ok(())
    }
}

/// Few events of the paper that still show a difference; none where there is none.
pub fn cut_down(paper: &[u8], markers: &[Marker]) -> Option<Difference> {
    let (events, rest) = paper.as_chunks::<BYTES>();
    let fewest = |events: &[_]| {
        let show = |events| difference(events, rest, markers);
        fewest(events.to_vec(), TRIALS, show, |found| &found.events)
    };
    let mut best = fewest(events)?;
    let mut place = 0;
    while place < best.events.len() {
        let fewer = best.without_submission(place);
        match fewer.and_then(|events| difference(events, rest, markers)) {
            Some(found) => best = found,
            None => place += 1,
        }
    }
    fewest(&best.events).or(Some(best))
}

/// The paper where it shows a difference, up to the first line that does.
pub fn uncut(paper: &[u8], markers: &[Marker]) -> Option<Difference> {
    let (events, rest) = paper.as_chunks::<BYTES>();
    difference(events.to_vec(), rest, markers)
}

/// Where outputs differ, the events up to the first line that does.
fn difference(mut events: Vec<[u8; BYTES]>, rest: &[u8], markers: &[Marker]) -> Option<Difference> {
    let outputs = |events: &[_]| marked(&joined(events, rest), markers);
    let mut found = outputs(&events);
    let line = first_difference(&found)?;
    if rest.is_empty() && line < events.len() {
        let shorter = outputs(&events[..line]);
        if first_difference(&shorter).is_some() {
            events.truncate(line);
            found = shorter;
        }
    }
    Some(Difference {
        events,
        rest: rest.to_vec(),
        outputs: found,
    })
}

fn marked(paper: &[u8], markers: &[Marker]) -> Vec<Output> {
    let marked = markers.iter().map(|marker| Output {
        marker: marker.name.clone(),
        bytes: marker.output(paper),
    });
    marked.collect()
}

/// The first line, from 1, in which one of the outputs is not as the first.
fn first_difference(outputs: &[Output]) -> Option<usize> {
    let first = &outputs.first()?.bytes;
    let other = outputs.iter().find(|output| output.bytes != *first)?;
    let same = first.iter().zip(&other.bytes).take_while(|(a, b)| a == b);
    Some(same.filter(|(byte, _)| **byte == b'\n').count() + 1)
}

fn joined(events: &[[u8; BYTES]], rest: &[u8]) -> Vec<u8> {
    [events.as_flattened(), rest].concat()
}
