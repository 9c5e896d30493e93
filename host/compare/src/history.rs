//! The latest calls of a run, by openings.
use std::collections::VecDeque;

use script::Call;

use crate::begins;

/// How many calls are kept beside those since the last opening.
const MOST: usize = 20_000;

/// Calls by openings, the last opening's at the end.
#[derive(Default)]
pub struct History {
    openings: VecDeque<Vec<Call>>,
    /// How many calls the earlier ones have.
    earlier: usize,
}

impl History {
    pub fn add(&mut self, call: &Call) {
        let last = self.openings.back().and_then(|calls| calls.last());
        if begins(call, last) || self.openings.is_empty() {
            self.earlier += self.openings.back().map_or(0, Vec::len);
            self.openings.push_back(Vec::new());
            while self.earlier > MOST && self.openings.len() > 1 {
                self.earlier -= self.openings.pop_front().map_or(0, |it| it.len());
            }
        }
        if let Some(last) = self.openings.back_mut() {
            last.push(call.clone());
        }
    }

    /// The calls since the last opening, since the one before, and so on.
    pub fn since_openings(&self) -> Vec<Vec<Call>> {
        (0..self.openings.len())
            .rev()
            .map(|from| self.openings.iter().skip(from).flatten().cloned().collect())
            .collect()
    }
}

#[cfg(test)]
mod tests {
    use super::*;
    use script::parse_line;

    fn history(lines: &[&str]) -> History {
        let mut history = History::default();
        for line in lines {
            history.add(&parse_line(1, line).unwrap().unwrap());
        }
        history
    }

    #[test]
    fn calls_are_kept_by_openings() {
        let open = "open session=1 seq=0 rev=0 ports=1";
        let history = history(&[open, "dump", open, "reports", "dump"]);
        let lengths: Vec<_> = history.since_openings().iter().map(Vec::len).collect();
        assert_eq!(lengths, [3, 5]);
    }

    #[test]
    fn a_stores_size_belongs_to_its_opening() {
        let open = "open session=1 seq=0 rev=0 ports=1";
        let store = "store rows=1 bytes=8";
        let history = history(&[store, open, "dump", store, open, open]);
        let lengths: Vec<_> = history.since_openings().iter().map(Vec::len).collect();
        assert_eq!(lengths, [1, 3, 6]);
    }

    #[test]
    fn old_openings_are_dropped() {
        let open = "open session=1 seq=0 rev=0 ports=1";
        let lines: Vec<&str> = (0..3 * MOST)
            .map(|place| if place % 1000 == 0 { open } else { "dump" })
            .collect();
        let history = history(&lines);
        assert!(history.openings.iter().map(Vec::len).sum::<usize>() <= MOST + 1000);
        assert_eq!(history.since_openings()[0].len(), 1000);
    }
}
