//! What docs/CALLS.md says of a call before it runs: its status, and the refusals
//! that depend on words and lengths alone (1, 2, 3, 49).
use tapewoad::calls::{ANSWER_WORDS, BUS_WORDS, LIST_WORDS, ROW_WORDS};

use crate::lent::{Function, Slices};

/// 0, or the first of 1 to 4 that applies.
pub fn status(slices: &Slices) -> u64 {
    if !is_taken(slices.function, &slices.call) {
        1
    } else if !is_session(&slices.session) {
        2
    } else if slices.out.len() < ANSWER_WORDS {
        3
    } else if slices.function == Function::Apply && slices.lists.len() < LIST_WORDS {
        4
    } else {
        0
    }
}

/// Whether the words are a call, or a report or question for the function that
/// reads.
fn is_taken(function: Function, words: &[u64]) -> bool {
    let number = words.first().copied().unwrap_or(u64::MAX);
    let taken = match function {
        Function::Apply => matches!(number, 0..=24 | 29),
        Function::Read => matches!(number, 16..=21 | 25..=28),
    };
    let mut fields = Fields(words);
    taken && fields.call().is_some() && fields.0.is_empty()
}

pub fn is_session(words: &[u64]) -> bool {
    let mut fields = Fields(words);
    fields.session().is_some() && fields.0.is_empty()
}

/// 1, 2, 3 or 49 of a call whose status is 0, in this order.
pub fn early_refusal(slices: &Slices) -> Option<u16> {
    let (number, in_flight) = (slices.call[0], slices.session[15]);
    match number {
        10 if in_flight != 1 => return Some(2),
        12 if in_flight != 2 => return Some(2),
        24 if in_flight != 3 => return Some(2),
        0 | 10 | 12 | 24 | 16..=21 | 26 => {}
        // These are not refused.
        25 | 27 | 28 => return None,
        _ if in_flight != 0 => return Some(1),
        _ => {}
    }
    if !sizes_fit(slices, number) {
        return Some(3);
    }
    (number == 24 && !lists_agree(&slices.call, slices.bytes.len())).then_some(49)
}

/// Whether the slices that the call uses (crates/calls/specs/Step.antt) have the
/// sizes that the session, or the opening, records.
fn sizes_fit(slices: &Slices, number: u64) -> bool {
    let (count, bytes) = match number {
        0 => (slices.call[7], slices.call[8]),
        _ => (slices.session[24], slices.session[25]),
    };
    let sized = (1..=1_024).contains(&count) && (1..=65_536).contains(&bytes);
    let rows = || sized && slices.rows.len() as u64 == count * ROW_WORDS as u64;
    let area = || sized && slices.area.len() as u64 == count * bytes;
    let bus = || slices.bus.len() == BUS_WORDS;
    match number {
        1..=4 => bus(),
        5 | 6 => true,
        0 | 8 | 9 => rows() && area() && bus(),
        12 | 19 | 24 => rows() && area(),
        _ => rows(),
    }
}

/// As many completions as tokens, and all bytes are theirs.
fn lists_agree(call: &[u64], bytes: usize) -> bool {
    let (tokens, completions) = (call[8], call[9]);
    let first = 10 + tokens as usize;
    let counts = call[first..].chunks_exact(11).take(completions as usize);
    let sum: u128 = counts.map(|words| u128::from(words[10])).sum();
    tokens == completions && sum == bytes as u128
}

/// Reads words field by field; none where a word is not in its field's range.
struct Fields<'a>(&'a [u64]);

impl Fields<'_> {
    fn any(&mut self) -> Option<u64> {
        let (first, rest) = self.0.split_first()?;
        self.0 = rest;
        Some(*first)
    }

    fn below(&mut self, bound: u64) -> Option<u64> {
        self.any().filter(|word| *word < bound)
    }

    fn flag(&mut self) -> Option<bool> {
        self.below(2).map(|word| word == 1)
    }

    fn zeros(&mut self, count: usize) -> Option<()> {
        (0..count).try_for_each(|_| self.below(1).map(drop))
    }

    fn option32(&mut self) -> Option<()> {
        self.below((1 << 32) + 1).map(drop)
    }

    fn option64(&mut self) -> Option<()> {
        match self.flag()? {
            true => self.any().map(drop),
            false => self.zeros(1),
        }
    }

    fn request_id(&mut self) -> Option<()> {
        (0..3).try_for_each(|_| self.any().map(drop))
    }

    /// A device id or a port id.
    fn bus_id(&mut self) -> Option<()> {
        self.any()?;
        self.any()?;
        self.below(256).map(drop)
    }

    fn error(&mut self) -> Option<()> {
        self.below(7)?;
        self.below(1 << 16)?;
        self.option32()?;
        self.option32()
    }

    fn option_error(&mut self) -> Option<()> {
        match self.flag()? {
            true => self.error(),
            false => self.zeros(4),
        }
    }

    fn setup(&mut self) -> Option<()> {
        (0..2).try_for_each(|_| self.below(1 << 8).map(drop))?;
        (0..3).try_for_each(|_| self.below(1 << 16).map(drop))
    }

    fn reading(&mut self) -> Option<()> {
        match self.flag()? {
            true => self.zeros(1).and_then(|()| self.error()),
            false => self.below(1 << 32).and_then(|_| self.zeros(4)),
        }
    }

    fn completion(&mut self) -> Option<()> {
        self.option_error()?;
        self.option64()?;
        self.option32()?;
        self.flag()?;
        self.flag().map(drop)
    }

    fn call(&mut self) -> Option<()> {
        match self.any()? {
            0 => self.open(),
            1 => {
                self.bus_id()?;
                self.bus_id()?;
                self.below(7).map(drop)
            }
            2 => {
                self.below(256)?;
                self.any()?;
                self.option32()
            }
            3 => {
                self.below(256)?;
                (0..self.0.len()).try_for_each(|_| self.below(1_024).map(drop))
            }
            4 => {
                self.below(256)?;
                self.flag().map(drop)
            }
            number @ 5..=7 => self.lifecycle(number),
            8 => self.submit(),
            9 => self.plan(),
            number @ (10 | 12) => self.reply(number),
            11 | 13..=16 | 19 | 22 | 29 => self.request_id(),
            17 => match self.flag()? {
                true => self.request_id(),
                false => self.zeros(3),
            },
            18 | 20 | 21 => Some(()),
            23 => {
                self.request_id()?;
                self.flag().map(drop)
            }
            24 => self.recovery_reply(),
            number => self.question(number),
        }
    }

    fn question(&mut self, number: u64) -> Option<()> {
        match number {
            25 => Some(()),
            26 => self.any().map(drop),
            27 => self.submit(),
            28 => self.plan(),
            _ => None,
        }
    }

    fn open(&mut self) -> Option<()> {
        self.any()?;
        self.any()?;
        self.option64()?;
        match self.flag()? {
            true => self.below(256).map(drop)?,
            false => self.zeros(1)?,
        }
        self.any()?;
        self.any().map(drop)
    }

    fn lifecycle(&mut self, number: u64) -> Option<()> {
        match number {
            5 => match self.flag()? {
                true => self.flag().and_then(|_| self.error()),
                false => self.zeros(5),
            },
            6 => self.option_error(),
            _ => self.option64().and_then(|()| self.option_error()),
        }
    }

    fn submit(&mut self) -> Option<()> {
        self.bus_id()?;
        self.below(256)?;
        self.below(4)?;
        self.below(2)?;
        self.any()?;
        match self.flag()? {
            true => self.setup()?,
            false => self.zeros(5)?,
        }
        self.reading()?;
        self.reading()?;
        // The packet lengths; where they are not given, none may follow.
        if self.flag()? {
            self.0 = &[];
        }
        Some(())
    }

    fn plan(&mut self) -> Option<()> {
        self.bus_id()?;
        self.below(2)?;
        self.setup()?;
        match self.flag()? {
            true => self.below(2).and_then(|_| self.any()).map(drop)?,
            false => self.zeros(2)?,
        }
        self.below(3)?;
        self.reading()
    }

    fn reply(&mut self, number: u64) -> Option<()> {
        match (number, self.below(if number == 10 { 2 } else { 3 })?) {
            (10, 0) => self.any().and_then(|_| self.zeros(4)),
            (10, _) => self.zeros(1).and_then(|()| self.error()),
            (_, 0) => self.zeros(10),
            (_, 1) => {
                self.zeros(1)?;
                self.error()?;
                self.zeros(5)
            }
            _ => self.completion(),
        }
    }

    fn recovery_reply(&mut self) -> Option<()> {
        match self.flag()? {
            true => self.zeros(2).and_then(|()| self.error())?,
            false => self.flag().and_then(|_| self.option_error())?,
        }
        let (tokens, completions) = (self.any()?, self.any()?);
        self.0 = self.0.get(usize::try_from(tokens).ok()?..)?;
        for _ in 0..completions {
            self.completion()?;
            self.any()?;
        }
        // The tokens of aborted requests.
        self.0 = &[];
        Some(())
    }

    fn session(&mut self) -> Option<()> {
        self.request_id()?;
        match self.flag()? {
            true => self.any().and_then(|_| self.below(256)).map(drop)?,
            false => self.zeros(2)?,
        }
        self.below(5)?;
        self.option64()?;
        match self.flag()? {
            true => {
                self.any()?;
                self.bus_id()?;
                self.below(256)?;
            }
            false => self.zeros(5)?,
        }
        self.in_flight()?;
        self.any()?;
        self.any().map(drop)
    }

    fn in_flight(&mut self) -> Option<()> {
        match self.below(4)? {
            0 => self.zeros(8),
            1 | 2 => self.request_id().and_then(|()| self.zeros(5)),
            _ => {
                self.request_id()?;
                self.bus_id()?;
                self.below(256)?;
                self.below(3).map(drop)
            }
        }
    }
}

#[cfg(test)]
mod tests {
    use super::*;

    fn slices(call: &[u64]) -> Slices {
        let mut session = vec![0; 26];
        (session[24], session[25]) = (2, 8);
        Slices {
            session,
            bus: vec![0; BUS_WORDS],
            rows: vec![0; 52],
            area: vec![0; 16],
            call: call.to_vec(),
            out: vec![0; 32],
            lists: vec![0; 386],
            ..Slices::default()
        }
    }

    fn is_call(words: &[u64]) -> bool {
        is_taken(Function::Apply, words)
    }

    #[test]
    fn calls_have_their_own_number_of_words() {
        assert!(is_call(&[18]));
        assert!(is_call(&[13, 1, 2, u64::MAX]));
        assert!(is_call(&[3, 2, 1_023]));
        for words in [&[][..], &[18, 0], &[13, 1, 2], &[3, 2, 1_024], &[25]] {
            assert!(!is_call(words), "{words:?}");
        }
    }

    #[test]
    fn reports_and_questions_alone_are_read() {
        let is_read = |words: &[u64]| is_taken(Function::Read, words);
        assert!(is_read(&[18]) && is_read(&[25]) && is_read(&[26, u64::MAX]));
        for words in [&[][..], &[25, 0], &[26], &[27], &[29], &[13, 1, 2, 3]] {
            assert!(!is_read(words), "{words:?}");
        }
    }

    #[test]
    fn a_word_that_is_not_read_is_0() {
        assert!(is_call(&[17, 1, 5, 6, 7]));
        assert!(is_call(&[17, 0, 0, 0, 0]));
        assert!(!is_call(&[17, 0, 0, 6, 0]));
        assert!(!is_call(&[12, 1, 1, 0, 0, 0, 0, 0, 0, 0, 0, 0]));
    }

    #[test]
    fn a_recovery_replys_lists_fill_its_words() {
        let reply = |tokens, completions, rest: &[u64]| {
            is_call(&[&[24, 0, 1, 0, 0, 0, 0, 0, tokens, completions], rest].concat())
        };
        assert!(reply(0, 0, &[]) && reply(0, 0, &[5, 6]) && reply(2, 0, &[5, 6]));
        assert!(!reply(3, 0, &[5, 6]) && !reply(u64::MAX, 0, &[5]));
        assert!(reply(0, 1, &[0; 11]) && !reply(0, 1, &[0; 10]));
        assert!(!reply(0, u64::MAX, &[0; 11]));
    }

    #[test]
    fn zeros_are_a_sessions_and_a_lone_value_is_not() {
        let mut words = [0; 26];
        assert!(is_session(&words));
        assert!(!is_session(&words[1..]));
        words[8] = 1;
        assert!(!is_session(&words), "a revision without its flag");
        words[7] = 1;
        assert!(is_session(&words));
        words[19] = 1;
        assert!(!is_session(&words), "a device while nothing is in flight");
    }

    #[test]
    fn the_first_status_is_given() {
        let mut slices = slices(&[18]);
        assert_eq!(status(&slices), 0);
        slices.lists.pop();
        assert_eq!(status(&slices), 4);
        slices.function = Function::Read;
        assert_eq!(status(&slices), 0);
        slices.out.pop();
        assert_eq!(status(&slices), 3);
        slices.session.pop();
        assert_eq!(status(&slices), 2);
        slices.call.push(0);
        assert_eq!(status(&slices), 1);
    }

    #[test]
    fn refusals_by_words_and_lengths_have_their_order() {
        let mut slices = slices(&[11, 1, 0, 0]);
        assert_eq!(early_refusal(&slices), None);
        slices.rows.pop();
        assert_eq!(early_refusal(&slices), Some(3));
        slices.session[15] = 3;
        assert_eq!(early_refusal(&slices), Some(1));
        slices.call = vec![10, 0, 7, 0, 0, 0, 0];
        assert_eq!(early_refusal(&slices), Some(2));
        let failed = [24, 1, 0, 0, 0, 0, 0, 0, 1, 0, 9];
        slices.call = failed.to_vec();
        assert_eq!(early_refusal(&slices), Some(3));
        slices.rows.push(0);
        assert_eq!(early_refusal(&slices), Some(49));
    }
}
