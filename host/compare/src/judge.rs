//! Holds the port's answers to the Rust's, call by call.
use std::collections::BTreeMap;
use std::fmt::{self, Display, Formatter};

use script::{Answer, Call, InItsPlace, Standing, departs, departure};

use crate::begins;

/// What the port's answer to a call is, beside the Rust's.
pub enum Judgement {
    /// The port's, which is the Rust's.
    Alike(Answer),
    /// The one departure from the Rust that is intended.
    Departs(InItsPlace),
    Differs(Answers),
}

/// Two answers that differ, as text.
#[derive(Debug)]
pub struct Answers {
    pub rust: String,
    pub port: String,
    /// What the port must answer, where it departs from the Rust.
    pub due: Option<String>,
}

/// What it knows of the calls before.
#[derive(Default)]
pub struct Judge {
    before: Option<Standing>,
    /// Whether the port departed, so that the history is over.
    ended: bool,
}

impl Judge {
    /// Whether the call follows a departure, so that neither side is asked.
    pub fn is_over(&self, call: &Call) -> bool {
        self.ended && !begins(call, None)
    }

    pub fn judge(&mut self, call: &Call, rust: &Answer, port: Result<Answer, String>) -> Judgement {
        // The size of the next opening's store is answered by what stands since
        // the departure.
        self.ended &= !matches!(call, Call::Open(_));
        let before = self.before.replace(rust.standing());
        let departs = departs(call, rust).zip(before);
        let due = departs.map(|(place, before)| (place, departure(rust, before)));
        match (port, due) {
            (Ok(answer), None) if answer == *rust => Judgement::Alike(answer),
            (Ok(answer), None) if self.ended && answer.outcome == rust.outcome => {
                Judgement::Alike(answer)
            }
            (Ok(answer), Some((place, due))) if answer == due => {
                self.ended = true;
                Judgement::Departs(place)
            }
            (port, due) => {
                let due = due.map(|(_, answer)| answer.to_string());
                Judgement::Differs(Answers::new(rust, &port, due))
            }
        }
    }
}

impl Answers {
    /// Their lines. What a line leaves out is shown as it stands.
    fn new(rust: &Answer, port: &Result<Answer, String>, due: Option<String>) -> Self {
        let mut lines = (rust.to_string(), line(port));
        if let Ok(port) = port
            && lines.0 == lines.1
        {
            lines = (format!("{rust:?}"), format!("{port:?}"));
        }
        let (rust, port) = lines;
        Self { rust, port, due }
    }
}

impl Display for Answers {
    fn fmt(&self, f: &mut Formatter<'_>) -> fmt::Result {
        writeln!(f, "# the Rust: {}", self.rust)?;
        if let Some(due) = &self.due {
            writeln!(f, "# due, for the port departs here: {due}")?;
        }
        writeln!(f, "# the port: {}", self.port)
    }
}

/// An answer's line, or why there is none.
fn line(answer: &Result<Answer, String>) -> String {
    match answer {
        Ok(answer) => answer.to_string(),
        Err(message) => format!("no answer: {message}"),
    }
}

/// How many histories ended where the port departs, by what the Rust has there.
#[derive(Debug, Default)]
pub struct Departures(BTreeMap<InItsPlace, u64>);

impl Departures {
    pub fn count(&mut self, place: InItsPlace) {
        *self.0.entry(place).or_default() += 1;
    }

    pub fn times(&self, place: InItsPlace) -> u64 {
        self.0.get(&place).copied().unwrap_or(0)
    }

    pub fn total(&self) -> u64 {
        self.0.values().sum()
    }
}

impl Display for Departures {
    fn fmt(&self, f: &mut Formatter<'_>) -> fmt::Result {
        let [report, later @ ..] = InItsPlace::ALL.map(|place| self.times(place));
        let [unplaced, spent, failed] = later;
        write!(
            f,
            "{} histories ended at a 58 of the port's, where the Rust has a report {report} times, \
             38 {unplaced}, 39 {spent} and 45 {failed}",
            self.total()
        )
    }
}

#[cfg(test)]
mod tests {
    use super::*;
    use script::{ControllerState, Outcome, parse_line};

    const OPEN: &str = "open session=1 seq=0 rev=0 ports=1";
    const STORE: &str = "store rows=1 bytes=8";

    fn call(line: &str) -> Call {
        parse_line(1, line).unwrap().unwrap()
    }

    fn submit(kind: &str) -> Call {
        call(&format!(
            "submit dev=1.0.1 ep=83 type={kind} dir=in len=8 setup=- data=z:0 packets=none r1=403 r2=803 reply=1"
        ))
    }

    fn done(held: u64) -> Answer {
        let standing = Standing {
            state: ControllerState::Initialized,
            held,
            held_bytes: 8 * held,
        };
        Answer::unchanged(Outcome::Done, standing)
    }

    /// A refusal with the error of 58.
    fn refused(number: u16) -> Answer {
        let mut answer = departure(&done(0), done(0).standing());
        if let Outcome::Refused { number: own, .. } = &mut answer.outcome {
            *own = number;
        }
        answer
    }

    /// After a call that both sides answer alike.
    fn judge() -> Judge {
        let mut judge = Judge::default();
        assert!(is_alike(&judge.judge(&call(OPEN), &done(0), Ok(done(0)))));
        judge
    }

    fn is_alike(judgement: &Judgement) -> bool {
        matches!(judgement, Judgement::Alike(_))
    }

    #[test]
    fn a_history_is_over_from_58_to_the_next_opening() {
        let mut judge = judge();
        let judgement = judge.judge(&submit("isochronous"), &refused(38), Ok(refused(58)));
        let place = InItsPlace::Refusal(38);
        assert!(matches!(judgement, Judgement::Departs(it) if it == place));
        assert!(judge.is_over(&Call::Dump) && judge.is_over(&submit("bulk")));
        assert!(!judge.is_over(&call(STORE)) && !judge.is_over(&call(OPEN)));
        assert!(is_alike(&judge.judge(&call(STORE), &done(1), Ok(done(0)))));
        assert!(judge.is_over(&Call::Dump));
        assert!(is_alike(&judge.judge(&call(OPEN), &done(0), Ok(done(0)))));
        assert!(!judge.is_over(&Call::Dump));
        assert!(!is_alike(&judge.judge(&call(STORE), &done(1), Ok(done(0)))));
    }

    #[test]
    fn anything_but_58_is_a_difference_there_and_58_anywhere_else() {
        for (kind, rust, port, due) in [
            ("isochronous", 38, 38, true),
            ("isochronous", 39, 37, true),
            ("isochronous", 36, 58, false),
            ("interrupt", 38, 58, false),
        ] {
            let judgement = judge().judge(&submit(kind), &refused(rust), Ok(refused(port)));
            let Judgement::Differs(answers) = judgement else {
                panic!("{kind}: {rust}, {port}");
            };
            assert_eq!(answers.due.is_some(), due, "{kind}: {rust}, {port}");
        }
    }
}
