//! The one place where the port departs from the Rust on purpose (document 02,
//! M-110): low speed has no isochronous pipes. The port refuses by 58; the Rust
//! has no such check and goes on.
use crate::{Answer, Call, Category, Error, Outcome, Standing, TransferType};

/// The port's refusal.
const NUMBER: u16 = 58;
/// The refusals that come after it, which the Rust may have in its place.
const LATER: [u16; 3] = [38, 39, 45];
/// The speed of a port's word stands in bits 13 to 10.
const SPEED: u32 = 10;
const SPEEDS: u32 = 15 << SPEED;
const FULL: u32 = 1 << SPEED;
const LOW: u32 = 2 << SPEED;

/// What the Rust has in the place of 58.
#[derive(Debug, Clone, Copy, PartialEq, Eq, PartialOrd, Ord)]
pub enum InItsPlace {
    Report,
    Refusal(u16),
}

impl InItsPlace {
    pub const ALL: [Self; 4] = [
        Self::Report,
        Self::Refusal(LATER[0]),
        Self::Refusal(LATER[1]),
        Self::Refusal(LATER[2]),
    ];
}

/// Where the port departs from this answer of the Rust's, what the answer is.
pub fn departs(call: &Call, rust: &Answer) -> Option<InItsPlace> {
    match rust.outcome {
        _ if low_speed(call).is_none() => None,
        Outcome::Row(_) => Some(InItsPlace::Report),
        Outcome::Refused { number, .. } if LATER.contains(&number) => {
            Some(InItsPlace::Refusal(number))
        }
        _ => None,
    }
}

/// What the port answers there: it took the readings that the Rust took, and
/// left all else as it stood.
pub fn departure(rust: &Answer, before: Standing) -> Answer {
    let error = Error {
        category: Category::Unsupported,
        message: NUMBER,
        os_code: None,
        completion_code: None,
    };
    let number = NUMBER;
    Answer {
        reads: rust.reads.clone(),
        ..Answer::unchanged(Outcome::Refused { number, error }, before)
    }
}

/// Gives the call full speed in the place of low speed, where the port may
/// depart from the Rust.
pub fn spare(call: &mut Call) {
    if let Some(word) = low_speed(call)
        && let Call::Submit(submit) = call
    {
        submit.readings[1] = Ok(word & !SPEEDS | FULL);
    }
}

/// The second reading of an isochronous submission, if it has low speed.
fn low_speed(call: &Call) -> Option<u32> {
    let Call::Submit(submit) = call else {
        return None;
    };
    let second = submit.readings[1].as_ref().ok().copied();
    let isochronous = submit.transfer_type == TransferType::Isochronous;
    second.filter(|word| isochronous && word & SPEEDS == LOW)
}

#[cfg(test)]
mod tests {
    use super::*;
    use crate::{ControllerState, parse_line};

    fn submit(kind: &str, first: &str, second: &str) -> Call {
        let line = format!(
            "submit dev=1.0.1 ep=83 type={kind} dir=in len=8 setup=- data=z:0 packets=none r1={first} r2={second} reply=1"
        );
        parse_line(1, &line).unwrap().unwrap()
    }

    const STANDING: Standing = Standing {
        state: ControllerState::Initialized,
        held: 2,
        held_bytes: 16,
    };

    fn done() -> Answer {
        Answer::unchanged(Outcome::Done, STANDING)
    }

    fn refused(number: u16) -> Answer {
        let mut answer = departure(&done(), STANDING);
        if let Outcome::Refused { number: own, .. } = &mut answer.outcome {
            *own = number;
        }
        answer
    }

    #[test]
    fn only_an_isochronous_submission_by_its_second_reading() {
        let late = refused(38);
        let is_one = |call: &Call| departs(call, &late).is_some();
        assert!(is_one(&submit("isochronous", "403", "803")));
        assert!(is_one(&submit("isochronous", "803", "fffe0bff")));
        assert!(!is_one(&submit("isochronous", "803", "403")));
        assert!(!is_one(&submit("isochronous", "803", "2803")));
        assert!(!is_one(&submit("isochronous", "803", "err:V.1.-.-")));
        assert!(!is_one(&submit("interrupt", "803", "803")));
        assert!(!is_one(&submit("bulk", "803", "803")));
        assert!(!is_one(&Call::Reports));
    }

    #[test]
    fn only_where_the_rust_comes_after_it() {
        let call = submit("isochronous", "403", "803");
        for number in 1..=60 {
            let late = [38, 39, 45].contains(&number);
            let expected = late.then_some(InItsPlace::Refusal(number));
            assert_eq!(departs(&call, &refused(number)), expected, "{number}");
        }
        assert_eq!(departs(&call, &done()), None);
    }

    #[test]
    fn its_answer_leaves_all_but_the_readings() {
        let mut rust = done();
        rust.reads = vec![3, 3];
        (rust.held, rust.held_bytes) = (3, 24);
        rust.state = ControllerState::RecoveryRequired;
        let answer = departure(&rust, STANDING);
        assert_eq!(answer.reads, [3, 3]);
        let expected = "refuse 58 U.58.-.- | backend none reads=2 | Initialized held=2 bytes=16";
        assert_eq!(answer.to_string(), expected);
    }

    #[test]
    fn a_spared_call_differs_in_the_speed_alone() {
        let mut call = submit("isochronous", "803", "80020803");
        spare(&mut call);
        assert_eq!(call, submit("isochronous", "803", "80020403"));
        let mut other = submit("bulk", "803", "803");
        spare(&mut other);
        assert_eq!(other, submit("bulk", "803", "803"));
    }
}
