//! Calls and answers as text: the format of docs/SCRIPT-FORMAT.md.
//!
//! Nothing here knows either side that is compared. A side implements [`Side`];
//! [`run`] reads a script, applies its calls and gives the answer lines.
mod answer;
mod call;
mod departure;
mod display;
mod fewest;
mod fields;
mod parse;
mod text;
mod values;

pub use answer::{
    AbortReport, Answer, Asked, Dump, Outcome, PortRow, Ports, Row, RowState, Standing,
};
pub use call::{
    AbortReply, AbortResult, Call, Completion, Open, Plan, PollReply, Recovery, Submit,
};
pub use departure::{InItsPlace, departs, departure, spare};
pub use display::hex;
pub use fewest::fewest;
pub use fields::ScriptError;
pub use parse::{Parsed, decimal, hex_bytes, out_of_range, parse_line};
pub use text::text;
pub use values::{
    Bytes, Category, ControllerState, Data, DeviceId, DeviceState, Direction, Error, PortId,
    Profile, Reading, RequestId, Setup, TransferType, fnv1a,
};

/// One of the programs that are compared.
pub trait Side {
    /// Applies a call. An error means that this side has no answer to it: the
    /// run stops there.
    fn apply(&mut self, call: &Call) -> Result<Answer, String>;
}

/// Runs a script's text and hands every answer line to `print`.
pub fn run(
    side: &mut dyn Side,
    text: &str,
    mut print: impl FnMut(&str),
) -> Result<usize, ScriptError> {
    let mut calls = 0;
    for (index, line) in text.lines().enumerate() {
        let number = index + 1;
        let Some(call) = parse_line(number, line)? else {
            continue;
        };
        let answer = side
            .apply(&call)
            .map_err(|message| ScriptError::new(number, message))?;
        print(&answer.to_string());
        calls += 1;
    }
    Ok(calls)
}

/// The first answer line (from 1) where two lists of answers differ, with both
/// lines; a missing line is `None`.
pub fn first_difference<'a>(
    expected: &'a str,
    actual: &'a str,
) -> Option<(usize, Option<&'a str>, Option<&'a str>)> {
    let (mut left, mut right) = (expected.lines(), actual.lines());
    for number in 1.. {
        match (left.next(), right.next()) {
            (None, None) => return None,
            (a, b) if a == b => {}
            (a, b) => return Some((number, a, b)),
        }
    }
    None
}

#[cfg(test)]
mod tests {
    use super::*;

    #[test]
    fn equal_answers_have_no_difference() {
        assert_eq!(first_difference("a\nb\n", "a\nb\n"), None);
    }

    #[test]
    fn a_changed_answer_is_found() {
        let found = first_difference("a\nb\nc\n", "a\nx\nc\n");
        assert_eq!(found, Some((2, Some("b"), Some("x"))));
    }

    #[test]
    fn a_missing_or_extra_answer_is_found() {
        assert_eq!(
            first_difference("a\nb\n", "a\n"),
            Some((2, Some("b"), None))
        );
        assert_eq!(
            first_difference("a\n", "a\nb\n"),
            Some((2, None, Some("b")))
        );
    }
}
