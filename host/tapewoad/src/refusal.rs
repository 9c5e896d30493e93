//! Refusals with their numbers, and the texts of both directions.
use std::collections::HashMap;
use std::fmt::{self, Display, Formatter};

use crate::calls;
use crate::models::{ErrorCategory, OperationError};

/// Why a call was refused: the number of document 01's table, and the error that
/// the original gives. For 33 and 45 it is the backend's own.
#[derive(Debug, Clone, PartialEq, Eq)]
#[non_exhaustive]
pub struct Refusal {
    /// The number of the table.
    pub number: u16,
    /// The original's error.
    pub error: OperationError,
}

impl From<Refusal> for OperationError {
    fn from(refusal: Refusal) -> Self {
        refusal.error
    }
}

impl Display for Refusal {
    fn fmt(&self, f: &mut Formatter<'_>) -> fmt::Result {
        write!(f, "refused ({})", self.number)
    }
}

impl std::error::Error for Refusal {
    fn source(&self) -> Option<&(dyn std::error::Error + 'static)> {
        Some(&self.error)
    }
}

/// The text of a refusal's number: the original's, or one of its texts where it
/// has several. 33 and 45 have none: their errors are the backend's own.
fn text(number: u16) -> &'static str {
    match number {
        1 => "an operation is in flight",
        2 => "the reply fits no operation",
        3 => "the store has a wrong size",
        4 => "iso packet lengths must sum to the requested buffer",
        5 => "request limit reached; reclaim terminal requests",
        6 => "single-TRB profile is bounded to64KiB",
        7 => "the store's rows are shorter",
        8 => "reserved endpoint address bits",
        9 => "invalid control endpoint or length",
        10 => "control SETUP required",
        11 => "ordinary control TD requires matching setup/data lengths",
        12 => "SETUP direction mismatch",
        13 => "reserved USB recipient/type",
        14 => "use explicit address/configuration/interface operations for lifecycle requests",
        15 => "non-control endpoint required without SETUP",
        16 => "endpoint direction mismatch",
        17 => "OUT data must match length; IN data is allocated by the owner",
        18 => "partial/delayed stage execution is outside the reviewed library profile",
        19 => "xHCI intercepts SET_ADDRESS; use Address Device/BSR",
        20 => "use the explicit configuration/interface command to retain host state",
        21 => "reserved compliant USB request fields",
        22 => "compliant SETUP/data stages disagree",
        23 => "compliant status direction mismatch",
        24 => "stage data length/direction mismatch",
        25 => "no-data plan contains payload",
        26 => "slot requires raw reconciliation",
        27 => "unknown or stale device",
        28 => "controller not initialized",
        29 => "ports unavailable",
        30 => "invalid root port",
        31 => "stale port identity",
        32 => "port has not been observed",
        34 => "port generation exhausted",
        35 => "EP0 is not prepared",
        36 => "endpoint requests require configuration",
        37 => "Low Speed has no bulk transfers",
        38 => "endpoint/type not configured in host",
        39 => "request ID exhausted",
        40 => "unknown or reclaimed request",
        41 => "request is no longer pending",
        42 => "device still owns request",
        43 => "request already terminal",
        44 => "controller unavailable for recovery",
        46 => "inconsistent abort scope/result tokens",
        47 => "abort completion missing length",
        48 => "backend returned an unconfirmed or invalid completion",
        49 => "the reply's lists disagree",
        50 => "session already owns or retains a controller",
        51 => "initialize requires acquired unknown state",
        52 => "session identity exhausted",
        53 => "too many endpoints",
        56 => "a paper has at most 65,536 bytes, eight an event",
        57 => "unknown event, or one with an unused field that is not zero",
        58 => "Low Speed has no isochronous transfers",
        59 => "request is not cancelled",
        60 => "the bench's request limit is reached",
        61 => "invalid calendar, date or minute",
        62 => "outside the reset windows",
        63 => "pending DMA ownership",
        64 => "generation exhausted",
        _ => "refused",
    }
}

/// Below are the library's own numbers, of which documents 01 and 02 name those
/// up to 64.
const FIRST: u16 = 1_024;
/// Stands for every text beyond the last that has a number of its own.
const OTHER: u16 = u16::MAX;
const OTHER_TEXT: &str = "backend error; its text was not kept";

/// The numbers of the backend's message texts: the library's errors have a
/// 16-bit number in place of a text.
#[derive(Default)]
pub struct Messages {
    texts: Vec<String>,
    numbers: HashMap<String, u16>,
}

impl Messages {
    fn number(&mut self, message: &str) -> u16 {
        if let Some(number) = self.numbers.get(message) {
            return *number;
        }
        let number = u16::try_from(usize::from(FIRST) + self.texts.len()).unwrap_or(OTHER);
        if number < OTHER {
            self.texts.push(message.into());
            self.numbers.insert(message.into(), number);
        }
        number
    }

    fn text(&self, number: u16) -> &str {
        match number.checked_sub(FIRST) {
            None => text(number),
            Some(place) => self
                .texts
                .get(usize::from(place))
                .map_or(OTHER_TEXT, String::as_str),
        }
    }

    /// The backend's error, as the library takes it.
    pub fn numbered(&mut self, error: &OperationError) -> calls::Error {
        calls::Error {
            category: error.category,
            message: self.number(&error.message),
            os_code: error.os_code,
            completion_code: error.completion_code,
        }
    }

    /// An error of the library's, with its text.
    pub fn error(&self, error: calls::Error) -> OperationError {
        OperationError {
            category: error.category,
            message: self.text(error.message).into(),
            os_code: error.os_code,
            completion_code: error.completion_code,
        }
    }

    /// A refusal of the library's, with its text: that of 48 is not the text of
    /// the row that a poll's invalid completion leaves.
    pub fn refusal(&self, refusal: calls::Refusal) -> Refusal {
        let mut error = self.error(refusal.error);
        if refusal.number == 48 {
            error.message = "invalid completion in abort result".into();
        }
        let number = refusal.number;
        Refusal { number, error }
    }
}

/// An error for calls that need one and will not read it.
pub const UNREAD: calls::Error = calls::Error::new(ErrorCategory::Validation, 0);

#[cfg(test)]
mod tests {
    use super::*;

    #[test]
    fn texts_come_back() {
        let mut messages = Messages::default();
        for (text, expected) in [("stopped", 1_024), ("gone", 1_025), ("stopped", 1_024)] {
            let error = OperationError {
                os_code: Some(-1),
                ..OperationError::validation(text)
            };
            let words = messages.numbered(&error);
            assert_eq!(words.message, expected);
            assert_eq!(messages.error(words), error);
        }
    }

    #[test]
    fn texts_beyond_the_last_number_share_one() {
        let mut messages = Messages::default();
        let mut last = 0;
        for place in 0..70_000 {
            last = messages.number(&place.to_string());
        }
        assert_eq!(last, OTHER);
        assert_eq!(messages.text(OTHER), OTHER_TEXT);
        assert_eq!(messages.text(OTHER - 1), "64510");
        assert_eq!(messages.number("0"), FIRST);
    }

    /// Every number that the documents name, but for those that carry the
    /// backend's own text.
    #[test]
    fn the_librarys_own_numbers_have_texts() {
        let mut messages = Messages::default();
        messages.number("stopped");
        let named = (1..=53).chain(56..=64);
        let texts: Vec<_> = named
            .filter(|number| ![33, 45].contains(number))
            .map(|number| messages.text(number))
            .collect();
        assert_eq!(texts.len(), 60);
        for (place, text) in texts.iter().enumerate() {
            assert_ne!(*text, "refused");
            assert!(!texts[..place].contains(text), "{text}");
        }
        assert_eq!(messages.text(40), "unknown or reclaimed request");
        assert_eq!(messages.text(64), "generation exhausted");
        for number in [0, 54, 55, 65, 1_023] {
            assert_eq!(messages.text(number), "refused");
        }
        assert_eq!(messages.text(1_024), "stopped");
    }

    #[test]
    fn an_invalid_completion_has_a_text_as_a_refusal_and_one_in_its_row() {
        let messages = Messages::default();
        let error = calls::Error {
            message: 48,
            ..UNREAD
        };
        let refusal = messages.refusal(calls::Refusal { number: 48, error });
        assert_eq!(refusal.error.message, "invalid completion in abort result");
        assert_eq!(messages.error(error).message, text(48));
    }
}
