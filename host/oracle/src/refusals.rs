//! From the Rust's messages to the refusal numbers of document 01.
use script::Error;

use crate::convert;
use crate::domain::models::OperationError;

/// Every message that a call can be refused with, and its number.
const MESSAGES: &[(&str, u16)] = &[
    ("iso packet lengths must sum to the requested buffer", 4),
    ("request limit reached; reclaim terminal requests", 5),
    ("single-TRB profile is bounded to64KiB", 6),
    ("single data-stage TRB is limited to64KiB", 6),
    ("reserved endpoint address bits", 8),
    ("invalid control endpoint or length", 9),
    ("control SETUP required", 10),
    (
        "ordinary control TD requires matching setup/data lengths",
        11,
    ),
    ("SETUP direction mismatch", 12),
    ("reserved USB recipient/type", 13),
    (
        "use explicit address/configuration/interface operations for lifecycle requests",
        14,
    ),
    ("non-control endpoint required without SETUP", 15),
    ("endpoint direction mismatch", 16),
    (
        "OUT data must match length; IN data is allocated by the owner",
        17,
    ),
    (
        "partial/delayed stage execution is outside the reviewed library profile",
        18,
    ),
    ("xHCI intercepts SET_ADDRESS; use Address Device/BSR", 19),
    (
        "use the explicit configuration/interface command to retain host state",
        20,
    ),
    ("reserved compliant USB request fields", 21),
    ("compliant SETUP/data stages disagree", 22),
    ("compliant status direction mismatch", 23),
    ("stage data length/direction mismatch", 24),
    ("no-data plan contains payload", 25),
    ("slot requires raw reconciliation", 26),
    ("unknown or stale device", 27),
    ("controller not initialized", 28),
    ("controller is not initialized", 28),
    ("ports unavailable", 29),
    ("ports not initialized", 29),
    ("invalid root port", 30),
    ("stale port identity", 31),
    ("port has not been observed", 32),
    ("port generation exhausted", 34),
    ("EP0 is not prepared", 35),
    ("endpoint requests require configuration", 36),
    ("Low Speed has no bulk transfers", 37),
    ("endpoint/type not configured in host", 38),
    ("request ID exhausted", 39),
    ("unknown or stale request", 40),
    ("unknown or reclaimed request", 40),
    ("unknown request", 40),
    ("request is no longer pending", 41),
    ("device still owns request", 42),
    ("request already terminal", 43),
    ("controller unavailable for recovery", 44),
    ("inconsistent abort scope/result tokens", 46),
    ("abort completion missing length", 47),
    ("invalid completion in abort result", 48),
    ("session already owns or retains a controller", 50),
    ("initialize requires acquired unknown state", 51),
    ("session identity exhausted", 52),
];

/// The error that an invalid completion leaves in its row, as message 48.
const INVALID_COMPLETION: &str = "backend returned an unconfirmed or invalid completion";

/// Prefixes of the backend's own errors: its message number follows.
const FROM_READING: &str = "port reading, message ";
const FROM_BACKEND: &str = "backend, message ";

pub fn reading_error(error: Error) -> OperationError {
    convert::operation_error(error, format!("{FROM_READING}{}", error.message))
}

pub fn backend_error(error: Error) -> OperationError {
    convert::operation_error(error, format!("{FROM_BACKEND}{}", error.message))
}

/// The refusal's number and its error; the backend's own for 33 and 45.
pub fn refusal(error: &OperationError) -> Result<(u16, Error), String> {
    let (number, message) = if let Some(message) = suffix(error, FROM_READING) {
        (33, message)
    } else if let Some(message) = suffix(error, FROM_BACKEND) {
        (45, message)
    } else {
        let number = number_of(&error.message)?;
        (number, number)
    };
    Ok((number, convert::error(error, message)))
}

/// The error of a Failed row or of an abort report.
pub fn recorded_error(error: &OperationError) -> Result<Error, String> {
    let message = match suffix(error, FROM_BACKEND) {
        Some(message) => message,
        None if error.message == INVALID_COMPLETION => 48,
        None => return Err(unmapped(&error.message)),
    };
    Ok(convert::error(error, message))
}

fn suffix(error: &OperationError, prefix: &str) -> Option<u16> {
    error.message.strip_prefix(prefix)?.parse().ok()
}

fn number_of(message: &str) -> Result<u16, String> {
    MESSAGES
        .iter()
        .find(|(text, _)| *text == message)
        .map(|(_, number)| *number)
        .ok_or_else(|| unmapped(message))
}

fn unmapped(message: &str) -> String {
    format!("the Rust's message \"{message}\" has no number in document 01")
}

#[cfg(test)]
mod tests {
    use super::*;

    #[test]
    fn an_unmapped_message_is_an_error_that_quotes_it() {
        let error = OperationError::validation("abort returned unknown collateral token");
        let message = refusal(&error).unwrap_err();
        assert!(message.contains("abort returned unknown collateral token"));
        assert!(recorded_error(&error).is_err());
    }

    #[test]
    fn no_message_has_two_numbers() {
        for (place, (text, _)) in MESSAGES.iter().enumerate() {
            let same = MESSAGES.iter().position(|(other, _)| other == text);
            assert_eq!(same, Some(place), "{text}");
        }
    }

    #[test]
    fn the_backends_message_numbers_come_back() {
        let error = Error {
            category: script::Category::Timeout,
            message: 65535,
            os_code: Some(-3),
            completion_code: Some(4),
        };
        assert_eq!(refusal(&reading_error(error)), Ok((33, error)));
        assert_eq!(refusal(&backend_error(error)), Ok((45, error)));
        assert_eq!(recorded_error(&backend_error(error)), Ok(error));
    }
}
