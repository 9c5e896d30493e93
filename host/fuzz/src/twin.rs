//! A call that only reads, held against one that may change things.
use tapewoad::calls::{ANSWER_WORDS, LIST_WORDS};

use crate::lent::{Function, Slices};

/// What the call that changes things is lent in place of one that reads: the same
/// report, or the submission that a question is about.
pub fn of(before: &Slices) -> Option<Slices> {
    let number = match before.call[0] {
        number @ 16..=21 => number,
        27 => 8,
        28 => 9,
        _ => return None,
    };
    let mut twin = before.clone();
    twin.function = Function::Apply;
    twin.call[0] = number;
    twin.lists.resize(LIST_WORDS, 0);
    Some(twin)
}

/// What both answered: a report the same, and a reading is wanted just where the
/// submission is refused by its error (33).
pub fn check(call: &[u64], read: &[u64], applied: &[u64]) -> Result<(), String> {
    let (read, applied) = (&read[..ANSWER_WORDS], &applied[..ANSWER_WORDS]);
    let agree = match call[0] {
        16..=21 => read == applied,
        _ => {
            let refused = applied[..2] == [0, 33];
            let error = |first| call.get(first..first + 4) == Some(&applied[2..6]);
            match read[1] {
                0 => !refused,
                1 => refused && error(16),
                _ => refused && error(22),
            }
        }
    };
    match agree {
        true => Ok(()),
        false => Err(format!("reads {read:?} where the call answers {applied:?}")),
    }
}
