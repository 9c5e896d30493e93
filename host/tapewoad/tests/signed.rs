//! A system number's word is one more than its two's complement in 32 bits: on
//! the way in, and raw in `out` on the way back.
mod common;

use common::id;
use common::raw::Raw;
use common::store::{ERROR, submit};
use tapewoad::calls::*;

/// Numbers with their words, as docs/CALLS.md has them.
const WORDS: [(i32, u64); 6] = [
    (-5, 4_294_967_292),
    (-1, 4_294_967_296),
    (0, 1),
    (5, 6),
    (i32::MAX, 2_147_483_648),
    (i32::MIN, 2_147_483_649),
];

fn error(number: i32) -> Error {
    ERROR.with_os_code(number)
}

/// A submission in flight, to the only row.
fn submitting() -> Raw {
    let mut raw = Raw::ready(1);
    assert_eq!(raw.apply(&submit())[0], 2);
    raw
}

#[test]
fn a_refusal_has_the_backends_number() {
    for (number, word) in WORDS {
        let reply = Call::SubmitReply(Err(error(number)));
        assert_eq!(reply.words(), [10, 1, 0, 4, 77, word, 0]);
        let out = submitting().apply(&reply);
        assert_eq!(out[..6], [0, 45, 4, 77, word, 0]);
    }
}

#[test]
fn a_failed_row_has_the_completions_number() {
    for (number, word) in WORDS {
        let mut raw = submitting();
        assert_eq!(raw.apply(&Call::SubmitReply(Ok(7)))[0], 4);
        assert_eq!(raw.apply(&Call::PollRequest(id(0)))[0], 6);
        let completion = Completion {
            actual_length: None,
            completion_code: Some(6),
            data: None,
            error: Some(error(number)),
            quiescent: true,
        };
        let reported = raw.apply(&Call::PollReply(Ok(Some(completion))));
        // Tag, request id and metadata are 17 words; then Failed, category,
        // message, quiescent, system number, the error's code, the completion's.
        assert_eq!(reported[17..24], [2, 4, 77, 1, word, 0, 7]);
        // It was kept in the row's words.
        assert_eq!(raw.apply(&Call::RequestStatus(id(0))), reported);
    }
}
