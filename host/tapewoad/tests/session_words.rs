//! Words that are no session's are told by status 2, whatever the call, and
//! nothing changes.
mod common;

use common::store::{completion, ready, submit, words};
use common::{DEVICE, id};
use tapewoad::Opening;
use tapewoad::calls::*;

/// Closed, without ports, revision and stall.
fn bare() -> Store {
    let mut store = Store::new(2, 16);
    let opening = Opening::new(1, None).with_recovery_revision(None);
    assert_eq!(store.open(opening), Answer::Passed);
    store
}

fn submitting() -> Store {
    let mut store = ready();
    assert!(matches!(store.apply(&submit()), Answer::Begun { .. }));
    store
}

fn polling() -> Store {
    let mut store = submitting();
    let answer = store.apply(&Call::SubmitReply(Ok(7)));
    assert!(matches!(answer, Answer::Report(_)));
    assert_eq!(
        store.apply(&Call::PollRequest(id(0))),
        Answer::Ask { token: 7 }
    );
    store
}

/// With a stall that is noted.
fn stalled() -> Store {
    let mut store = polling();
    let category = tapewoad::ErrorCategory::RecoveryRequired;
    let error = Error::new(category, 77).with_completion_code(6);
    let Call::PollReply(Ok(Some(done))) = completion(&[]) else {
        unreachable!("a completion")
    };
    let stall = Completion {
        completion_code: Some(6),
        error: Some(error),
        quiescent: false,
        ..done
    };
    store.apply(&Call::PollReply(Ok(Some(stall))));
    let stall = store.status().recoverable_stall.expect("a stall");
    assert_eq!(
        (stall.revision, stall.device, stall.endpoint),
        (1, DEVICE, 0x01)
    );
    store
}

/// With a stall, and a reset in flight that preserves the data toggle.
fn resetting() -> Store {
    let mut store = stalled();
    let reset = Call::ResetEndpointRequest {
        target: id(0),
        preserve: true,
    };
    assert!(matches!(store.apply(&reset), Answer::Recover(_)));
    store
}

fn calls() -> [Call<'static>; 5] {
    [
        Call::HeldCount,
        Call::RequestStatus(id(0)),
        Call::SubmitReply(Ok(7)),
        Call::Acquire(Ok(())),
        Call::Open {
            opening: Opening::new(2, None),
            rows: 2,
            row_bytes: 16,
        },
    ]
}

/// Every call is told status 2 with this word of the session, and leaves all as
/// it is; with the word that stood there it is answered.
fn refused(make: fn() -> Store, place: usize, word: u64) {
    for call in calls() {
        let mut store = make();
        let own = std::mem::replace(&mut store.session_words_mut()[place], word);
        assert_ne!(own, word, "word {place}");
        let before = words(&store);
        let answer = store.try_apply(&call);
        assert_eq!(answer, Err(Status::NoSession), "word {place} {word}");
        assert_eq!(words(&store), before);
        store.session_words_mut()[place] = own;
        assert!(store.try_apply(&call).is_ok(), "word {place}");
    }
}

#[test]
fn a_word_outside_its_field_is_no_sessions() {
    for (place, word) in [
        (3, 2),
        (5, 256),
        (6, 5),
        (6, 9),
        (6, u64::MAX),
        (7, 2),
        (9, 2),
        (13, 256),
        (14, 256),
        (14, 0x181),
        (15, 4),
        (21, 256),
        (22, 256),
        (22, 0x181),
        (23, 3),
    ] {
        refused(resetting, place, word);
    }
}

#[test]
fn a_value_beside_a_flag_of_0_is_no_sessions() {
    for place in [4, 5, 8, 10, 11, 12, 13, 14] {
        refused(bare, place, 1);
    }
    refused(bare, 14, 0x181);
}

#[test]
fn words_of_what_is_not_in_flight_are_no_sessions() {
    for place in 16..24 {
        refused(ready, place, 1);
    }
    for place in 19..24 {
        refused(submitting, place, 1);
        refused(polling, place, 1);
    }
    refused(ready, 22, 0x181);
}

#[test]
fn words_that_are_no_call_come_first() {
    let mut store = ready();
    store.session_words_mut()[6] = 9;
    assert_eq!(store.apply_words(&[25], &[]), Err(Status::NoCall));
    assert_eq!(store.apply_words(&[20], &[]), Err(Status::NoSession));
}

/// What the calls lead to, and zeros.
#[test]
fn a_sessions_own_words_pass() {
    for make in [bare, ready, submitting, polling, stalled, resetting] {
        for call in calls() {
            assert!(make().try_apply(&call).is_ok(), "{call:?}");
        }
    }
    let mut store = Store::new(2, 16);
    assert_eq!(store.session_words(), &[0; SESSION_WORDS]);
    for call in calls() {
        assert!(store.try_apply(&call).is_ok(), "{call:?}");
    }
}
