//! A word that a call does not read must be 0: with any other it is no call.
mod common;

use common::store::{ERROR, ready, submit, words};
use common::{DEVICE, WORD, id};
use tapewoad::calls::*;
use tapewoad::{ControlProfile, Opening, SetupPacket};

/// A call with the places of the words that it does not read.
type Unread<'a> = (Call<'a>, Vec<usize>);

fn openings() -> Vec<Unread<'static>> {
    let opening = Opening::new(2, None).with_recovery_revision(None);
    let open = Call::Open {
        opening,
        rows: 2,
        row_bytes: 16,
    };
    vec![(open, vec![4, 6])]
}

fn state_calls() -> Vec<Unread<'static>> {
    let close = |fresh, reply| Call::Close { fresh, reply };
    vec![
        (Call::Acquire(Ok(())), (2..7).collect()),
        (Call::Initialize(Ok(())), (2..6).collect()),
        (close(None, Ok(())), vec![2, 4, 5, 6, 7]),
        (close(None, Err(ERROR)), vec![2]),
        (close(Some(9), Ok(())), (4..8).collect()),
    ]
}

fn submissions() -> Vec<Unread<'static>> {
    let Call::SubmitRequestPackets(good) = submit() else {
        unreachable!("a submission")
    };
    let setup = SetupPacket {
        request_type: 0,
        request: 1,
        value: 0,
        index: 0,
        length: 0,
    };
    let plan = Plan {
        device: DEVICE,
        profile: ControlProfile::Compliant,
        setup,
        data_stage: None,
        status_direction: None,
        data: &[],
        reading: Ok(WORD),
    };
    let no_setup = 9..14;
    let no_errors = (16..20).chain(22..26);
    let failed = Submit {
        setup: Some(setup),
        readings: [Err(ERROR), Err(ERROR)],
        ..good
    };
    let failed_plan = Plan {
        reading: Err(ERROR),
        ..plan
    };
    vec![
        (submit(), no_setup.chain(no_errors).collect()),
        (Call::SubmitRequestPackets(failed), vec![15, 21]),
        (Call::SubmitControlPlan(plan), vec![11, 12, 16, 17, 18, 19]),
        (Call::SubmitControlPlan(failed_plan), vec![11, 12, 15]),
        (Call::SubmitReply(Ok(7)), (3..7).collect()),
        (Call::SubmitReply(Err(ERROR)), vec![2]),
    ]
}

const COMPLETION: Completion<'static> = Completion {
    actual_length: None,
    completion_code: None,
    data: None,
    error: None,
    quiescent: false,
};

fn polls_and_reports() -> Vec<Unread<'static>> {
    let poll = |completion| Call::PollReply(Ok(completion));
    let failed = Completion {
        error: Some(ERROR),
        ..COMPLETION
    };
    let whole = Completion {
        actual_length: Some(0),
        ..COMPLETION
    };
    vec![
        (poll(None), (2..12).collect()),
        (
            Call::PollReply(Err(ERROR)),
            [2].into_iter().chain(7..12).collect(),
        ),
        (poll(Some(COMPLETION)), vec![3, 4, 5, 6, 8]),
        (poll(Some(failed)), vec![8]),
        (poll(Some(whole)), (3..7).collect()),
        (Call::RequestReports { after: None }, vec![2, 3, 4]),
    ]
}

/// A recovery's reply has its completions from word 10 + n on.
fn recoveries<'a>(completed: &'a [(u64, Completion<'a>); 2]) -> Vec<Unread<'a>> {
    let abort = Abort {
        completed,
        aborted: &[5],
        restart_ready: false,
        error: None,
    };
    let failed = Abort {
        error: Some(ERROR),
        completed: &[],
        ..abort
    };
    let (first, second) = (12, 12 + 11);
    let own = (4..8).chain(first + 1..first + 5).chain([first + 6]);
    vec![
        (Call::RecoveryReply(Err(ERROR)), vec![2, 3]),
        (
            Call::RecoveryReply(Ok(abort)),
            own.chain([second + 6]).collect(),
        ),
        (Call::RecoveryReply(Ok(failed)), vec![]),
    ]
}

fn completions() -> [(u64, Completion<'static>); 2] {
    let failed = Completion {
        error: Some(ERROR),
        ..COMPLETION
    };
    [(7, COMPLETION), (8, failed)]
}

#[test]
fn a_word_that_is_not_read_is_0() {
    let completed = completions();
    let calls = [
        openings(),
        state_calls(),
        submissions(),
        polls_and_reports(),
        recoveries(&completed),
    ];
    for (call, places) in calls.into_iter().flatten() {
        let (good, bytes) = (call.words(), call.bytes());
        for place in places {
            assert_eq!(good[place], 0, "{call:?}: word {place}");
            let mut store = ready();
            let before = words(&store);
            let mut bad = good.clone();
            bad[place] = 1;
            let answer = store.apply_words(&bad, &bytes);
            assert_eq!(answer, Err(Status::NoCall), "{call:?}: word {place}");
            assert_eq!(words(&store), before);
        }
        assert!(ready().apply_words(&good, &bytes).is_ok(), "{call:?}");
    }
}

#[test]
fn packet_lengths_come_only_where_they_are_given() {
    let good = submit().words();
    assert_eq!(good[26], 0);
    for packets in [&[0][..], &[3], &[1, 2]] {
        let bad = [&good[..], packets].concat();
        let answer = ready().apply_words(&bad, &[1, 2, 3]);
        assert_eq!(answer, Err(Status::NoCall), "{packets:?}");
    }
}

/// What is in flight stays so where the words are no reply.
#[test]
fn words_that_are_no_reply_end_nothing() {
    let mut store = ready();
    assert!(matches!(store.apply(&submit()), Answer::Begun { .. }));
    let answer = store.apply_words(&[10, 0, 7, 0, 0, 0, 1], &[]);
    assert_eq!(answer, Err(Status::NoCall));
    let answer = store.apply(&Call::SubmitReply(Ok(7)));
    assert!(matches!(answer, Answer::Report(_)));
    assert_eq!(
        store.apply(&Call::PollRequest(id(0))),
        Answer::Ask { token: 7 }
    );
    let error = [12, 1, 1, 4, 77, 0, 0, 0, 0, 0, 0, 0];
    assert_eq!(store.apply_words(&error, &[]), Err(Status::NoCall));
    let answer = store.apply(&Call::PollReply(Ok(None)));
    assert!(matches!(answer, Answer::Report(_)));
}
