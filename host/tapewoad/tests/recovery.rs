//! The lower layer of an abort or reset: two calls, the lists beside the answer,
//! and what only the port can refuse.
mod common;

use common::store::{ERROR, completion, others, ready_with, refusal, submit, words};
use common::{DEVICE, ENDPOINTS, WORD, id, snapshot};
use tapewoad::calls::*;
use tapewoad::library::{self, Memory};
use tapewoad::{
    ControllerState, DeviceId, DeviceSnapshot, Direction, ErrorCategory, Opening, TransferType,
};

fn read(device: DeviceId, endpoint: u8) -> Call<'static> {
    Call::SubmitRequestPackets(Submit {
        device,
        endpoint,
        transfer_type: TransferType::Bulk,
        direction: Direction::In,
        length: 8,
        setup: None,
        data: &[],
        packets: None,
        readings: [Ok(WORD), Ok(WORD)],
    })
}

fn hand_over(store: &mut Store, call: &Call<'_>, token: u64) {
    assert!(matches!(store.apply(call), Answer::Begun { .. }));
    let answer = store.apply(&Call::SubmitReply(Ok(token)));
    assert!(matches!(answer, Answer::Report(_)));
}

/// Rows 0 to 2 are held, of device and endpoint 81h, with the tokens 7, 8, 9.
fn three() -> Store {
    let mut store = ready_with(4);
    for token in 7..10 {
        hand_over(&mut store, &read(DEVICE, 0x81), token);
    }
    store
}

fn started(store: &mut Store, call: &Call<'_>) -> Recovering {
    match store.apply(call) {
        Answer::Recover(recovering) => recovering,
        answer => panic!("{answer:?}"),
    }
}

fn reported(answer: Answer) -> AbortReport {
    match answer {
        Answer::Recovered(report) => report,
        answer => panic!("{answer:?}"),
    }
}

fn done(data: &[u8]) -> Completion<'_> {
    Completion {
        actual_length: Some(data.len() as u64),
        completion_code: Some(1),
        data: Some(data),
        error: None,
        quiescent: true,
    }
}

fn whole<'a>(completed: &'a [(u64, Completion<'a>)], aborted: &'a [u64]) -> Call<'a> {
    Call::RecoveryReply(Ok(Abort {
        completed,
        aborted,
        restart_ready: true,
        error: None,
    }))
}

#[test]
fn a_recovery_is_two_calls() {
    let mut store = three();
    let recovering = started(&mut store, &Call::AbortRequest(id(1)));
    assert_eq!(recovering.target, id(1));
    assert_eq!((recovering.device, recovering.endpoint), (DEVICE, 0x81));
    assert_eq!(recovering.kind, Recovery::Abort);
    assert_eq!(recovering.tokens, [7, 8, 9]);
    let completed = &[(9, done(&[1, 2, 3])), (7, done(&[]))];
    let report = reported(store.apply(&whole(completed, &[8])));
    assert_eq!(report.target, id(1));
    assert_eq!((report.device, report.endpoint), (DEVICE, 0x81));
    assert_eq!(report.completed, [id(2), id(0)]);
    assert_eq!(report.aborted, [id(1)]);
    assert_eq!((report.restart_ready, report.error), (true, None));
    assert_eq!(store.completed_bytes(id(2)).unwrap(), [1, 2, 3]);
    assert_eq!(store.completed_bytes(id(0)).unwrap(), []);
    assert_eq!(store.apply(&Call::HeldCount), Answer::Number(0));
    assert_eq!(store.status().state, ControllerState::Initialized);
}

#[test]
fn a_reset_says_whether_the_toggle_is_kept() {
    for preserve in [false, true] {
        let mut store = three();
        let call = Call::ResetEndpointRequest {
            target: id(0),
            preserve,
        };
        let recovering = started(&mut store, &call);
        assert_eq!(recovering.kind, Recovery::Reset { preserve });
        reported(store.apply(&whole(&[], &[9, 8, 7])));
    }
}

/// By ascending id whatever the rows, equal ones too, and none of another
/// endpoint, slot or generation.
#[test]
fn the_tokens_are_those_of_the_affected_rows() {
    let mut store = ready_with(8);
    let (next, other) = (
        DeviceId {
            generation: 2,
            ..DEVICE
        },
        DeviceId { slot: 3, ..DEVICE },
    );
    let place = |store: &mut Store, id: DeviceId| {
        let device = DeviceSnapshot { id, ..snapshot() };
        let (slot, endpoints) = (id.slot, &ENDPOINTS[..]);
        for call in [
            Call::SetDevice(device),
            Call::SetEndpoints { slot, endpoints },
        ] {
            assert_eq!(store.apply(&call), Answer::Passed);
        }
    };
    for token in [3, 9, 5, 9] {
        hand_over(&mut store, &read(DEVICE, 0x81), token);
    }
    // The freed first row is the latest request's.
    store.apply(&Call::PollRequest(id(0)));
    store.apply(&completion(&[1]));
    store.apply(&Call::ReclaimRequest(id(0)));
    hand_over(&mut store, &read(DEVICE, 0x81), 4);
    hand_over(&mut store, &submit(), 20);
    place(&mut store, other);
    hand_over(&mut store, &read(other, 0x81), 21);
    place(&mut store, next);
    hand_over(&mut store, &read(next, 0x81), 22);
    for (sequence, expected) in [(2, &[9, 5, 9, 4][..]), (5, &[20]), (6, &[21]), (7, &[22])] {
        let abort = Call::AbortRequest(id(sequence));
        assert_eq!(started(&mut store, &abort).tokens, expected);
        assert_eq!(refusal(store.apply(&Call::RecoveryReply(Err(ERROR)))), 45);
    }
}

#[test]
fn reports_are_answered_during_a_recovery_and_other_calls_are_not() {
    let mut store = three();
    started(&mut store, &Call::AbortRequest(id(0)));
    assert_eq!(store.apply(&Call::HeldCount), Answer::Number(3));
    assert_eq!(store.apply(&Call::HeldBytes), Answer::Number(24));
    assert_eq!(store.apply(&Call::CountReports), Answer::Number(3));
    let report = store.apply(&Call::RequestStatus(id(0)));
    assert!(matches!(report, Answer::Report(_)));
    let reports = Call::RequestReports { after: None };
    assert_eq!(store.apply(&reports), report);
    assert_eq!(store.completed_bytes(id(0)).unwrap(), []);
    for call in others() {
        assert_eq!(refusal(store.apply(&call)), 1, "{call:?}");
    }
    for call in [
        Call::SubmitReply(Ok(2)),
        Call::PollReply(Ok(None)),
        completion(&[1]),
    ] {
        assert_eq!(refusal(store.apply(&call)), 2, "{call:?}");
    }
    // The refused calls changed nothing: the reply still fits.
    reported(store.apply(&whole(&[], &[7, 8, 9])));
}

#[test]
fn a_reply_fits_only_a_recovery() {
    let mut store = three();
    for reply in [Call::RecoveryReply(Err(ERROR)), whole(&[], &[7, 8, 9])] {
        assert_eq!(refusal(store.apply(&reply)), 2);
    }
    store.apply(&Call::PollRequest(id(0)));
    assert_eq!(refusal(store.apply(&whole(&[], &[7, 8, 9]))), 2);
    assert!(matches!(store.apply(&completion(&[1])), Answer::Report(_)));
    assert!(matches!(store.apply(&submit()), Answer::Begun { .. }));
    assert_eq!(refusal(store.apply(&Call::RecoveryReply(Err(ERROR)))), 2);
    store.apply(&Call::SubmitReply(Ok(1)));
    // The first one ends it.
    started(&mut store, &Call::AbortRequest(id(1)));
    reported(store.apply(&whole(&[], &[8, 9])));
    assert_eq!(refusal(store.apply(&whole(&[], &[8, 9]))), 2);
}

#[test]
fn only_held_requests_are_recovered() {
    let mut store = three();
    assert_eq!(refusal(store.apply(&Call::AbortRequest(id(3)))), 40);
    store.apply(&Call::PollRequest(id(0)));
    store.apply(&completion(&[1]));
    assert_eq!(refusal(store.apply(&Call::AbortRequest(id(0)))), 43);
    // No calls lead to a held row in these states.
    for state in [
        ControllerState::Closed,
        ControllerState::AcquiredUnknown,
        ControllerState::Closing,
    ] {
        store.session_words_mut()[6] = state as u64;
        let before = words(&store);
        assert_eq!(refusal(store.apply(&Call::AbortRequest(id(1)))), 44);
        let reset = Call::ResetEndpointRequest {
            target: id(1),
            preserve: true,
        };
        assert_eq!(refusal(store.apply(&reset)), 44);
        assert_eq!(words(&store), before);
    }
}

/// Word 8 of a reply counts its tokens, word 9 its completions, and the last word
/// of a completion its bytes.
#[test]
fn lists_that_disagree_leave_the_recovery_in_flight() {
    let mut store = three();
    started(&mut store, &Call::AbortRequest(id(0)));
    let before = words(&store);
    let completed = [(7, done(&[1])), (8, done(&[3]))];
    let good = whole(&completed, &[9]).words();
    let bytes_of = 10 + 2 + 10;
    for (place, word, bytes) in [
        (9, 1, &[1, 3][..]),
        (9, 0, &[1, 3]),
        (9, 0, &[]),
        (bytes_of, 0, &[1, 3]),
        (bytes_of, 2, &[1, 3]),
        (bytes_of, u64::MAX, &[1, 3]),
        (bytes_of, u64::MAX, &[]),
        (bytes_of, 1, &[1]),
        (bytes_of, 1, &[]),
        (bytes_of, 1, &[1, 3, 4]),
    ] {
        let mut call = good.clone();
        call[place] = word;
        let answer = store.apply_words(&call, bytes).unwrap();
        assert_eq!(refusal(answer), 49, "{place} {word} {bytes:?}");
        assert_eq!(words(&store), before);
    }
    let mut call = good.clone();
    call[8] = 3;
    call.insert(10, 9);
    assert_eq!(refusal(store.apply_words(&call, &[1, 3]).unwrap()), 49);
    // An error's lists come first too.
    let error = [24, 1, 0, 0, 4, 77, 0, 0, 1, 0, 7];
    assert_eq!(refusal(store.apply_words(&error, &[]).unwrap()), 49);
    let report = reported(store.apply_words(&good, &[1, 3]).unwrap());
    assert_eq!(report.completed, [id(0), id(1)]);
    assert_eq!(store.completed_bytes(id(1)).unwrap(), [3]);
}

/// Bytes of a completion that brings none are skipped.
#[test]
fn skipped_bytes_belong_to_their_completion() {
    let mut store = three();
    started(&mut store, &Call::AbortRequest(id(0)));
    let lost = Completion {
        data: None,
        ..done(&[])
    };
    let mut call = whole(&[(7, done(&[1])), (8, lost)], &[9]).words();
    *call.get_mut(10 + 2 + 11 + 10).expect("its bytes") = 2;
    let answer = store.apply_words(&call, &[1, 2, 3]).unwrap();
    assert_eq!(refusal(answer), 48);
    assert_eq!(store.completed_bytes(id(0)).unwrap(), [1]);
    assert_eq!(store.status().state, ControllerState::RecoveryRequired);
}

#[test]
fn an_error_marks_and_takes_nothing_back() {
    let mut store = three();
    started(&mut store, &Call::AbortRequest(id(0)));
    let refused = Refusal::new(45, ERROR);
    let answer = store.apply(&Call::RecoveryReply(Err(ERROR)));
    assert_eq!(answer, Answer::Refused(refused));
    assert_eq!(store.status().state, ControllerState::RecoveryRequired);
    assert_eq!(store.apply(&Call::HeldCount), Answer::Number(3));
}

#[test]
fn words_out_of_range_are_no_reply() {
    let mut store = three();
    started(&mut store, &Call::AbortRequest(id(0)));
    let before = words(&store);
    let good = whole(&[(7, done(&[1])), (8, done(&[2]))], &[9]).words();
    let second = 10 + 2 + 11;
    let mut bad = vec![good[..9].to_vec(), good[..good.len() - 2].to_vec()];
    for (place, word) in [
        (1, 2),
        (2, 2),
        (3, 2),
        (4, 7),
        (5, 65_536),
        (6, (1 << 32) + 1),
        (7, (1 << 32) + 1),
        // Counts past the words.
        (8, 4),
        (9, 3),
        (8, u64::MAX),
        (8, u64::MAX - 9),
        (9, u64::MAX),
        (9, u64::MAX / 11 + 1),
        // A completion's error, length, code, data and quiescence.
        (second, 2),
        (second + 1, 7),
        (second + 2, 65_536),
        (second + 3, (1 << 32) + 1),
        (second + 4, (1 << 32) + 1),
        (second + 5, 2),
        (second + 7, (1 << 32) + 1),
        (second + 8, 2),
        (second + 9, 2),
    ] {
        let mut call = good.clone();
        call[place] = word;
        bad.push(call);
    }
    for call in bad {
        let answer = store.apply_words(&call, &[1, 2]);
        assert_eq!(answer, Err(Status::NoCall), "{call:?}");
        assert_eq!(words(&store), before);
    }
    reported(store.apply_words(&good, &[1, 2]).unwrap());
}

#[test]
fn more_tokens_than_can_be_held_are_out_of_scope() {
    for completed in [false, true] {
        let mut store = three();
        started(&mut store, &Call::AbortRequest(id(0)));
        let tokens: Vec<u64> = (7..307).collect();
        let entries: Vec<_> = tokens.iter().map(|token| (*token, done(&[5]))).collect();
        let reply = match completed {
            true => whole(&entries, &[]),
            false => whole(&[], &tokens),
        };
        assert_eq!(refusal(store.apply(&reply)), 46);
        assert_eq!(store.apply(&Call::HeldCount), Answer::Number(3));
    }
}

/// As many ids as the lists ever have.
#[test]
fn all_that_can_be_held_is_recovered_at_once() {
    let mut store = ready_with(128);
    for token in (1..=128).rev() {
        hand_over(&mut store, &read(DEVICE, 0x81), token);
    }
    let tokens: Vec<u64> = (1..=128).rev().collect();
    let abort = Call::AbortRequest(id(127));
    assert_eq!(started(&mut store, &abort).tokens, tokens);
    let data: Vec<Vec<u8>> = (0..64).map(|it| vec![it; usize::from(it) % 9]).collect();
    let entries = tokens[64..]
        .iter()
        .copied()
        .zip(data.iter().map(|it| done(it)));
    let entries: Vec<_> = entries.collect();
    let report = reported(store.apply(&whole(&entries, &tokens[..64])));
    let ids: Vec<_> = (0..128).map(id).collect();
    assert_eq!(
        (&report.aborted[..], &report.completed[..]),
        ids.split_at(64)
    );
    for (id, data) in report.completed.iter().zip(&data) {
        assert_eq!(store.completed_bytes(*id).unwrap(), data);
    }
    assert_eq!(store.apply(&Call::HeldCount), Answer::Number(0));
}

#[test]
fn an_invalid_completion_says_its_code() {
    let mut store = three();
    started(&mut store, &Call::AbortRequest(id(0)));
    let stalled = Completion {
        completion_code: Some(6),
        ..done(&[])
    };
    let answer = store.apply(&whole(&[(8, done(&[1])), (7, stalled)], &[9]));
    let error = Error::new(ErrorCategory::RecoveryRequired, 48).with_completion_code(6);
    assert_eq!(answer, Answer::Refused(Refusal::new(48, error)));
    // The entry before it stays.
    assert_eq!(store.completed_bytes(id(1)).unwrap(), [1]);
    assert_eq!(store.apply(&Call::HeldCount), Answer::Number(2));
}

#[test]
fn an_opening_ends_a_recovery() {
    let mut store = three();
    started(&mut store, &Call::AbortRequest(id(0)));
    assert_eq!(store.open(Opening::new(5, None)), Answer::Passed);
    assert_eq!(refusal(store.apply(&Call::RecoveryReply(Err(ERROR)))), 2);
}

/// Memory that is lent call by call, lists of its own among it.
struct Lent {
    session: Vec<u64>,
    bus: Vec<u64>,
    rows: Vec<u64>,
    area: Vec<u8>,
    lists: Vec<u64>,
}

const UNTOUCHED: u64 = 0x7777;

impl Lent {
    fn new(rows: usize) -> Self {
        Self {
            session: vec![0; SESSION_WORDS],
            bus: vec![0; BUS_WORDS],
            rows: vec![0; ROW_WORDS * rows],
            area: vec![0; 16 * rows],
            lists: vec![UNTOUCHED; LIST_WORDS + 5],
        }
    }

    /// The answer's tag.
    fn apply(&mut self, call: &Call<'_>) -> u64 {
        let memory = Memory {
            session: &mut self.session,
            bus: &mut self.bus,
            rows: &mut self.rows,
            area: &mut self.area,
        };
        let (words, bytes) = (call.words(), call.bytes());
        let mut out = [0; ANSWER_WORDS];
        let status = library::apply(memory, &words, &bytes, &mut out, &mut self.lists);
        assert_eq!(status, 0, "{call:?}");
        out[0]
    }

    /// The words written, and that no others were.
    fn written(&mut self, words: &[u64]) {
        let (first, rest) = self.lists.split_at(words.len());
        assert_eq!(first, words);
        assert!(rest.iter().all(|word| *word == UNTOUCHED));
        self.lists.fill(UNTOUCHED);
    }
}

#[test]
fn lists_are_left_alone_but_by_a_recovery() {
    let mut lent = Lent::new(4);
    let set_port = Call::SetPort {
        number: 1,
        generation: 1,
        reading: Some(WORD),
    };
    let set_endpoints = Call::SetEndpoints {
        slot: 2,
        endpoints: &ENDPOINTS,
    };
    let read = read(DEVICE, 0x81);
    let abort = Call::AbortRequest(id(0));
    let completed = [(8, done(&[1]))];
    let untouched = &[][..];
    let open = Call::Open {
        opening: Opening::new(1, Some(1)),
        rows: 4,
        row_bytes: 16,
    };
    let calls = [
        (open, 1, untouched),
        (Call::SetDevice(snapshot()), 1, untouched),
        (set_port, 1, untouched),
        (set_endpoints, 1, untouched),
        (Call::SetReconcile { slot: 9, set: true }, 1, untouched),
        (Call::Acquire(Ok(())), 1, untouched),
        (Call::Initialize(Ok(())), 1, untouched),
        (read, 2, untouched),
        (Call::SubmitReply(Ok(7)), 4, untouched),
        (read, 2, untouched),
        (Call::SubmitReply(Ok(8)), 4, untouched),
        (Call::PollRequest(id(0)), 6, untouched),
        (abort, 0, untouched),
        (Call::PollReply(Ok(None)), 4, untouched),
        (Call::LogicalCancelRequest(id(0)), 4, untouched),
        (Call::WithdrawCancelRequest(id(0)), 4, untouched),
        (Call::TimeoutRequest(id(0)), 4, untouched),
        (Call::RequestStatus(id(0)), 4, untouched),
        (Call::RequestReports { after: None }, 4, untouched),
        (Call::CountReports, 7, untouched),
        (Call::CompletedBytes(id(0)), 8, untouched),
        (Call::HeldCount, 7, untouched),
        (Call::HeldBytes, 7, untouched),
        (Call::AbortRequest(id(9)), 0, untouched),
        (Call::RecoveryReply(Err(ERROR)), 0, untouched),
        (abort, 9, &[2, 7, 8]),
        (Call::HeldCount, 7, untouched),
        (abort, 0, untouched),
        (Call::RecoveryReply(Err(ERROR)), 0, untouched),
        (abort, 9, &[2, 7, 8]),
        (whole(&[], &[7]), 0, untouched),
        (abort, 9, &[2, 7, 8]),
        (whole(&completed, &[7]), 10, &[1, 1, 0, 1, 1, 1, 0, 0]),
        (abort, 0, untouched),
        (Call::ReclaimRequest(id(0)), 4, untouched),
    ];
    for (call, tag, written) in calls {
        assert_eq!(lent.apply(&call), tag, "{call:?}");
        lent.written(written);
    }
}
