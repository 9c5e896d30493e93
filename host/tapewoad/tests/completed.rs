//! The bytes of a request: of one that has no report they are refused.
mod common;

use common::id;
use common::raw::Raw;
use common::store::{completion, ready, refusal, submit};
use tapewoad::calls::*;
use tapewoad::library::{self, Memory};

fn number(store: &Store, sequence: u64) -> u16 {
    let bytes = store.completed_bytes(id(sequence)).map(<[u8]>::to_vec);
    bytes.unwrap_err().number
}

#[test]
fn bytes_of_what_has_no_report_are_refused() {
    let mut store = ready();
    assert_eq!(number(&store, 0), 40);
    store.apply(&submit());
    // Its id has no report before the reply.
    assert_eq!(number(&store, 0), 40);
    store.apply(&Call::SubmitReply(Ok(7)));
    assert_eq!(store.completed_bytes(id(0)).unwrap(), []);
    store.apply(&Call::PollRequest(id(0)));
    store.apply(&completion(&[7, 8]));
    assert_eq!(store.completed_bytes(id(0)).unwrap(), [7, 8]);
    store.apply(&Call::ReclaimRequest(id(0)));
    assert_eq!(number(&store, 0), 40);
    assert_eq!(refusal(store.apply(&Call::CompletedBytes(id(1)))), 40);
}

/// Rows or an area that are not the opening's.
#[test]
fn a_wrong_size_is_refused() {
    let store = ready();
    let session = *store.session_words();
    let sizes = [(2, 32, 40), (1, 32, 3), (2, 31, 3), (3, 48, 3), (0, 0, 3)];
    for (row_count, bytes, expected) in sizes {
        let mut rows = vec![0; row_count * ROW_WORDS];
        let mut area = vec![0; bytes];
        let memory = Memory {
            session: &mut session.clone(),
            bus: &mut [0; BUS_WORDS],
            rows: &mut rows,
            area: &mut area,
        };
        let (mut out, mut lists) = ([9; ANSWER_WORDS], [9; LIST_WORDS]);
        let call = Call::CompletedBytes(id(0)).words();
        let status = library::apply(memory, &call, &[], &mut out, &mut lists);
        assert_eq!(status, 0);
        assert_eq!(out[..3], [0, expected, 0], "{row_count} {bytes}");
    }
}

/// A completion's bytes are stored nowhere where rows or area are not the
/// opening's, also where they would have room.
#[test]
fn a_polls_reply_of_a_wrong_size_is_refused() {
    let mut raw = Raw::ready(2);
    for (call, answer) in [
        (submit(), 2),
        (Call::SubmitReply(Ok(7)), 4),
        (Call::PollRequest(id(0)), 6),
    ] {
        assert_eq!(raw.apply(&call)[0], answer, "{call:?}");
    }
    for (row_words, bytes) in [(52, 31), (52, 33), (51, 32), (53, 32)] {
        let mut wrong = raw.clone();
        wrong.rows.resize(row_words, 0);
        wrong.area.resize(bytes, 0);
        let before = wrong.clone();
        let answer = wrong.apply(&completion(&[7, 8]));
        assert_eq!(answer[..2], [0, 3], "{row_words} {bytes}");
        assert!(wrong == before, "{row_words} {bytes}");
    }
    assert_eq!(raw.apply(&completion(&[7, 8]))[0], 4);
}
