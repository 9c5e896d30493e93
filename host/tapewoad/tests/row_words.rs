//! A row's word that says the same in another way than the row's own: the report
//! is the same, and once the row changes it has its own word.
mod common;

use common::id;
use common::raw::Raw;
use common::store::submit;
use tapewoad::calls::*;

/// A Pending request in the first of two rows, a word of its record set by hand.
fn pending(place: usize, word: u64) -> Raw {
    let mut raw = Raw::ready(2);
    assert_eq!(raw.apply(&submit())[0], 2);
    assert_eq!(raw.apply(&Call::SubmitReply(Ok(7)))[0], 4);
    // The records stand after a sequence number and a status word of each row.
    raw.rows[4 + place] = word;
    raw
}

#[test]
fn a_word_that_says_the_same_in_another_way_does_not_stay() {
    // Slot, endpoint, transfer type and direction.
    for (place, word, other) in [(4, 2, 258), (5, 1, 257), (6, 3, 9), (7, 1, 2)] {
        let (own, odd) = (pending(place, word), pending(place, other));
        let report = Call::RequestStatus(id(0));
        assert_eq!(own.read(&report), odd.read(&report), "{place}");
        for call in [
            Call::LogicalCancelRequest(id(0)),
            Call::TimeoutRequest(id(0)),
        ] {
            let (mut own, mut odd) = (own.clone(), odd.clone());
            assert_eq!(own.apply(&call), odd.apply(&call), "{place} {call:?}");
            assert!(own == odd, "{place} {call:?}");
        }
    }
}
