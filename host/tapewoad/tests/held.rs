//! The held count has eight bits. Calls lead to at most 128 held requests; of more,
//! in words made by hand, it tells 255 at the most: never the number less 256.
mod common;

use common::WORD;
use common::raw::Raw;
use common::store::{plan, submit};
use tapewoad::calls::*;

const ROWS: usize = 1024;

/// Row 0 as a submission leaves it, Pending, of 3 bytes.
fn one_held() -> Raw {
    let mut raw = Raw::ready(ROWS);
    assert_eq!(raw.apply(&submit())[0], 2);
    assert_eq!(raw.apply(&Call::SubmitReply(Ok(7)))[0], 4);
    raw
}

/// Makes a row by hand: as row 0, with an id of its own.
fn hold(raw: &mut Raw, row: usize) {
    // First the rows' sequence numbers, then their status words, then the records.
    let (sequences, rest) = raw.rows.split_at_mut(ROWS);
    let (statuses, records) = rest.split_at_mut(ROWS);
    let record = records.len() / ROWS;
    sequences[row] = row as u64;
    statuses[row] = statuses[0];
    records.copy_within(..record, row * record);
}

#[test]
fn the_count_stops_at_255() {
    let mut raw = one_held();
    for held in 2..=ROWS as u64 {
        hold(&mut raw, held as usize - 1);
        let count = [7, held.min(255)];
        assert_eq!(raw.read(&Call::HeldCount)[..2], count, "{held}");
        assert_eq!(raw.apply(&Call::HeldCount)[..2], count, "{held}");
        // The other numbers are wider.
        assert_eq!(raw.read(&Call::HeldBytes)[..2], [7, 3 * held], "{held}");
        assert_eq!(raw.read(&Call::CountReports)[..2], [7, held], "{held}");
    }
}

/// 300 less 256 are 44, which would leave room.
#[test]
fn from_128_on_there_is_no_room() {
    let mut raw = one_held();
    for held in 2..=ROWS {
        hold(&mut raw, held - 1);
        for call in [submit(), Call::SubmitControlPlan(plan(Ok(WORD)))] {
            let mut next = raw.clone();
            let answer = next.apply(&call);
            if held < 128 {
                assert!(matches!(answer[0], 2 | 3), "{held}: {answer:?}");
            } else {
                assert_eq!(answer[..2], [0, 5], "{held}: {answer:?}");
                assert!(next == raw, "{held}");
            }
        }
    }
}
