//! What a call may answer and leave, by document 01's table and docs/CALLS.md.
//!
//! Held exactly: the status, refusals 1, 2, 3 and 49, the error of a refusal,
//! the words of an answer, and which parts of the lent memory may change. Not
//! held here, but by the comparison with the Rust: which of the other refusals
//! is due, and the values of what changes.
use std::ops::Range;

use tapewoad::ErrorCategory;
use tapewoad::calls::{ANSWER_WORDS, Answer, ROW_WORDS, Refusal, SESSION_WORDS};

use crate::answers::encode;
use crate::judge;
use crate::lent::Slices;

/// Refusals of category Unsupported.
const UNSUPPORTED: [u16; 10] = [6, 11, 13, 14, 18, 19, 20, 21, 37, 58];

/// The answer, where there is one; what is wrong with it or with what it left.
/// `sound` says that calls lead to the session and its rows.
pub fn check(
    status: u64,
    before: &Slices,
    after: &Slices,
    sound: bool,
) -> Result<Option<Answer>, String> {
    let expected = judge::status(before);
    if status != expected {
        return Err(format!("status {status}, not {expected}"));
    }
    if status != 0 {
        return match before == after {
            true => Ok(None),
            false => Err(format!("status {status}, and something changed")),
        };
    }
    let answer = decoded(before, after)?;
    check_early(&answer, before, sound)?;
    if !fits(before.call[0], &answer, sound) {
        return Err(format!("{answer:?}, which is no answer to this call"));
    }
    if let Answer::Refused(refusal) = &answer {
        check_error(refusal, &before.call, &after.out)?;
    }
    if !tells(&answer, before) {
        return Err(format!("{answer:?}, which is not so"));
    }
    check_changes(&may_change(before, &answer), before, after)?;
    Ok(Some(answer))
}

/// 1, 2, 3 and 49 come where they are due, and only there. Where no calls lead to
/// what is in flight, its row need not be there: then a reply is 2 too.
fn check_early(answer: &Answer, before: &Slices, sound: bool) -> Result<(), String> {
    let early = judge::early_refusal(before);
    let refused = match answer {
        Answer::Refused(refusal) => Some(refusal.number),
        _ => None,
    };
    let lost = !sound && matches!(before.call[0], 10 | 12 | 24) && refused == Some(2);
    match (refused, early) {
        (Some(number), Some(early)) if number == early => Ok(()),
        (_, None) if lost => Ok(()),
        (_, Some(early)) => Err(format!("{answer:?}, not refusal {early}")),
        (Some(1..=3 | 49), None) => Err(format!("{answer:?}, which is not due")),
        _ => Ok(()),
    }
}

/// The words of an answer are its own, and nothing stands beside them.
fn decoded(before: &Slices, after: &Slices) -> Result<Answer, String> {
    let (words, rest) = after.out.split_first_chunk().ok_or("no room")?;
    let answer = Answer::from_words(words, &after.lists);
    let answer = answer.ok_or_else(|| format!("no answer: {words:?}"))?;
    let (own, lists) = encode(&answer);
    if own != *words {
        return Err(format!("{answer:?} as {words:?}, not as {own:?}"));
    }
    if *rest != before.out[ANSWER_WORDS..] {
        return Err("words of `out` past the answer changed".into());
    }
    let (written, rest) = after.lists.split_at(lists.len());
    if written != lists || *rest != before.lists[lists.len()..] {
        return Err("words of `lists` that are no list's changed".into());
    }
    if (&before.call, &before.bytes) != (&after.call, &after.bytes) {
        return Err("`call` or `bytes` changed".into());
    }
    Ok(answer)
}

/// Whether a call has such an answer. Where no calls lead to what is in flight,
/// the polled row need not be Pending: then its reply may be 41.
fn fits(call: u64, answer: &Answer, sound: bool) -> bool {
    match answer {
        Answer::Refused(refusal) if (call, refusal.number) == (12, 41) => !sound,
        Answer::Refused(refusal) => may_refuse(call, refusal.number),
        Answer::Passed => call <= 7,
        Answer::Begun { .. } => call == 8,
        Answer::PlanBegun { .. } => call == 9,
        Answer::Report(_) => matches!(call, 10..=17 | 29),
        Answer::NoReport => matches!(call, 17 | 26),
        Answer::Ask { .. } => call == 11,
        Answer::Number(_) => matches!(call, 18 | 20 | 21),
        Answer::Bytes { .. } => call == 19,
        Answer::Recover(_) => matches!(call, 22 | 23),
        Answer::Recovered(_) => call == 24,
        Answer::Status(_) => call == 25,
        Answer::ReportAt { .. } => call == 26,
        Answer::Wants(_) => matches!(call, 27 | 28),
        _ => false,
    }
}

/// Whether a status has the session's words, and a report stands where it was
/// looked for.
fn tells(answer: &Answer, before: &Slices) -> bool {
    match answer {
        Answer::Status(_) => {
            let session = &before.session;
            let expected = [&[11], &session[..16], &session[24..]].concat();
            encode(answer).0[..expected.len()] == expected
        }
        Answer::ReportAt { place, .. } => (before.call[1]..before.session[24]).contains(place),
        _ => true,
    }
}

/// Whether the table has this number for the call.
fn may_refuse(call: u64, number: u16) -> bool {
    match call {
        0 | 17 | 18 | 20 | 21 => number == 3,
        1 | 4 => matches!(number, 1 | 3),
        2 => matches!(number, 1 | 3 | 29 | 30),
        3 => matches!(number, 1 | 3 | 53),
        5 => matches!(number, 1 | 45 | 50),
        6 => matches!(number, 1 | 45 | 51),
        7 => matches!(number, 1 | 3 | 45 | 52),
        8 => matches!(number, 1 | 3..=17 | 26..=39 | 58),
        9 => matches!(number, 1 | 3 | 5..=7 | 18..=35 | 39),
        10 | 12 => matches!(number, 2 | 3 | 45),
        11 => matches!(number, 1 | 3 | 28 | 40),
        13 | 14 => matches!(number, 1 | 3 | 40 | 41),
        15 => matches!(number, 1 | 3 | 40 | 42),
        16 | 19 => matches!(number, 3 | 40),
        22 | 23 => matches!(number, 1 | 3 | 40 | 43 | 44),
        25 | 27 | 28 => false,
        26 => number == 3,
        29 => matches!(number, 1 | 3 | 40 | 41 | 59),
        _ => matches!(number, 2 | 3 | 41 | 45..=49),
    }
}

/// The category of the table and the number for a message; 33 and 45 have the
/// backend's error, word for word.
fn check_error(refusal: &Refusal, call: &[u64], out: &[u64]) -> Result<(), String> {
    let wrong = || Err(format!("{refusal:?} has an error that is not its own"));
    let error = &refusal.error;
    if matches!(refusal.number, 33 | 45) {
        let places: &[usize] = match (refusal.number, call[0]) {
            (33, 8) => &[16, 22],
            (33, _) => &[16],
            (_, 6) => &[2],
            (_, 7 | 24) => &[4],
            _ => &[3],
        };
        let is_own = |at: &usize| call[*at..at + 4] == out[2..6];
        return if places.iter().any(is_own) {
            Ok(())
        } else {
            wrong()
        };
    }
    let category = match refusal.number {
        48 => ErrorCategory::RecoveryRequired,
        number if UNSUPPORTED.contains(&number) => ErrorCategory::Unsupported,
        _ => ErrorCategory::Validation,
    };
    let code = error.completion_code.is_none() || refusal.number == 48;
    match (error.category, error.message, error.os_code) {
        it if it == (category, refusal.number, None) && code => Ok(()),
        _ => wrong(),
    }
}

/// Which elements of a slice may change.
enum Part {
    None,
    Within(Range<usize>),
    /// Those of one record, this one where it is known.
    One(Records, Option<usize>),
    All,
}

/// How records stand in a slice (crates/bus/specs/Layout.antt,
/// crates/rows/specs/Table.antt).
#[derive(Clone, Copy)]
enum Records {
    /// Two words a port, before all else of the bus.
    Ports,
    /// So many rows: two columns of a word a row, then the rest of each row.
    Rows(usize),
    /// So many bytes a row.
    Areas(usize),
}

impl Records {
    /// The record of an element.
    fn of(self, at: usize) -> Option<usize> {
        match self {
            Self::Ports => (at < DEVICES).then_some(at / 2),
            Self::Rows(count) if at < 2 * count => Some(at % count),
            Self::Rows(count) => Some((at - 2 * count) / (ROW_WORDS - 2)),
            Self::Areas(size) => Some(at / size),
        }
    }
}

const PORT_ROW: Part = Part::One(Records::Ports, None);
/// Where the bus has devices, endpoint lists and marks, by slot.
const DEVICES: usize = 510;
const DEVICE_WORDS: usize = 8;
const ENDPOINTS: usize = 2_558;
const ENDPOINT_WORDS: usize = 31;
const MARKS: usize = 10_494;

/// Words of the session.
const EVERY_WORD: Range<usize> = 0..SESSION_WORDS;
/// Session number, generation and next sequence.
const LEDGER: Range<usize> = 0..3;
const SEQUENCE: Range<usize> = 2..3;
const STATE: Range<usize> = 6..7;
/// State and revision.
const MARK: Range<usize> = 6..9;
/// State, revision and stall.
const RECOVERY: Range<usize> = 6..15;
const IN_FLIGHT: Range<usize> = 15..24;

/// What a call may change.
struct Changes {
    session: &'static [Range<usize>],
    bus: Part,
    rows: Part,
    area: Part,
}

const NOTHING: Changes = Changes {
    session: &[],
    bus: Part::None,
    rows: Part::None,
    area: Part::None,
};

fn may_change(before: &Slices, answer: &Answer) -> Changes {
    let rows = Records::Rows(before.rows.len() / ROW_WORDS);
    let call = &before.call;
    match (call[0], answer) {
        (_, Answer::Refused(refusal)) => refused(call, refusal.number, rows),
        (0, _) => Changes {
            session: &[EVERY_WORD],
            bus: Part::All,
            rows: Part::All,
            area: Part::None,
        },
        (1..=4, _) => Changes {
            bus: placed(call),
            ..NOTHING
        },
        (5 | 6, _) => Changes {
            session: &[STATE],
            ..NOTHING
        },
        (7, _) => Changes {
            session: &[LEDGER, STATE],
            rows: Part::All,
            ..NOTHING
        },
        (8 | 9, Answer::Begun { begun, .. } | Answer::PlanBegun { begun, .. }) => {
            let (row, bytes) = (begun.row as usize, before.session[25] as usize);
            let area = row * bytes..row * bytes + begun.metadata.requested_length as usize;
            Changes {
                session: &[SEQUENCE, IN_FLIGHT],
                bus: PORT_ROW,
                rows: Part::One(rows, Some(row)),
                area: Part::Within(area),
            }
        }
        _ => changed_later(before, answer, rows),
    }
}

/// The part of the bus that a placing call names.
fn placed(call: &[u64]) -> Part {
    let record = |first, size, slot: u64| {
        let start = first + size * slot as usize;
        Part::Within(start..start + size)
    };
    match call[0] {
        1 => record(DEVICES, DEVICE_WORDS, call[3]),
        2 => record(0, 2, call[1] - 1),
        3 => record(ENDPOINTS, ENDPOINT_WORDS, call[1]),
        _ => record(MARKS, 1, call[1]),
    }
}

/// What calls after a submission may change.
fn changed_later(before: &Slices, answer: &Answer, rows: Records) -> Changes {
    match (before.call[0], answer) {
        (10, _) => Changes {
            session: &[IN_FLIGHT],
            rows: Part::One(rows, None),
            ..NOTHING
        },
        (11, Answer::Ask { .. }) | (22 | 23, _) => Changes {
            session: &[IN_FLIGHT],
            ..NOTHING
        },
        (12, _) => Changes {
            session: &[RECOVERY, IN_FLIGHT],
            rows: Part::One(rows, None),
            area: Part::One(Records::Areas(before.session[25] as usize), None),
            ..NOTHING
        },
        (13..=15 | 29, _) => Changes {
            rows: Part::One(rows, None),
            ..NOTHING
        },
        (24, _) => Changes {
            session: &[RECOVERY, IN_FLIGHT],
            rows: Part::All,
            area: Part::All,
            ..NOTHING
        },
        _ => NOTHING,
    }
}

/// A refusal changes nothing but port readings, marks, the row of a failed
/// submission, entries applied before it, and what its reply ends.
fn refused(call: &[u64], number: u16, rows: Records) -> Changes {
    let session: &[_] = match (call[0], number) {
        // A failed acquire that retained nothing.
        (5, 45) if call[2] == 0 => &[],
        (5..=7, 45) => &[MARK],
        (10 | 12 | 24, 45) | (24, 46 | 48) => &[MARK, IN_FLIGHT],
        (12 | 24, 41) | (24, 47) => &[IN_FLIGHT],
        _ => &[],
    };
    match (call[0], number) {
        (8 | 9, 31 | 33..=39 | 58) => Changes {
            session,
            bus: PORT_ROW,
            ..NOTHING
        },
        (10, 45) => Changes {
            session,
            rows: Part::One(rows, None),
            ..NOTHING
        },
        (24, 41 | 47 | 48) => Changes {
            session,
            rows: Part::All,
            area: Part::All,
            ..NOTHING
        },
        _ => Changes { session, ..NOTHING },
    }
}

fn check_changes(may: &Changes, before: &Slices, after: &Slices) -> Result<(), String> {
    for (at, (old, new)) in before.session.iter().zip(&after.session).enumerate() {
        if old != new && !may.session.iter().any(|range| range.contains(&at)) {
            return Err(format!("word {at} of `session` changed"));
        }
    }
    check_part(&may.bus, &before.bus, &after.bus, "bus")?;
    check_part(&may.rows, &before.rows, &after.rows, "rows")?;
    check_part(&may.area, &before.area, &after.area, "area")
}

fn check_part<T: PartialEq>(
    may: &Part,
    before: &[T],
    after: &[T],
    name: &str,
) -> Result<(), String> {
    if before == after {
        return Ok(());
    }
    let differs = |at: &usize| before[*at] != after[*at];
    let changed: Vec<_> = (0..before.len()).filter(differs).collect();
    let allowed = match may {
        Part::None => false,
        Part::Within(range) => changed.iter().all(|at| range.contains(at)),
        Part::One(records, which) => {
            let one = which.or_else(|| records.of(changed[0]));
            one.is_some() && changed.iter().all(|at| records.of(*at) == one)
        }
        Part::All => true,
    };
    match allowed {
        true => Ok(()),
        false => Err(format!("`{name}` changed at {changed:?}")),
    }
}
