//! The library is found right, and a wrapper that is wrong in one place is found.
use fuzz::{Function, Fuzz, Lent, Library, run_library};

const CALLS: u64 = 25_000;

/// What a run of this library failed by.
fn failure(library: Library<'_>) -> Option<String> {
    let mut fuzz = Fuzz::new(1, library);
    for _ in 0..CALLS {
        if let Err(failure) = fuzz.step() {
            return Some(failure.to_string());
        }
    }
    None
}

fn assert_found(library: Library<'_>, message: &str) {
    let found = failure(library).expect("it was not found");
    assert!(found.contains(message), "{found}");
    assert!(found.starts_with("seed 1, call "), "{found}");
    assert!(found.contains("\n  call ["), "{found}");
}

#[test]
fn the_library_is_found_right_and_everything_is_met() {
    let mut fuzz = Fuzz::new(1, &run_library);
    for _ in 0..CALLS {
        fuzz.step().unwrap();
    }
    let tally = &fuzz.tally;
    assert_eq!(tally.calls, CALLS);
    assert!(tally.statuses.iter().all(|count| *count > 50), "{tally}");
    assert!(tally.reads > CALLS / 5, "{tally}");
    assert_eq!(tally.cases.len(), 9, "{tally}");
    assert_eq!(fuzz.size_rounds(), 1);
    for number in [1, 2, 3, 31, 33, 41, 45, 46, 47, 48, 49, 58, 59] {
        assert!(tally.refusals.contains_key(&number), "{number}: {tally}");
    }
}

#[test]
fn a_seed_repeats() {
    let tally = |seed| {
        let mut fuzz = Fuzz::new(seed, &run_library);
        (0..2_000).for_each(|_| fuzz.step().unwrap());
        fuzz.tally.to_string()
    };
    assert_eq!(tally(2), tally(2));
    assert_ne!(tally(2), tally(3));
}

#[test]
fn a_wrong_status_is_found() {
    let other = |lent: &mut Lent<'_>| match run_library(lent) {
        2 => 1,
        status => status,
    };
    assert_found(&other, "status 1, not 2");
}

/// Finds the library where `spoil` changes slices after a call of this status.
fn assert_spoilt(status: u64, spoil: impl Fn(&mut Lent<'_>), message: &str) {
    let library = |lent: &mut Lent<'_>| {
        let met = run_library(lent);
        if met == status {
            spoil(lent);
        }
        met
    };
    assert_found(&library, message);
}

/// Finds the library where `spoil` changes slices that were only read.
fn assert_read_spoilt(spoil: impl Fn(&mut Lent<'_>), message: &str) {
    let spoil = |lent: &mut Lent<'_>| {
        if lent.function == Function::Read {
            spoil(lent);
        }
    };
    assert_spoilt(0, spoil, message);
}

/// The same after a refusal by this number.
fn assert_refusal_spoilt(number: u64, spoil: impl Fn(&mut Lent<'_>), message: &str) {
    let spoil = |lent: &mut Lent<'_>| {
        if lent.out[..2] == [0, number] {
            spoil(lent);
        }
    };
    assert_spoilt(0, spoil, message);
}

#[test]
fn a_change_without_an_answer_is_found() {
    assert_spoilt(1, |lent| lent.bus[0] ^= 1, "status 1, and something");
    assert_spoilt(2, |lent| lent.area[0] ^= 1, "status 2, and something");
    assert_spoilt(3, |lent| lent.lists[0] ^= 1, "status 3, and something");
    assert_spoilt(4, |lent| lent.out[0] ^= 1, "status 4, and something");
}

#[test]
fn words_past_the_answer_are_found() {
    assert_spoilt(0, |lent| lent.out[32] ^= 1, "past the answer");
    assert_spoilt(0, |lent| lent.out[31] ^= 1, "not as");
    assert_spoilt(0, |lent| lent.lists[385] ^= 1, "no list's changed");
}

#[test]
fn what_is_no_answer_is_found() {
    assert_spoilt(0, |lent| lent.out[0] += 14, "no answer");
    let other = |lent: &mut Lent<'_>| {
        if lent.out[0] == 1 {
            lent.out[0] = 5;
        }
    };
    assert_spoilt(0, other, "no answer to this call");
    assert_refusal_spoilt(40, |lent| lent.out[1] = 50, "no answer to this call");
    assert_refusal_spoilt(40, |lent| lent.out[2] = 1, "error that is not its own");
    assert_refusal_spoilt(45, |lent| lent.out[3] ^= 1, "error that is not its own");
}

#[test]
fn a_refusal_that_changes_something_is_found() {
    let message = "word 15 of `session` changed";
    assert_refusal_spoilt(49, |lent| lent.session[15] = 0, message);
    assert_refusal_spoilt(31, |lent| lent.rows[0] ^= 1, "`rows` changed at [0]");
    assert_refusal_spoilt(45, |lent| lent.area[0] ^= 1, "`area` changed at [0]");
    let two_ports = |lent: &mut Lent<'_>| {
        lent.bus[0] ^= 1;
        lent.bus[2] ^= 1;
    };
    assert_refusal_spoilt(35, two_ports, "`bus` changed at [0");
}

#[test]
fn a_change_by_the_function_that_reads_is_found() {
    let message = "word 2 of `session` changed";
    assert_read_spoilt(|lent| lent.session[2] += 1, message);
    assert_read_spoilt(|lent| lent.bus[0] ^= 1, "`bus` changed at [0]");
    assert_read_spoilt(|lent| lent.rows[0] ^= 1, "`rows` changed at [0]");
    assert_read_spoilt(|lent| lent.area[0] ^= 1, "`area` changed at [0]");
    assert_read_spoilt(|lent| lent.lists[0] ^= 1, "no list's changed");
}

/// Spoils the answers with this tag.
fn assert_answer_spoilt(tag: u64, spoil: impl Fn(&mut [u64]), message: &str) {
    let spoil = |lent: &mut Lent<'_>| {
        if lent.out[0] == tag {
            spoil(lent.out);
        }
    };
    assert_read_spoilt(spoil, message);
}

#[test]
fn a_wrong_answer_to_a_question_is_found() {
    assert_answer_spoilt(7, |out| out[1] += 1, "where the call answers");
    assert_answer_spoilt(11, |out| out[18] += 1, "which is not so");
    assert_answer_spoilt(12, |out| out[1] += 40, "which is not so");
    let other = |out: &mut [u64]| out[1..3].copy_from_slice(&[0, 0]);
    assert_answer_spoilt(13, other, "where the call answers [0, 33");
    let second = |out: &mut [u64]| out[1] += u64::from(out[1] == 1);
    assert_answer_spoilt(13, second, "where the call answers [0, 33");
}

#[test]
fn a_call_that_the_function_that_reads_takes_is_found() {
    let takes = |lent: &mut Lent<'_>| match (lent.function, run_library(lent)) {
        (Function::Read, 1) => 0,
        (_, status) => status,
    };
    assert_found(&takes, "status 0, not 1");
}

#[test]
fn a_submission_that_writes_to_another_row_is_found() {
    let other = |lent: &mut Lent<'_>| {
        if lent.out[0] == 2 && lent.session[24] > 1 {
            let last = lent.area.len() - 1;
            lent.area[if lent.out[4] == 0 { last } else { 0 }] ^= 1;
        }
    };
    assert_spoilt(0, other, "`area` changed at [");
}
