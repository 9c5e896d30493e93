//! What generated and recorded scripts meet.
use std::collections::BTreeMap;
use std::fs;
use std::path::Path;

use generate::{Generator, Mix, Table};
use oracle::Oracle;
use script::{Call, Category, ControllerState, InItsPlace, Outcome, Side, departs, parse_line};

/// Refusals of category Unsupported by document 01's table.
const UNSUPPORTED: [u16; 9] = [6, 11, 13, 14, 18, 19, 20, 21, 37];

#[test]
fn a_long_script_meets_every_refusal_that_can_be_met() {
    let mut generator = Generator::new(1, Mix::Default, None);
    let mut table = Table::new(Mix::Default);
    for _ in 0..200_000 {
        let (call, answer) = generator.step().unwrap();
        table.count(&call, &answer, generator.before());
    }
    assert_eq!(table.missing(), Vec::<u16>::new());
    assert_eq!(table.unexpected(), Vec::<u16>::new());
    assert_eq!(table.missing_kinds(), Vec::<&str>::new());
}

/// 26 comes before 27: every seed has enough submissions that show it.
#[test]
fn every_seed_meets_marked_slots_without_a_device() {
    for seed in 1..=10 {
        let mut generator = Generator::new(seed, Mix::Default, None);
        let mut table = Table::new(Mix::Default);
        for _ in 0..20_000 {
            let (call, answer) = generator.step().unwrap();
            table.count(&call, &answer, generator.before());
        }
        let times = table.times("26 of a slot without a device");
        assert!(times >= 25, "seed {seed}: {times} times");
    }
}

/// The last of the open points: what no calls from an opening lead to.
#[test]
fn at_most_one_row_is_uncertain_and_none_while_initialized() {
    let mut generator = Generator::new(6, Mix::Default, None);
    let mut state = ControllerState::Closed;
    let mut seen = 0;
    for _ in 0..50_000 {
        let (call, answer) = generator.step().unwrap();
        let rows = &generator.before().rows;
        let uncertain = rows.iter().filter(|row| row.held && !row.pending).count();
        let most = match state {
            ControllerState::RecoveryRequired => 1,
            _ => 0,
        };
        assert!(uncertain <= most, "{uncertain} in {state:?} before {call}");
        let idle = matches!(
            state,
            ControllerState::Closed | ControllerState::AcquiredUnknown
        );
        assert!(!idle || rows.is_empty(), "rows in {state:?} before {call}");
        assert_ne!(answer.state, ControllerState::Closing);
        seen += uncertain;
        state = answer.state;
    }
    assert!(seen > 500, "only {seen} uncertain rows seen");
}

#[test]
fn refusals_have_the_category_of_the_table() {
    let mut generator = Generator::new(2, Mix::Default, None);
    let mut refused = 0;
    for _ in 0..20_000 {
        let (call, answer) = generator.step().unwrap();
        let Outcome::Refused { number, error } = answer.outcome else {
            continue;
        };
        refused += 1;
        let expected = match number {
            33 | 45 => continue,
            48 => Category::RecoveryRequired,
            _ if UNSUPPORTED.contains(&number) => Category::Unsupported,
            _ => Category::Validation,
        };
        assert_eq!(error.category, expected, "{number} at {call}");
        assert_eq!(error.message, number);
        assert_eq!(error.os_code, None);
        assert!(error.completion_code.is_none() || number == 48);
    }
    assert!(refused > 1_000);
}

#[test]
fn a_call_reads_back_as_it_was_written_and_a_seed_repeats() {
    let mut first = Generator::new(3, Mix::Default, None);
    let mut again = Generator::new(3, Mix::Default, None);
    let mut other = Generator::new(4, Mix::Default, None);
    let mut differ = false;
    for number in 1..5_000 {
        let (call, answer) = first.step().unwrap();
        assert_eq!(again.step().unwrap(), (call.clone(), answer));
        let read = parse_line(number, &call.to_string()).unwrap();
        differ |= other.step().unwrap().0 != call;
        assert_eq!(read, Some(call));
    }
    assert!(differ, "two seeds gave the same script");
}

#[test]
fn the_mix_without_recovery_has_none() {
    let mut generator = Generator::new(5, Mix::NoRecovery, None);
    for _ in 0..10_000 {
        let (call, _) = generator.step().unwrap();
        assert!(!matches!(call, Call::Recover { .. }), "{call}");
    }
}

/// Counts every recorded script of a folder.
fn count_recorded(folder: &Path, table: &mut Table) {
    for entry in fs::read_dir(folder).unwrap() {
        let path = entry.unwrap().path();
        if path.extension().is_none_or(|it| it != "script") {
            continue;
        }
        let mut oracle = Oracle::new();
        for (index, line) in fs::read_to_string(&path).unwrap().lines().enumerate() {
            let Some(call) = parse_line(index + 1, line).unwrap() else {
                continue;
            };
            let before = oracle.view();
            let answer = oracle.apply(&call).unwrap();
            table.count(&call, &answer, &before);
        }
    }
}

#[test]
fn the_recorded_scripts_together_meet_everything() {
    let recorded = Path::new(env!("CARGO_MANIFEST_DIR")).join("../recorded");
    let mut table = Table::new(Mix::Default);
    count_recorded(&recorded, &mut table);
    assert_eq!(table.missing(), [43, 46, 47, 48], "without recovery");
    count_recorded(&recorded.join("recovery"), &mut table);
    assert_eq!(table.missing(), Vec::<u16>::new());
    // 44 by `force` alone.
    assert_eq!(table.unexpected(), [44]);
    assert_eq!(table.missing_kinds(), Vec::<&str>::new());
}

/// A call at which the port departs from the Rust is made where it is asked for,
/// and an opening follows it.
#[test]
fn a_departure_ends_its_history() {
    let mut generator = Generator::new(1, Mix::Default, None).with_departures();
    let (mut met, mut ended) = (BTreeMap::new(), false);
    for _ in 0..200_000 {
        let (call, answer) = generator.step().unwrap();
        assert!(!ended || matches!(call, Call::Open(_)), "{call}");
        let place = departs(&call, &answer);
        ended = place.is_some();
        if let Some(place) = place {
            *met.entry(place).or_insert(0) += 1;
        }
    }
    let met_of = |place: &InItsPlace| met.contains_key(place);
    assert!(InItsPlace::ALL.iter().all(met_of), "{met:?}");
}

#[test]
fn a_plain_script_has_no_departures() {
    let mut generator = Generator::new(1, Mix::Default, None);
    for _ in 0..50_000 {
        let (call, answer) = generator.step().unwrap();
        assert_eq!(departs(&call, &answer), None, "{call}");
    }
}
