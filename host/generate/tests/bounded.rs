//! The Rust behind a store's limits: 5 and 7 exactly where they are due.
use generate::Bounded;
use script::{Outcome, Side, parse_line};

const SETTING: &str = "open session=1 seq=0 rev=0 ports=1
device id=1.0.2 port=1.1.1 state=configured
port number=1 gen=1 reading=e03
endpoints slot=2 list=81:bulk,83:isochronous
acquire reply=ok
initialise reply=ok
";
const SUBMIT: &str = "submit dev=1.0.2 ep=81 type=bulk dir=in setup=- data=z:0 packets=none \
    r1=e03 r2=e03 reply=7";
const PLAN: &str =
    "plan dev=1.0.2 profile=compat setup=80.6.0.0.9 data=z:0 r1=e03 reply=7 stage=in:9";

/// The number of the last call's refusal.
fn refusal(rows: u64, lines: &[&str]) -> Option<u16> {
    let text = format!("store rows={rows} bytes=8\n{SETTING}{}", lines.join("\n"));
    let mut rust = Bounded::new();
    let mut last = None;
    for (index, line) in text.lines().enumerate() {
        let call = parse_line(index + 1, line).unwrap().unwrap();
        last = match rust.apply(&call).unwrap().outcome {
            Outcome::Refused { number, .. } => Some(number),
            _ => None,
        };
    }
    last
}

fn submit(rest: &str) -> String {
    format!("{SUBMIT} {rest}")
}

#[test]
fn a_length_over_the_row_is_7_and_over_65_536_is_6() {
    for (length, number) in [
        (8, None),
        (9, Some(7)),
        (65_536, Some(7)),
        (65_537, Some(6)),
    ] {
        let call = submit(&format!("len={length}"));
        assert_eq!(refusal(1, &[&call]), number, "{length}");
    }
}

#[test]
fn all_rows_used_is_5_before_7_and_after_4() {
    let first = submit("len=8");
    assert_eq!(refusal(2, &[&first, &submit("len=8")]), None);
    for length in [8, 9, 65_537] {
        let call = submit(&format!("len={length}"));
        assert_eq!(refusal(1, &[&first, &call]), Some(5), "{length}");
    }
    let packets = submit("len=8").replace("packets=none", "packets=8");
    assert_eq!(refusal(1, &[&first, &packets]), Some(4));
}

#[test]
fn a_row_is_free_again_after_its_reclaim() {
    let first = submit("len=8");
    let done = "poll id=1.0.0 reply=8/1/z:8/-/1";
    let reclaim = "reclaim id=1.0.0";
    assert_eq!(refusal(1, &[&first, done, &first]), Some(5));
    assert_eq!(refusal(1, &[&first, done, reclaim, &first]), None);
}

#[test]
fn a_plans_status_and_forbidden_requests_come_before_7() {
    let plan = |rest: &str| format!("{PLAN} {rest}");
    assert_eq!(refusal(1, &[&plan("status=out")]), Some(7));
    assert_eq!(refusal(1, &[&plan("status=-")]), Some(18));
    let address = plan("status=out").replace("80.6", "0.5");
    assert_eq!(refusal(1, &[&address]), Some(19));
    assert_eq!(refusal(1, &[&submit("len=8"), &address]), Some(5));
    let long = plan("status=out").replace("in:9", "in:65537");
    assert_eq!(refusal(1, &[&long]), Some(6));
}

#[test]
fn with_128_held_the_rust_itself_has_no_room() {
    let first = submit("len=8");
    let lines = vec![first.as_str(); 128];
    assert_eq!(refusal(200, &lines), None);
    let long = submit("len=9");
    assert_eq!(refusal(200, &[&lines[..], &[&long]].concat()), Some(5));
}

#[test]
fn only_the_next_opening_has_the_stores_size() {
    let again = SETTING.trim_end();
    assert_eq!(refusal(1, &[again, &submit("len=9")]), None);
}
