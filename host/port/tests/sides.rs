//! What has no Rust side: stores of other sizes, 53, a cancel that is taken back, and
//! calls before the opening.
use script::Side;

const SETTING: &str = "open session=1 seq=0 rev=0 ports=1
device id=1.0.2 port=1.1.1 state=configured
port number=1 gen=1 reading=e03
endpoints slot=2 list=81:bulk
acquire reply=ok
initialise reply=ok
";
const SUBMIT: &str =
    "submit dev=1.0.2 ep=81 type=bulk dir=in setup=- data=z:0 packets=none r1=e03 r2=e03 reply=7";

/// Both ways to the port, which answer alike.
fn answers(text: &str) -> Result<Vec<String>, String> {
    let sides: [Box<dyn Side>; 2] = [Box::new(port::Port::new()), Box::new(port::Session::new())];
    let [calls, session] = sides.map(|mut side| {
        let mut lines = Vec::new();
        script::run(side.as_mut(), text, |line| lines.push(line.into()))
            .map(|_| lines)
            .map_err(|error| error.to_string())
    });
    assert_eq!(calls, session);
    calls
}

fn last(text: &str) -> String {
    answers(text).unwrap().pop().unwrap()
}

#[test]
fn a_smaller_store_has_its_own_limits() {
    let store = format!("store rows=1 bytes=8\n{SETTING}");
    let first = answers(&store).unwrap().remove(0);
    assert_eq!(first, "ok | backend none reads=0 | Closed held=0 bytes=0");
    let long = last(&format!("{store}{SUBMIT} len=9"));
    assert!(long.starts_with("refuse 7 V.7.-.- |"), "{long}");
    let full = last(&format!("{store}{SUBMIT} len=8\n{SUBMIT} len=8"));
    assert!(full.starts_with("refuse 5 V.5.-.- |"), "{full}");
    assert!(full.ends_with("Initialized held=1 bytes=8"), "{full}");
}

#[test]
fn the_smallest_store_is_a_row_of_a_byte() {
    let line = last(&format!("store rows=1 bytes=1\n{SETTING}{SUBMIT} len=1"));
    assert!(line.starts_with("row id=1.0.0 "), "{line}");
}

#[test]
fn only_the_next_opening_has_the_stores_size() {
    let text = format!("store rows=1 bytes=8\n{SETTING}{SETTING}{SUBMIT} len=9");
    let line = last(&text);
    assert!(line.starts_with("row id=1.0.0 "), "{line}");
}

#[test]
fn a_wrong_store_is_refused_and_the_session_goes_on() {
    for size in ["rows=0 bytes=8", "rows=1025 bytes=8", "rows=1 bytes=65537"] {
        let text = format!("{SETTING}store {size}\nopen session=2 seq=0 rev=0 ports=-\ndump");
        let lines = answers(&text).unwrap();
        let [.., open, dump] = &lines[..] else {
            panic!("{lines:?}");
        };
        assert!(open.starts_with("refuse 3 V.3.-.- |"), "{open}");
        assert!(dump.starts_with("dump session=1 "), "{dump}");
    }
}

#[test]
fn over_30_endpoints_are_refused() {
    let many = vec!["81:bulk"; 31].join(",");
    let line = last(&format!("{SETTING}endpoints slot=2 list={many}"));
    assert!(line.starts_with("refuse 53 V.53.-.- |"), "{line}");
}

#[test]
fn a_cancel_is_taken_back() {
    const STEPS: [(&str, &str); 9] = [
        ("withdraw id=1.0.0", "refuse 59 V.59.-.- |"),
        ("timeout id=1.0.0", " state=P(0,1) cancel=0 timeout=1 "),
        ("cancel id=1.0.0", " state=P(1,1) cancel=1 timeout=1 "),
        ("withdraw id=1.0.0", " state=P(0,1) cancel=0 timeout=1 "),
        ("withdraw id=1.0.0", "refuse 59 V.59.-.- |"),
        ("withdraw id=1.0.1", "refuse 40 V.40.-.- |"),
        ("poll id=1.0.0 reply=2/13/h:0908/-/1", " state=C(2,13,0) "),
        ("withdraw id=1.0.0", "refuse 41 V.41.-.- |"),
        ("report id=1.0.0", " cancel=0 timeout=1 data=2:0908 "),
    ];
    let calls = STEPS.map(|(call, _)| call).join("\n");
    let lines = answers(&format!("{SETTING}{SUBMIT} len=8\n{calls}")).unwrap();
    let told = &lines[lines.len() - STEPS.len()..];
    for ((call, part), line) in STEPS.iter().zip(told) {
        assert!(line.contains(part), "{call}: {line}");
    }
}

#[test]
fn the_state_can_be_forced() {
    let line = last(&format!("{SETTING}force state=Closing"));
    assert!(line.ends_with("Closing held=0 bytes=0"), "{line}");
}

#[test]
fn calls_before_the_opening_have_no_answer() {
    for line in ["dump", "abort id=1.0.0 reply=err:C.1.-.-"] {
        let message = answers(line).unwrap_err();
        assert!(message.contains("no session is open"), "{message}");
    }
}

/// `Port` holds the tokens that the library names to those of the lines.
#[test]
fn a_smaller_store_recovers_its_rows() {
    let store = format!("store rows=3 bytes=8\n{SETTING}");
    let submits = format!("{SUBMIT} len=8\n").repeat(3);
    let done = "done=7@8/1/p:8:1/-/1 aborted=- ready=1 error=-";
    let aborts = format!("abort id=1.0.2 reply=ok {done}\n").repeat(3);
    let lines = answers(&format!("{store}{submits}{aborts}reports")).unwrap();
    let [.., first, second, third, reports] = &lines[..] else {
        panic!("{lines:?}");
    };
    // Three rows of one token: each reply means the lowest that is held.
    for (sequence, line) in [first, second, third].into_iter().enumerate() {
        let start =
            format!("abort target=1.0.2 dev=1.0.2 ep=81 completed=1.0.{sequence} aborted=-");
        assert!(line.starts_with(&start), "{line}");
    }
    assert_eq!(reports.matches("data=8:01080f161d242b32").count(), 3);
    // The rows are full still.
    let full = last(&format!("{store}{submits}{aborts}{SUBMIT} len=8"));
    assert!(full.starts_with("refuse 5 V.5.-.- |"), "{full}");
}
