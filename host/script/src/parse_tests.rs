use super::*;

fn message(line: &str) -> String {
    parse_line(7, line).unwrap_err().to_string()
}

/// A line that reads is written back as it stood.
fn round_trip(line: &str) {
    let call = parse_line(1, line).unwrap().expect("a call");
    assert_eq!(call.to_string(), line);
    assert_eq!(line.split(' ').next(), Some(call.verb()));
}

const SUBMIT: &str = "submit dev=1.0.2 ep=81 type=bulk dir=in len=8 setup=- data=z:0 \
     packets=none r1=403 r2=err:O.9.-5.- reply=17";

/// Every verb, in each of its forms.
const CALLS: &[&str] = &[
    "open session=1 seq=18446744073709551615 rev=- ports=255",
    "open session=1 seq=0 rev=0 ports=-",
    "device id=1.2.3 port=4.5.6 state=configured",
    "port number=1 gen=2 reading=403",
    "port number=1 gen=2 reading=-",
    "endpoints slot=2 list=81:bulk,2:isochronous",
    "endpoints slot=2 list=-",
    "raw slot=9 set=1",
    "acquire reply=ok",
    "acquire reply=err:C.1.-.- retained=1",
    "initialise reply=err:T.65535.-2147483648.4294967295",
    SUBMIT,
    "submit dev=1.0.2 ep=0 type=control dir=out len=2 setup=0.1.2.3.2 data=h:00ff \
         packets=- r1=1 r2=1 reply=err:V.1.2.3",
    "plan dev=1.0.2 profile=compat setup=80.6.100.0.18 stage=in:18 status=out data=z:0 \
         r1=403 reply=4",
    "plan dev=1.0.2 profile=compliant setup=0.1.0.0.0 stage=- status=- data=p:3:200 \
         r1=403 reply=4",
    "poll id=1.0.0 reply=nothing",
    "poll id=1.0.0 reply=8/1/p:8:3/-/1",
    "poll id=1.0.0 reply=-/6/-/R.1.-.6/0",
    "poll id=1.0.0 reply=err:D.3.-.-",
    "cancel id=1.0.0",
    "timeout id=1.0.0",
    "reclaim id=1.0.0",
    "report id=1.0.0",
    "reports",
    "abort id=1.0.0 reply=err:D.3.-.-",
    "abort id=1.0.0 reply=ok done=7@0/13/z:0/-/1,8@-/-/-/-/0 aborted=9,10 ready=1 error=-",
    "reset id=1.0.0 preserve=1 reply=ok done=- aborted=- ready=0 error=C.1.-.-",
    "close fresh=- reply=ok",
    "close fresh=3 reply=err:O.1.-.-",
    "dump",
    "force state=Closing",
    "withdraw id=1.0.0",
    "store rows=2 bytes=16",
];

#[test]
fn every_verb_reads_and_writes_back() {
    CALLS.iter().for_each(|line| round_trip(line));
}

#[test]
fn comments_and_empty_lines_are_no_calls() {
    for line in ["", "   ", "# open", "  # cancel id=1"] {
        assert_eq!(parse_line(1, line), Ok(None));
    }
    let call = parse_line(1, "  dump   # what no report shows");
    assert_eq!(call, Ok(Some(Call::Dump)));
}

#[test]
fn fields_come_in_any_order() {
    let call = parse_line(1, "open ports=2 rev=5 seq=3 session=1").unwrap();
    assert_eq!(
        call.unwrap().to_string(),
        "open session=1 seq=3 rev=5 ports=2"
    );
}

#[test]
fn an_unknown_verb_is_named_with_its_line() {
    assert_eq!(
        message("frobnicate id=1"),
        "line 7: unknown verb `frobnicate`"
    );
    assert_eq!(message("Open"), "line 7: unknown verb `Open`");
}

#[test]
fn a_missing_field_is_named() {
    assert_eq!(
        message("poll id=1.0.0"),
        "line 7: `poll` lacks the field `reply`"
    );
    assert_eq!(
        message(&SUBMIT.replace(" r2=err:O.9.-5.-", "")),
        "line 7: `submit` lacks the field `r2`"
    );
    assert_eq!(
        message("acquire reply=err:C.1.-.-"),
        "line 7: `acquire` lacks the field `retained`"
    );
    assert_eq!(
        message("abort id=1.0.0 reply=ok done=- aborted=- error=-"),
        "line 7: `abort` lacks the field `ready`"
    );
}

#[test]
fn a_field_too_many_is_named() {
    assert_eq!(
        message("dump all=1"),
        "line 7: `dump` has no field `all` here"
    );
    assert_eq!(
        message("acquire reply=ok retained=1"),
        "line 7: `acquire` has no field `retained` here"
    );
    assert_eq!(
        message("abort id=1.0.0 reply=err:C.1.-.- ready=1"),
        "line 7: `abort` has no field `ready` here"
    );
    assert_eq!(
        message("cancel 1.0.0"),
        "line 7: `1.0.0` is not a key=value field"
    );
}

#[test]
fn a_field_given_twice_is_named() {
    assert_eq!(
        message("cancel id=1.0.0 id=1.0.0"),
        "line 7: field `id` is given twice"
    );
}

#[test]
fn numbers_out_of_range_are_named() {
    for (line, value) in [
        (
            "open session=18446744073709551616 seq=0 rev=0 ports=1",
            "18446744073709551616",
        ),
        ("open session=1 seq=0 rev=0 ports=256", "256"),
        ("port number=256 gen=0 reading=-", "256"),
        ("port number=1 gen=0 reading=100000000", "100000000"),
        ("endpoints slot=1 list=100:bulk", "100"),
        ("initialise reply=err:V.65536.-.-", "65536"),
        ("initialise reply=err:V.1.2147483648.-", "2147483648"),
        ("initialise reply=err:V.1.-2147483649.-", "-2147483649"),
        ("initialise reply=err:V.1.-.4294967296", "4294967296"),
    ] {
        let message = message(line);
        assert!(
            message.starts_with("line 7: field `")
                && message.contains(&format!("`{value}` is out of range")),
            "{line}: {message}"
        );
    }
}

/// Lines with a malformed value, and what the message says of it.
const MALFORMED: &[(&str, &str)] = &[
    (
        "cancel id=1.0",
        "`1.0` is not of the form session.generation.sequence",
    ),
    ("cancel id=1.0.+2", "`+2` is not a decimal number"),
    ("cancel id=1.0.", "`` is not a decimal number"),
    ("raw slot=1 set=2", "`2` is not 0 or 1"),
    (
        "port number=1 gen=1 reading=0x1",
        "`0x1` is not a hex number",
    ),
    ("force state=closed", "unknown word `closed`"),
    ("initialise reply=yes", "`yes` is not ok or err:ERROR"),
    ("initialise reply=err:X.1.-.-", "unknown word `X`"),
    (
        "poll id=1.0.0 reply=8/1/8/-/1",
        "`8` is none of z:N, p:N:S and h:HEX",
    ),
    (
        "poll id=1.0.0 reply=8/1/h:0/-/1",
        "is not hex bytes of two digits each",
    ),
    (
        "poll id=1.0.0 reply=8/1/z:16777217/-/1",
        "`16777217` is out of range",
    ),
    (
        "poll id=1.0.0 reply=8/1/-/1",
        "is not of the form len/code/data/error/quiescent",
    ),
    ("endpoints slot=1 list=", "is not of the form HEX:TYPE"),
    (
        "reset id=1.0.0 preserve=1 reply=ok done=7 aborted=- ready=1 error=-",
        "TOKEN@COMPLETION",
    ),
];

#[test]
fn malformed_values_are_named() {
    for (line, part) in MALFORMED {
        let message = message(line);
        assert!(
            message.starts_with("line 7: ") && message.contains(part),
            "{line}: {message}"
        );
    }
}
