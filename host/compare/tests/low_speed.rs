//! Where the port departs from the Rust: a script by hand, on both sides.
use generate::Bounded;
use script::{Answer, Call, Side, parse_line};

const SCRIPT: &str = include_str!("low-speed.script");

/// `call  # -> PART & PART  # Rust: PART & PART`.
struct Line<'a> {
    call: Call,
    port: &'a str,
    rust: Option<&'a str>,
}

fn read(number: usize, line: &str) -> Option<Line<'_>> {
    let call = parse_line(number, line).unwrap()?;
    let (_, expected) = line.split_once("# -> ").unwrap_or((line, ""));
    let (port, rust) = match expected.split_once("# Rust: ") {
        Some((port, rust)) => (port, Some(rust)),
        None => (expected, None),
    };
    Some(Line { call, port, rust })
}

fn assert_has(answer: &Answer, parts: &str, number: usize) {
    let line = answer.to_string();
    for part in parts.split(" & ").map(str::trim) {
        assert!(line.contains(part), "line {number}: no `{part}` in {line}");
    }
}

/// After a departure the port alone is asked, up to the next opening.
fn assert_script(port: &mut dyn Side) {
    let mut rust = Bounded::new();
    let (mut departures, mut ended) = (0, false);
    for (number, line) in (1..).zip(SCRIPT.lines()) {
        let Some(line) = read(number, line) else {
            continue;
        };
        ended &= !matches!(line.call, Call::Open(_));
        let answer = port.apply(&line.call).unwrap();
        assert_has(&answer, line.port, number);
        if ended {
            continue;
        }
        let beside = rust.apply(&line.call).unwrap();
        match line.rust {
            None => assert_eq!(answer, beside, "line {number}"),
            Some(parts) => {
                assert_has(&beside, parts, number);
                departures += 1;
                ended = true;
            }
        }
    }
    assert_eq!(departures, 4);
}

#[test]
fn the_port_departs_where_the_script_says() {
    assert_script(&mut port::Port::new());
}

#[test]
fn the_safe_session_departs_where_the_script_says() {
    assert_script(&mut port::Session::new());
}
