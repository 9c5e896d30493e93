//! A paper as text: a line an event, which an examiner can type.
//!
//! Every list of bytes has a text, and that text gives the same bytes.
use script::{Parsed, ScriptError, decimal, hex, hex_bytes, out_of_range};

use crate::event::{BYTES, ERROR, Event, Kind, LONGEST, PRESENT, QUIESCENT};

/// The text of a paper.
pub fn read(paper: &[u8]) -> String {
    let (events, rest) = paper.as_chunks::<BYTES>();
    let mut text: String = events.iter().map(|event| line(*event) + "\n").collect();
    if !rest.is_empty() {
        text += &format!("bytes {}\n", hex(rest));
    }
    text
}

/// An event's line, without its end.
pub fn line(bytes: [u8; BYTES]) -> String {
    let event = Event::decode(bytes);
    let words = event.good_kind().and_then(|kind| words(&event, kind));
    words.unwrap_or_else(|| format!("event {}", hex(&bytes)))
}

/// None for a poll without a completion whose rest is not zero.
fn words(event: &Event, kind: Kind) -> Option<String> {
    let start = format!("{} {} {:02x}", kind.name(), event.slot, event.endpoint);
    let sequence = event.sequence;
    Some(match kind {
        Kind::Submit => format!("{start} {}", event.length),
        Kind::Poll => format!("{start} {sequence} {}", reply(event)?),
        _ => format!("{start} {sequence}"),
    })
}

fn reply(event: &Event) -> Option<String> {
    if !event.has(PRESENT) {
        let zero = (event.code, event.length, event.flags) == (0, 0, 0);
        return zero.then(|| "nothing".into());
    }
    let mut text = format!("code {} length {}", event.code, event.length);
    for (flag, name) in FLAGS {
        if event.has(flag) {
            text = text + " " + name;
        }
    }
    Some(text)
}

/// The flags that a completion's line names, in this order.
const FLAGS: [(u8, &str); 2] = [(ERROR, "error"), (QUIESCENT, "quiescent")];

/// The paper of a text. Nothing follows a line `bytes`.
pub fn write(text: &str) -> Result<Vec<u8>, ScriptError> {
    let mut paper = Vec::new();
    for (index, line) in text.lines().enumerate() {
        let at_line = |message| ScriptError::new(index + 1, message);
        let words = line.split('#').next().unwrap_or("");
        let words: Vec<_> = words.split_ascii_whitespace().collect();
        if words.is_empty() {
            continue;
        }
        if !paper.len().is_multiple_of(BYTES) {
            return Err(at_line("`bytes` must be the last line".into()));
        }
        paper.extend(bytes(&words).map_err(at_line)?);
    }
    Ok(paper)
}

fn bytes(words: &[&str]) -> Parsed<Vec<u8>> {
    match *words {
        ["event", digits] => whole(digits),
        ["bytes", digits] => left_over(digits),
        ["event", ..] => Err("`event` has the form `event 16HEXDIGITS`".into()),
        ["bytes", ..] => Err("`bytes` has the form `bytes HEX`".into()),
        [verb, ref rest @ ..] => {
            let kind = Kind::ALL.into_iter().find(|kind| kind.name() == verb);
            let kind = kind.ok_or_else(|| format!("unknown word `{verb}`"))?;
            Ok(event(kind, rest)?.encode().into())
        }
        [] => Ok(Vec::new()),
    }
}

fn whole(digits: &str) -> Parsed<Vec<u8>> {
    let bytes = hex_bytes(digits)?;
    match bytes.len() {
        BYTES => Ok(bytes),
        _ => Err(format!("`{digits}` is not an event of 16 hex digits")),
    }
}

fn left_over(digits: &str) -> Parsed<Vec<u8>> {
    let bytes = hex_bytes(digits)?;
    match bytes.len() {
        1..BYTES => Ok(bytes),
        _ => Err(format!("`{digits}` is not 1 to 7 bytes")),
    }
}

fn event(kind: Kind, words: &[&str]) -> Parsed<Event> {
    let mut event = Event {
        kind: kind.number(),
        ..Event::default()
    };
    let [slot, endpoint_word, third, ref reply @ ..] = *words else {
        return Err(form(kind));
    };
    event.slot = field("slot", slot, decimal)?;
    event.endpoint = field("endpoint", endpoint_word, endpoint)?;
    if kind == Kind::Submit {
        event.length = field("length", third, length)?;
    } else {
        event.sequence = field("sequence", third, decimal)?;
    }
    match kind {
        Kind::Poll => set_reply(&mut event, reply)?,
        _ if reply.is_empty() => {}
        _ => return Err(form(kind)),
    }
    Ok(event)
}

fn set_reply(event: &mut Event, words: &[&str]) -> Parsed<()> {
    let ["code", code, "length", length_word, ref names @ ..] = *words else {
        return match *words {
            ["nothing"] => Ok(()),
            _ => Err(form(Kind::Poll)),
        };
    };
    event.code = field("code", code, decimal)?;
    event.length = field("length", length_word, length)?;
    event.flags = PRESENT;
    let mut names = names.iter().peekable();
    for (flag, name) in FLAGS {
        if names.next_if(|word| **word == name).is_some() {
            event.flags |= flag;
        }
    }
    match names.next() {
        None => Ok(()),
        Some(_) => Err(form(Kind::Poll)),
    }
}

fn form(kind: Kind) -> String {
    let name = kind.name();
    let rest = match kind {
        Kind::Submit => "SLOT ENDPOINT LENGTH",
        Kind::Poll => "SLOT ENDPOINT SEQUENCE nothing` or `.. code C length N [error] [quiescent]",
        _ => "SLOT ENDPOINT SEQUENCE",
    };
    format!("`{name}` has the form `{name} {rest}`")
}

fn field<T>(name: &str, word: &str, read: impl Fn(&str) -> Parsed<T>) -> Parsed<T> {
    read(word).map_err(|message| format!("{name}: {message}"))
}

fn endpoint(word: &str) -> Parsed<u8> {
    match hex_bytes(word)?[..] {
        [byte] => Ok(byte),
        _ => Err(format!("`{word}` is not two hex digits")),
    }
}

fn length(word: &str) -> Parsed<u32> {
    match decimal(word)? {
        length if length <= LONGEST => Ok(length),
        _ => Err(out_of_range(word)),
    }
}

#[cfg(test)]
mod tests {
    use super::*;

    fn refused(text: &str) -> String {
        write(text).unwrap_err().to_string()
    }

    /// The lines that the text form has, as they are written.
    const LINES: &[(&str, u64)] = &[
        ("submit 1 81 8", 0x0018_1000_0000_0040),
        ("submit 255 ff 131071", 0x0fff_f000_000f_fff8),
        ("poll 1 81 2 nothing", 0x1018_1000_2000_0000),
        ("poll 1 81 2 code 0 length 0", 0x1018_1000_2000_0004),
        ("poll 1 81 2 code 6 length 0 error", 0x1018_1000_2060_0006),
        (
            "poll 1 81 2 code 13 length 8 quiescent",
            0x1018_1000_20d0_0045,
        ),
        (
            "poll 255 ff 65535 code 255 length 131071 error quiescent",
            0x1fff_ffff_ffff_ffff,
        ),
        ("cancel 0 00 0", 0x2000_0000_0000_0000),
        ("timeout 2 8f 65535", 0x3028_ffff_f000_0000),
        ("reclaim 2 8f 1", 0x4028_f000_1000_0000),
        ("abort 1 81 0", 0x5018_1000_0000_0000),
        // A kind that there is not, fields that their kind does not use.
        ("event 6000000000000000", 0x6000_0000_0000_0000),
        ("event 0000000010000000", 0x0000_0000_1000_0000),
        ("event 5000000000000001", 0x5000_0000_0000_0001),
        // A poll without a completion, and more.
        ("event 1018100020000003", 0x1018_1000_2000_0003),
    ];

    #[test]
    fn every_form_is_written_and_read() {
        for (text, word) in LINES {
            assert_eq!(line(word.to_be_bytes()), *text);
            assert_eq!(write(text).unwrap(), word.to_be_bytes(), "{text}");
        }
    }

    #[test]
    fn every_list_of_bytes_has_its_text() {
        let mut rng = seeded::Rng::new(2);
        for size in 0..2_000 {
            let paper: Vec<_> = (0..size % 200)
                // Small bytes too, so that events are good ones.
                .map(|_| rng.next_u64() as u8 & rng.pick(&[0, 1, 0x81, 0xff]))
                .collect();
            let text = read(&paper);
            assert_eq!(write(&text).unwrap(), paper, "{text}");
            assert_eq!(read(&write(&text).unwrap()), text);
        }
    }

    #[test]
    fn empty_lines_and_comments_are_no_events() {
        let text = "\n# a paper\n  submit 1 81 8   # the first\n\t\nabort 1 81 0";
        let paper = write(text).unwrap();
        assert_eq!(read(&paper), "submit 1 81 8\nabort 1 81 0\n");
        assert_eq!(write("").unwrap(), []);
        assert_eq!(read(&[]), "");
    }

    #[test]
    fn hex_digits_may_be_large_and_an_event_of_a_known_form_is_read_as_such() {
        let paper = write("event 201AF00010000000\nsubmit 1 8A 0").unwrap();
        assert_eq!(read(&paper), "cancel 1 af 1\nsubmit 1 8a 0\n");
    }

    #[test]
    fn bad_text_is_refused_with_its_line() {
        for (text, message) in [
            ("submit 256 81 8", "slot: `256` is out of range"),
            ("submit -1 81 8", "slot: `-1` is not a decimal number"),
            ("submit 1 181 8", "is not hex bytes of two digits each"),
            ("submit 1 0081 8", "endpoint: `0081` is not two hex digits"),
            ("submit 1 8g 8", "endpoint: `8g` is not a hex number"),
            ("submit 1 81 131072", "length: `131072` is out of range"),
            ("submit 1 81 99999999999", "is out of range"),
            ("submit 1 81", "`submit SLOT ENDPOINT LENGTH`"),
            ("submit 1 81 8 9", "`submit SLOT ENDPOINT LENGTH`"),
            ("cancel 1 81 65536", "sequence: `65536` is out of range"),
            ("cancel 1 81", "`cancel SLOT ENDPOINT SEQUENCE`"),
            ("abort 1 81 0 ready", "`abort SLOT ENDPOINT SEQUENCE`"),
            ("poll 1 81 0", "`poll SLOT ENDPOINT SEQUENCE nothing`"),
            ("poll 1 81 0 nothing error", "`poll` has"),
            ("poll 1 81 0 code 256 length 0", "code: `256` is out of"),
            ("poll 1 81 0 code 1 length 131072", "`131072` is out of"),
            ("poll 1 81 0 length 0 code 1", "`poll` has"),
            ("poll 1 81 0 code 1 length 0 quiescent error", "`poll` has"),
            ("poll 1 81 0 code 1 length 0 error error", "`poll` has"),
            ("event 00", "`00` is not an event of 16 hex digits"),
            ("event 001810000000004g", "`4g` is not a hex number"),
            ("event", "`event` has the form"),
            ("bytes", "`bytes` has the form"),
            ("bytes 0011223344556677", "is not 1 to 7 bytes"),
            ("Submit 1 81 8", "unknown word `Submit`"),
            ("repeat 3", "unknown word `repeat`"),
        ] {
            let told = refused(&format!("# one\nsubmit 1 81 8\n{text}\n"));
            assert!(told.starts_with("line 3: "), "{text}: {told}");
            assert!(told.contains(message), "{text}: {told}");
        }
    }

    #[test]
    fn nothing_follows_left_over_bytes() {
        assert_eq!(read(&write("bytes 0a").unwrap()), "bytes 0a\n");
        let told = refused("bytes 0a\n# more\nsubmit 1 81 8");
        assert_eq!(told, "line 3: `bytes` must be the last line");
    }
}
