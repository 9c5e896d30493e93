//! A paper's events: 64 bits each, most significant first.

/// The bits of kind, slot, endpoint, sequence, code, length and flags.
pub const WIDTHS: [u32; 7] = [4, 8, 8, 16, 8, 17, 3];

/// An event's size.
pub const BYTES: usize = 8;

/// A poll's completion is there.
pub const PRESENT: u8 = 4;
/// The completion has an error.
pub const ERROR: u8 = 2;
/// The controller no longer touches the buffer.
pub const QUIESCENT: u8 = 1;

/// The longest length that an event can have.
pub const LONGEST: u32 = (1 << 17) - 1;

/// What an event asks for.
#[derive(Debug, Clone, Copy, PartialEq, Eq, PartialOrd, Ord)]
pub enum Kind {
    Submit,
    Poll,
    Cancel,
    Timeout,
    Reclaim,
    Abort,
}

impl Kind {
    /// By their numbers.
    pub const ALL: [Self; 6] = [
        Self::Submit,
        Self::Poll,
        Self::Cancel,
        Self::Timeout,
        Self::Reclaim,
        Self::Abort,
    ];

    pub fn number(self) -> u8 {
        self as u8
    }

    /// The word of the text form.
    pub fn name(self) -> &'static str {
        match self {
            Self::Submit => "submit",
            Self::Poll => "poll",
            Self::Cancel => "cancel",
            Self::Timeout => "timeout",
            Self::Reclaim => "reclaim",
            Self::Abort => "abort",
        }
    }

    /// Which fields it uses; the others must be zero.
    fn uses(self) -> [bool; 7] {
        match self {
            Self::Submit => [true, true, true, false, false, true, false],
            Self::Poll => [true; 7],
            _ => [true, true, true, true, false, false, false],
        }
    }
}

/// An event's fields as they stand, whatever they are.
#[derive(Debug, Clone, Copy, Default, PartialEq, Eq)]
pub struct Event {
    pub kind: u8,
    pub slot: u8,
    pub endpoint: u8,
    pub sequence: u16,
    pub code: u8,
    pub length: u32,
    pub flags: u8,
}

impl Event {
    /// # Panics
    /// Where a field is wider than its place.
    pub fn encode(&self) -> [u8; BYTES] {
        let fields = self.fields().into_iter().zip(WIDTHS);
        let word = fields.fold(0, |word, (value, width)| {
            assert!(value >> width == 0, "a field is too wide: {self:?}");
            word << width | value
        });
        word.to_be_bytes()
    }

    pub fn decode(bytes: [u8; BYTES]) -> Self {
        let mut rest = u64::from_be_bytes(bytes);
        let mut fields = [0; 7];
        for (value, width) in fields.iter_mut().zip(WIDTHS).rev() {
            *value = rest & ((1 << width) - 1);
            rest >>= width;
        }
        Self::from_fields(fields)
    }

    /// What it asks for; none where its kind is above 5 or a field that the
    /// kind does not use is not zero (57).
    pub fn good_kind(&self) -> Option<Kind> {
        let kind = *Kind::ALL.get(usize::from(self.kind))?;
        let mut fields = self.fields().into_iter().zip(kind.uses());
        fields
            .all(|(value, used)| used || value == 0)
            .then_some(kind)
    }

    pub fn has(&self, flag: u8) -> bool {
        self.flags & flag != 0
    }

    /// As `WIDTHS` has them.
    fn fields(&self) -> [u64; 7] {
        [
            self.kind.into(),
            self.slot.into(),
            self.endpoint.into(),
            self.sequence.into(),
            self.code.into(),
            self.length.into(),
            self.flags.into(),
        ]
    }

    /// Of values that their places hold.
    fn from_fields(fields: [u64; 7]) -> Self {
        let [kind, slot, endpoint, sequence, code, length, flags] = fields;
        Self {
            kind: kind as u8,
            slot: slot as u8,
            endpoint: endpoint as u8,
            sequence: sequence as u16,
            code: code as u8,
            length: length as u32,
            flags: flags as u8,
        }
    }
}

#[cfg(test)]
mod tests {
    use super::*;

    const FIELDS: [&str; 7] = [
        "kind", "slot", "endpoint", "sequence", "code", "length", "flags",
    ];

    /// Document 02's two events.
    const SUBMIT: u64 = 0x0018_1000_0000_0040;
    const ABORT: u64 = 0x5018_1000_0000_0000;

    fn decode(word: u64) -> Event {
        Event::decode(word.to_be_bytes())
    }

    /// The fields' lowest bits.
    fn places() -> [u32; 7] {
        let mut place = 64;
        WIDTHS.map(|width| {
            place -= width;
            place
        })
    }

    #[test]
    fn the_widths_fill_64_bits() {
        assert_eq!(WIDTHS.iter().sum::<u32>(), 64);
        assert_eq!(places(), [60, 52, 44, 28, 20, 3, 0]);
    }

    #[test]
    fn the_two_events_of_document_02() {
        let submit = Event {
            slot: 1,
            endpoint: 0x81,
            length: 8,
            ..Event::default()
        };
        assert_eq!(decode(SUBMIT), submit);
        assert_eq!(submit.encode(), SUBMIT.to_be_bytes());
        assert_eq!(submit.good_kind(), Some(Kind::Submit));
        let abort = Event {
            kind: 5,
            length: 0,
            ..submit
        };
        assert_eq!(decode(ABORT), abort);
        assert_eq!(abort.encode(), ABORT.to_be_bytes());
        assert_eq!(abort.good_kind(), Some(Kind::Abort));
    }

    /// 0, 1, the lowest and the highest bit, and the largest of each field,
    /// beside fields of zeros and of ones.
    #[test]
    fn each_field_stands_in_its_place() {
        for (field, (width, place)) in WIDTHS.into_iter().zip(places()).enumerate() {
            let largest = (1 << width) - 1;
            for value in [0, 1, 1 << (width - 1), largest - 1, largest] {
                for others in [0, u64::MAX] {
                    let word = others & !(largest << place) | value << place;
                    let event = decode(word);
                    assert_eq!(event.fields()[field], value, "{}", FIELDS[field]);
                    assert_eq!(event.encode(), word.to_be_bytes());
                    for (other, width) in WIDTHS.into_iter().enumerate() {
                        let whole = others & ((1 << width) - 1);
                        assert!(other == field || event.fields()[other] == whole);
                    }
                }
            }
        }
    }

    #[test]
    fn every_word_is_written_back() {
        let mut rng = seeded::Rng::new(1);
        for _ in 0..100_000 {
            let word = rng.next_u64();
            assert_eq!(decode(word).encode(), word.to_be_bytes());
        }
    }

    #[test]
    #[should_panic(expected = "a field is too wide")]
    fn a_field_is_never_cut() {
        let length = LONGEST + 1;
        Event {
            length,
            ..Event::default()
        }
        .encode();
    }

    /// Every single bit beside the kind, of every kind.
    #[test]
    fn what_a_kind_does_not_use_must_be_zero() {
        let used = |kind, field| match kind {
            0 => matches!(field, "slot" | "endpoint" | "length"),
            1 => true,
            2..=5 => matches!(field, "slot" | "endpoint" | "sequence"),
            _ => false,
        };
        for kind in 0..16u64 {
            for bit in 0..60 {
                let field = places().iter().position(|place| *place <= bit).unwrap();
                let event = decode(kind << 60 | 1 << bit);
                let good = event.good_kind().map(|it| u64::from(it.number()));
                let expected = used(kind, FIELDS[field]).then_some(kind);
                assert_eq!(good, expected, "kind {kind}, {}", FIELDS[field]);
            }
            let bare = decode(kind << 60).good_kind();
            assert_eq!(bare.is_some(), kind <= 5, "kind {kind}");
        }
    }
}
