//! The values that calls and answers are made of.

#[derive(Debug, Clone, Copy, PartialEq, Eq, PartialOrd, Ord)]
pub struct RequestId {
    pub session: u64,
    pub generation: u64,
    pub sequence: u64,
}

#[derive(Debug, Clone, Copy, PartialEq, Eq)]
pub struct DeviceId {
    pub session: u64,
    pub generation: u64,
    pub slot: u8,
}

#[derive(Debug, Clone, Copy, PartialEq, Eq)]
pub struct PortId {
    pub session: u64,
    pub generation: u64,
    pub number: u8,
}

#[derive(Debug, Clone, Copy, PartialEq, Eq)]
pub enum Category {
    Validation,
    Unsupported,
    OperatingSystem,
    Controller,
    Timeout,
    Disconnect,
    RecoveryRequired,
}

#[derive(Debug, Clone, Copy, PartialEq, Eq)]
pub struct Error {
    pub category: Category,
    pub message: u16,
    pub os_code: Option<i32>,
    pub completion_code: Option<u32>,
}

#[derive(Debug, Clone, Copy, PartialEq, Eq)]
pub enum ControllerState {
    Closed,
    AcquiredUnknown,
    Initialized,
    Closing,
    RecoveryRequired,
}

#[derive(Debug, Clone, Copy, PartialEq, Eq)]
pub enum DeviceState {
    Observed,
    PortReset,
    SlotEnabled,
    DefaultAddress,
    Addressed,
    Configured,
    Disconnected,
}

#[derive(Debug, Clone, Copy, PartialEq, Eq)]
pub enum TransferType {
    Control,
    Bulk,
    Interrupt,
    Isochronous,
}

#[derive(Debug, Clone, Copy, PartialEq, Eq)]
pub enum Direction {
    In,
    Out,
}

#[derive(Debug, Clone, Copy, PartialEq, Eq)]
pub enum Profile {
    Compliant,
    DeviceCompatibility,
}

#[derive(Debug, Clone, Copy, PartialEq, Eq)]
pub struct Setup {
    pub request_type: u8,
    pub request: u8,
    pub value: u16,
    pub index: u16,
    pub length: u16,
}

/// The words that a script uses for an enum's cases.
macro_rules! named {
    ($type:ident { $($name:literal => $case:ident),* $(,)? }) => {
        impl $type {
            pub fn name(self) -> &'static str {
                match self {
                    $(Self::$case => $name),*
                }
            }

            pub fn from_name(name: &str) -> Option<Self> {
                match name {
                    $($name => Some(Self::$case),)*
                    _ => None,
                }
            }
        }
    };
}

named!(Category {
    "V" => Validation,
    "U" => Unsupported,
    "O" => OperatingSystem,
    "C" => Controller,
    "T" => Timeout,
    "D" => Disconnect,
    "R" => RecoveryRequired,
});

named!(ControllerState {
    "Closed" => Closed,
    "AcquiredUnknown" => AcquiredUnknown,
    "Initialized" => Initialized,
    "Closing" => Closing,
    "RecoveryRequired" => RecoveryRequired,
});

named!(DeviceState {
    "observed" => Observed,
    "reset" => PortReset,
    "slot" => SlotEnabled,
    "default" => DefaultAddress,
    "addressed" => Addressed,
    "configured" => Configured,
    "disconnected" => Disconnected,
});

named!(TransferType {
    "control" => Control,
    "bulk" => Bulk,
    "interrupt" => Interrupt,
    "isochronous" => Isochronous,
});

named!(Direction {
    "in" => In,
    "out" => Out,
});

named!(Profile {
    "compliant" => Compliant,
    "compat" => DeviceCompatibility,
});

/// One reading of a port's status register.
pub type Reading = Result<u32, Error>;

/// Bytes as a script writes them.
#[derive(Debug, Clone, PartialEq, Eq)]
pub enum Data {
    Zeros(usize),
    Pattern(usize, u8),
    Bytes(Vec<u8>),
}

impl Data {
    pub fn len(&self) -> usize {
        match self {
            Self::Zeros(length) | Self::Pattern(length, _) => *length,
            Self::Bytes(bytes) => bytes.len(),
        }
    }

    pub fn is_empty(&self) -> bool {
        self.len() == 0
    }

    pub fn to_bytes(&self) -> Vec<u8> {
        match self {
            Self::Zeros(length) => vec![0; *length],
            Self::Pattern(length, start) => (0..*length).map(|i| pattern(*start, i)).collect(),
            Self::Bytes(bytes) => bytes.clone(),
        }
    }
}

/// (S + 7*i + (i>>8)) mod 256: the low byte of each term is enough.
fn pattern(start: u8, i: usize) -> u8 {
    start
        .wrapping_add(7u8.wrapping_mul(i as u8))
        .wrapping_add((i >> 8) as u8)
}

/// Bytes as an answer shows them: their number, then the bytes or their hash.
#[derive(Debug, Clone, PartialEq, Eq)]
pub struct Bytes(pub Vec<u8>);

/// The 64-bit FNV-1a hash.
pub fn fnv1a(bytes: &[u8]) -> u64 {
    bytes.iter().fold(0xcbf2_9ce4_8422_2325, |hash, byte| {
        (hash ^ u64::from(*byte)).wrapping_mul(0x0000_0100_0000_01b3)
    })
}

#[cfg(test)]
mod tests {
    use super::*;

    #[test]
    fn fnv1a_gives_the_published_values() {
        assert_eq!(fnv1a(b""), 0xcbf2_9ce4_8422_2325);
        assert_eq!(fnv1a(b"a"), 0xaf63_dc4c_8601_ec8c);
        assert_eq!(fnv1a(b"foobar"), 0x8594_4171_f739_67e8);
    }

    #[test]
    fn a_pattern_follows_its_formula() {
        let bytes = Data::Pattern(1000, 250).to_bytes();
        assert_eq!(bytes.len(), 1000);
        assert_eq!(bytes[..3], [250, 1, 8]);
        for (i, byte) in bytes.iter().enumerate() {
            assert_eq!(
                usize::from(*byte),
                (250 + 7 * i + (i >> 8)) % 256,
                "byte {i}"
            );
        }
    }

    #[test]
    fn zeros_and_bytes_are_as_written() {
        assert_eq!(Data::Zeros(3).to_bytes(), [0, 0, 0]);
        assert_eq!(Data::Bytes(vec![1, 2]).to_bytes(), [1, 2]);
        assert!(Data::Zeros(0).is_empty());
        assert_eq!(Data::Pattern(5, 0).len(), 5);
    }

    #[test]
    fn up_to_16_bytes_are_shown_and_more_are_hashed() {
        assert_eq!(Bytes(vec![]).to_string(), "0:");
        assert_eq!(Bytes(vec![0, 255]).to_string(), "2:00ff");
        let sixteen = Bytes(vec![1; 16]).to_string();
        assert_eq!(sixteen, format!("16:{}", "01".repeat(16)));
        let hashed = Bytes(vec![1; 17]).to_string();
        assert_eq!(hashed, format!("17:fnv{:016x}", fnv1a(&[1; 17])));
    }
}
