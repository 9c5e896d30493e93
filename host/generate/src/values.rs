//! Random values, with the edges more often than chance would have them.
use script::{Category, Completion, Data, Error};
use seeded::Rng;

const CATEGORIES: [Category; 7] = [
    Category::Validation,
    Category::Unsupported,
    Category::OperatingSystem,
    Category::Controller,
    Category::Timeout,
    Category::Disconnect,
    Category::RecoveryRequired,
];

pub fn error(rng: &mut Rng) -> Error {
    let message = match rng.below(4) {
        0 => rng.pick(&[0, 48, u16::MAX]),
        _ => rng.below(60) as u16,
    };
    Error {
        category: rng.pick(&CATEGORIES),
        message,
        os_code: rng.weighted(&[
            (5, None),
            (1, Some(-110)),
            (1, Some(i32::MIN)),
            (1, Some(i32::MAX)),
        ]),
        completion_code: rng.weighted(&[
            (5, None),
            (2, Some(6)),
            (1, Some(4)),
            (1, Some(u32::MAX)),
        ]),
    }
}

/// A request's length: mostly small.
pub fn length(rng: &mut Rng, most: u64) -> u64 {
    let length = match rng.below(100) {
        0 => 65_536,
        1 => 65_535,
        2..5 => 512 + rng.below(4_000) as u64,
        5..15 => 0,
        15..40 => 8,
        40..60 => 64,
        _ => rng.below(40) as u64,
    };
    length.min(most)
}

/// Data of this length, or of a length that is too much anyway.
pub fn data(rng: &mut Rng, length: u64) -> Data {
    let length = length.min(70_000) as usize;
    match rng.below(4) {
        0 => Data::Zeros(length),
        1 if length <= 8 => Data::Bytes((0..length).map(|_| rng.next_u64() as u8).collect()),
        _ => Data::Pattern(length, rng.next_u64() as u8),
    }
}

/// A completion that is valid for a request of this length.
pub fn valid_completion(rng: &mut Rng, requested: u64) -> Completion {
    let (length, code) = match rng.below(4) {
        0 => (0, 13),
        1 => (rng.below(requested as usize + 1) as u64, 13),
        2 => (rng.below(requested as usize + 1) as u64, 1),
        _ => (requested, 1),
    };
    Completion {
        length: Some(length),
        code: Some(code),
        data: Some(data(rng, length)),
        error: None,
        quiescent: true,
    }
}

/// A completion without an error that is wrong in one of the possible ways.
pub fn invalid_completion(rng: &mut Rng, requested: u64) -> Completion {
    let mut done = valid_completion(rng, requested);
    match rng.below(9) {
        0 => done.length = None,
        1 => done.code = None,
        2 => done.code = Some(rng.pick(&[0, 2, 6, 6, 12, 14, 26, 257, u32::MAX])),
        3 => done.data = None,
        4 => {
            let length = requested + 1 + rng.below(3) as u64;
            done.length = Some(length);
            done.data = Some(Data::Zeros(length as usize));
        }
        5 => {
            let length = done.length.unwrap_or(0) as usize;
            done.data = Some(Data::Zeros(length + 1));
        }
        6 => {
            done.length = Some(0);
            done.code = Some(1);
            done.data = None;
        }
        7 => done.length = Some(rng.pick(&[u64::MAX, 1 << 32, requested + 1])),
        _ => done.quiescent = false,
    }
    done
}

/// A completion that brings an error.
pub fn failed_completion(rng: &mut Rng, quiescent: bool) -> Completion {
    let length = rng.weighted(&[(3, None), (1, Some(0)), (1, Some(3))]);
    Completion {
        length,
        code: rng.weighted(&[
            (4, Some(6)),
            (2, Some(4)),
            (1, Some(1)),
            (1, None),
            (1, Some(u32::MAX)),
        ]),
        data: rng
            .chance(20)
            .then(|| Data::Zeros(length.unwrap_or(2) as usize)),
        error: Some(error(rng)),
        quiescent,
    }
}

/// What is no stall by one of its codes, its category or its quiescence.
pub fn near_stall(rng: &mut Rng) -> Completion {
    let mut done = stall(rng);
    let code = rng.pick(&[None, Some(4), Some(13), Some(u32::MAX)]);
    let category = rng.pick(&CATEGORIES[..6]);
    match (rng.below(4), &mut done.error) {
        (0, _) => done.code = code,
        (1, Some(error)) => error.completion_code = code,
        (2, Some(error)) => error.category = category,
        _ => done.quiescent = true,
    }
    done
}

/// A stall: both codes 6, RecoveryRequired, not quiescent.
pub fn stall(rng: &mut Rng) -> Completion {
    let mut error = error(rng);
    error.category = Category::RecoveryRequired;
    error.completion_code = Some(6);
    Completion {
        length: None,
        code: Some(6),
        data: None,
        error: Some(error),
        quiescent: false,
    }
}
