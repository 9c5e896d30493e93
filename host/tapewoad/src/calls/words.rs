//! The words of a call on their way to the library.
use std::ops::{Deref, DerefMut};

/// As many as a call without a list has at most.
const FEW: usize = 27;

/// They stand on the stack unless a list makes them many.
pub struct Words {
    few: [u64; FEW],
    length: usize,
    /// All of them, where they are many.
    many: Vec<u64>,
}

impl Words {
    pub const fn new() -> Self {
        Self {
            few: [0; FEW],
            length: 0,
            many: Vec::new(),
        }
    }

    #[inline(always)]
    pub fn put(&mut self, words: &[u64]) {
        let end = self.length + words.len();
        match self.few.get_mut(self.length..end) {
            Some(room) => room.copy_from_slice(words),
            None => self.put_many(words),
        }
        self.length = end;
    }

    #[cold]
    fn put_many(&mut self, words: &[u64]) {
        if self.many.is_empty() {
            self.many.extend_from_slice(&self.few[..self.length]);
        }
        self.many.extend_from_slice(words);
    }
}

impl Deref for Words {
    type Target = [u64];

    fn deref(&self) -> &[u64] {
        self.few.get(..self.length).unwrap_or(&self.many)
    }
}

impl DerefMut for Words {
    fn deref_mut(&mut self) -> &mut [u64] {
        let few = self.few.get_mut(..self.length);
        few.unwrap_or(&mut self.many)
    }
}

#[cfg(test)]
mod tests {
    use super::*;

    #[test]
    fn words_stand_in_their_order_however_many() {
        for parts in [
            [0, 0, 0],
            [1, 2, FEW - 3],
            [1, FEW, 1],
            [FEW, 1, 40],
            [40, 1, 2],
        ] {
            let mut words = Words::new();
            let mut expected = Vec::new();
            for length in parts {
                let next = expected.len() as u64;
                let part: Vec<_> = (next..).take(length).collect();
                words.put(&part);
                expected.extend(part);
                assert_eq!(*words, expected, "{parts:?}");
            }
        }
    }
}
