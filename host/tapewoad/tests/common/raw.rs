//! Memory whose words a test may set by hand, with its answers as words.
use super::store::{first_calls, opening};
use tapewoad::calls::*;
use tapewoad::library::{self, Memory, View};

#[derive(Debug, Clone, PartialEq, Eq)]
pub struct Raw {
    pub session: [u64; SESSION_WORDS],
    pub bus: [u64; BUS_WORDS],
    pub rows: Vec<u64>,
    pub area: Vec<u8>,
}

impl Raw {
    /// So many rows of 16 bytes, as [`ready`](super::store::ready).
    pub fn ready(rows: usize) -> Self {
        let mut raw = Self {
            session: [0; SESSION_WORDS],
            bus: [0; BUS_WORDS],
            rows: vec![0; rows * ROW_WORDS],
            area: vec![0; rows * 16],
        };
        let open = Call::Open {
            opening: opening(),
            rows: rows as u64,
            row_bytes: 16,
        };
        for call in [open].into_iter().chain(first_calls()) {
            assert_eq!(raw.apply(&call)[0], 1, "{call:?}");
        }
        raw
    }

    pub fn apply(&mut self, call: &Call<'_>) -> [u64; ANSWER_WORDS] {
        let memory = Memory {
            session: &mut self.session,
            bus: &mut self.bus,
            rows: &mut self.rows,
            area: &mut self.area,
        };
        let (mut out, mut lists) = ([0; ANSWER_WORDS], [0; LIST_WORDS]);
        let words = call.words();
        let status = library::apply(memory, &words, &call.bytes(), &mut out, &mut lists);
        assert_eq!(status, 0, "{call:?}");
        out
    }

    /// Makes a call that leaves all as it is.
    pub fn read(&self, call: &Call<'_>) -> [u64; ANSWER_WORDS] {
        let view = View {
            session: &self.session,
            bus: &self.bus,
            rows: &self.rows,
            area: &self.area,
        };
        let mut out = [0; ANSWER_WORDS];
        let status = library::read(view, &call.words(), &call.bytes(), &mut out);
        assert_eq!(status, 0, "{call:?}");
        out
    }
}
