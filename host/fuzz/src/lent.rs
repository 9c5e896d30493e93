//! What a call is lent: eight slices, each between guard pages while it runs.
use tapewoad::library::{self, Memory, View};

use crate::guarded::{Edge, Guarded, announce};

/// The most words or bytes of a slice that a run lends.
pub const MOST_SESSION: usize = 40;
pub const MOST_BUS: usize = 10_752;
pub const MOST_ROWS: usize = 40 * 26;
pub const MOST_AREA: usize = 8_192;
pub const MOST_CALL: usize = 2_048;
pub const MOST_BYTES: usize = 8_192;
pub const MOST_OUT: usize = 64;
pub const MOST_LISTS: usize = 512;

/// Which of the library's functions takes a call.
#[derive(Debug, Clone, Copy, Default, PartialEq, Eq)]
pub enum Function {
    #[default]
    Apply,
    /// It is not lent `lists`.
    Read,
}

/// The contents of the eight slices.
#[derive(Debug, Clone, Default, PartialEq, Eq)]
pub struct Slices {
    pub function: Function,
    pub session: Vec<u64>,
    pub bus: Vec<u64>,
    pub rows: Vec<u64>,
    pub area: Vec<u8>,
    pub call: Vec<u64>,
    pub bytes: Vec<u8>,
    pub out: Vec<u64>,
    pub lists: Vec<u64>,
}

/// The slices as the library is lent them.
pub struct Lent<'a> {
    pub function: Function,
    pub session: &'a mut [u64],
    pub bus: &'a mut [u64],
    pub rows: &'a mut [u64],
    pub area: &'a mut [u8],
    pub call: &'a [u64],
    pub bytes: &'a [u8],
    pub out: &'a mut [u64],
    pub lists: &'a mut [u64],
}

/// [`run_library`], or what a test puts in its place.
pub type Library<'a> = &'a dyn Fn(&mut Lent<'_>) -> u64;

/// The library's own function.
pub fn run_library(lent: &mut Lent<'_>) -> u64 {
    let (session, bus) = (&mut *lent.session, &mut *lent.bus);
    let (rows, area) = (&mut *lent.rows, &mut *lent.area);
    match lent.function {
        Function::Apply => {
            let memory = Memory {
                session,
                bus,
                rows,
                area,
            };
            library::apply(memory, lent.call, lent.bytes, lent.out, lent.lists)
        }
        Function::Read => {
            let view = View {
                session,
                bus,
                rows,
                area,
            };
            library::read(view, lent.call, lent.bytes, lent.out)
        }
    }
}

/// Memory for the eight slices, and the function that is lent them.
pub struct Lender {
    function: Function,
    session: Guarded,
    bus: Guarded,
    rows: Guarded,
    area: Guarded,
    call: Guarded,
    bytes: Guarded,
    out: Guarded,
    lists: Guarded,
}

impl Default for Lender {
    fn default() -> Self {
        Self {
            function: Function::Apply,
            session: Guarded::new(8 * MOST_SESSION),
            bus: Guarded::new(8 * MOST_BUS),
            rows: Guarded::new(8 * MOST_ROWS),
            area: Guarded::new(MOST_AREA),
            call: Guarded::new(8 * MOST_CALL),
            bytes: Guarded::new(MOST_BYTES),
            out: Guarded::new(8 * MOST_OUT),
            lists: Guarded::new(8 * MOST_LISTS),
        }
    }
}

impl Lender {
    /// Lends the slices, each at the edge that its bit of `edges` says.
    pub fn lend(&mut self, slices: &Slices, edges: u8) {
        let edge = |bit: u8| match edges >> bit & 1 {
            0 => Edge::Start,
            _ => Edge::End,
        };
        self.function = slices.function;
        lend_words(&mut self.session, &slices.session, edge(0));
        lend_words(&mut self.bus, &slices.bus, edge(1));
        lend_words(&mut self.rows, &slices.rows, edge(2));
        lend_bytes(&mut self.area, &slices.area, edge(3));
        lend_words(&mut self.call, &slices.call, edge(4));
        lend_bytes(&mut self.bytes, &slices.bytes, edge(5));
        lend_words(&mut self.out, &slices.out, edge(6));
        lend_words(&mut self.lists, &slices.lists, edge(7));
    }

    /// Runs the call that was lent and gives the status.
    pub fn run(&mut self, library: Library<'_>, seed: u64, number: u64) -> u64 {
        announce(seed, number, &self.call);
        library(&mut Lent {
            function: self.function,
            session: self.session.words_mut(),
            bus: self.bus.words_mut(),
            rows: self.rows.words_mut(),
            area: self.area.bytes_mut(),
            call: self.call.words(),
            bytes: self.bytes.bytes(),
            out: self.out.words_mut(),
            lists: self.lists.words_mut(),
        })
    }

    /// Writes what stands in the slices now in place of what `slices` has.
    pub fn take(&self, slices: &mut Slices) {
        slices.function = self.function;
        copy(&mut slices.session, self.session.words());
        copy(&mut slices.bus, self.bus.words());
        copy(&mut slices.rows, self.rows.words());
        copy(&mut slices.area, self.area.bytes());
        copy(&mut slices.call, self.call.words());
        copy(&mut slices.bytes, self.bytes.bytes());
        copy(&mut slices.out, self.out.words());
        copy(&mut slices.lists, self.lists.words());
    }

    /// The slice beside which something was written that was not lent.
    pub fn broken_canary(&self) -> Option<&'static str> {
        let all = [
            (&self.session, "session"),
            (&self.bus, "bus"),
            (&self.rows, "rows"),
            (&self.area, "area"),
            (&self.call, "call"),
            (&self.bytes, "bytes"),
            (&self.out, "out"),
            (&self.lists, "lists"),
        ];
        let broken = all.iter().find(|(slice, _)| !slice.canaries_stand());
        broken.map(|(_, name)| *name)
    }
}

fn copy<T: Copy>(to: &mut Vec<T>, from: &[T]) {
    to.clear();
    to.extend_from_slice(from);
}

fn lend_words(slice: &mut Guarded, words: &[u64], edge: Edge) {
    slice.place(8 * words.len(), edge);
    slice.words_mut().copy_from_slice(words);
}

fn lend_bytes(slice: &mut Guarded, bytes: &[u8], edge: Edge) {
    slice.place(bytes.len(), edge);
    slice.bytes_mut().copy_from_slice(bytes);
}
