//! Bad input at the C boundary: calls, sessions and slices of every wrong kind
//! beside good ones, each between guard pages, and what may come of them.
//!
//! A run is the same for the same seed.
mod answers;
mod check;
mod damage;
mod guarded;
mod host;
mod judge;
mod lent;
mod requests;
mod tally;
mod twin;

use std::fmt::{self, Display, Formatter};

use seeded::Rng;
use tapewoad::calls::{ANSWER_WORDS, Answer, BUS_WORDS, LIST_WORDS, ROW_WORDS, SESSION_WORDS};

pub use guarded::tell_faults;
pub use lent::{Function, Lent, Library, Slices, run_library};
pub use tally::Tally;

use damage::Slice;
use host::{Host, Words};
use lent::Lender;

/// What is done to a good call and to the session that it is made on.
#[derive(Debug, Clone, Copy, PartialEq, Eq, PartialOrd, Ord)]
pub enum Case {
    Good,
    /// One word is another that may be in its field's range.
    OddCall,
    DamagedCall,
    RandomCall,
    /// The slices in turn with each length of a list, some with two of them wrong.
    WrongSize,
    DamagedCallAndSize,
    DamagedSession,
    RandomSession,
    /// Rows, bus or area that no call leaves.
    DamagedContents,
}

const CASES: &[(u32, Case)] = &[
    (45, Case::Good),
    (12, Case::OddCall),
    (12, Case::DamagedCall),
    (4, Case::RandomCall),
    (12, Case::WrongSize),
    (4, Case::DamagedCallAndSize),
    (8, Case::DamagedSession),
    (2, Case::RandomSession),
    (8, Case::DamagedContents),
];

impl Case {
    /// Whether what the call leaves is what calls lead to.
    fn leads_on(self) -> bool {
        use Case::*;
        matches!(self, Good | OddCall | DamagedCall | RandomCall)
    }

    /// Whether calls led to the session and the rows that it is lent.
    fn is_sound(self) -> bool {
        use Case::*;
        !matches!(self, DamagedSession | RandomSession | DamagedContents)
    }
}

/// What is wrong, and with which call.
#[derive(Debug)]
pub struct Failure {
    pub seed: u64,
    /// From 1.
    pub number: u64,
    pub case: Case,
    pub message: String,
    pub slices: Box<Slices>,
}

impl Display for Failure {
    fn fmt(&self, f: &mut Formatter<'_>) -> fmt::Result {
        let Slices {
            function,
            session,
            bus,
            rows,
            area,
            call,
            bytes,
            out,
            lists,
        } = &*self.slices;
        writeln!(
            f,
            "seed {}, call {} ({:?}, {function:?}): {}",
            self.seed, self.number, self.case, self.message
        )?;
        writeln!(
            f,
            "  call {call:?}\n  bytes {bytes:?}\n  session {session:?}"
        )?;
        let lengths = [bus.len(), rows.len(), area.len(), out.len(), lists.len()];
        write!(f, "  lengths of bus, rows, area, out, lists: {lengths:?}")
    }
}

/// A run.
pub struct Fuzz<'a> {
    seed: u64,
    library: Library<'a>,
    rng: Rng,
    host: Host,
    /// The host's next call.
    next: Words,
    /// Slices with each length of a list, and how many of these were lent.
    sizes: Vec<(Slice, usize)>,
    next_size: usize,
    lender: Lender,
    /// What calls led to.
    live: Slices,
    /// What the latest call was lent, and what it left.
    before: Slices,
    after: Slices,
    /// What the call that is held against a reading left.
    twin_after: Slices,
    pub tally: Tally,
}

impl<'a> Fuzz<'a> {
    pub fn new(seed: u64, library: Library<'a>) -> Self {
        let mut rng = Rng::new(seed);
        let mut host = Host::new(Rng::new(rng.next_u64()));
        let live = Slices {
            session: vec![0; SESSION_WORDS],
            bus: damage::words(&mut rng, BUS_WORDS),
            out: damage::words(&mut rng, ANSWER_WORDS + 3),
            lists: damage::words(&mut rng, LIST_WORDS + 5),
            ..Slices::default()
        };
        host.open();
        Self {
            seed,
            library,
            rng,
            next: host.next(&live.session),
            host,
            sizes: damage::sizes(),
            next_size: 0,
            lender: Lender::default(),
            live,
            before: Slices::default(),
            after: Slices::default(),
            twin_after: Slices::default(),
            tally: Tally::default(),
        }
    }

    /// How often the slices were lent with each length of the list.
    pub fn size_rounds(&self) -> usize {
        self.next_size / self.sizes.len()
    }

    /// Makes the next call and checks what came of it.
    pub fn step(&mut self) -> Result<(), Box<Failure>> {
        let case = self.rng.weighted(CASES);
        self.prepare(case);
        let edges = self.rng.next_u64() as u8;
        self.lender.lend(&self.before, edges);
        let number = self.tally.calls + 1;
        let status = self.lender.run(self.library, self.seed, number);
        self.lender.take(&mut self.after);
        let checked = match self.lender.broken_canary() {
            Some(name) => Err(format!("written beside `{name}`")),
            None => check::check(status, &self.before, &self.after, case.is_sound()),
        };
        let checked = checked.and_then(|answer| self.hold_to_twin(answer, edges));
        let answer = checked.map_err(|message| {
            Box::new(Failure {
                seed: self.seed,
                number,
                case,
                message,
                slices: Box::new(self.before.clone()),
            })
        })?;
        let function = self.before.function;
        self.tally.count(case, function, status, answer.as_ref());
        if function == Function::Apply {
            self.lead_on(case, answer);
        }
        Ok(())
    }

    /// Holds what was read against the answer of the call that may change things.
    fn hold_to_twin(
        &mut self,
        answer: Option<Answer>,
        edges: u8,
    ) -> Result<Option<Answer>, String> {
        let reads = self.before.function == Function::Read && answer.is_some();
        if let Some(lent) = reads.then(|| twin::of(&self.before)).flatten() {
            self.lender.lend(&lent, edges);
            let number = self.tally.calls + 1;
            self.lender.run(self.library, self.seed, number);
            self.lender.take(&mut self.twin_after);
            twin::check(&self.before.call, &self.after.out, &self.twin_after.out)?;
        }
        Ok(answer)
    }

    /// Sets `before` up: the live session, and a call that reads or the next one.
    fn take_call(&mut self, case: Case) {
        let read = self.rng.chance(25).then(|| self.host.read());
        if read.is_none() && case == Case::Good && self.next.call[0] == 0 {
            self.size_store();
        }
        let it = &mut self.before;
        it.clone_from(&self.live);
        if read.is_some() {
            it.function = Function::Read;
        }
        let words = read.as_ref().unwrap_or(&self.next);
        it.call.clone_from(&words.call);
        it.bytes.clone_from(&words.bytes);
    }

    /// Sets `before` up, damaged as the case says.
    fn prepare(&mut self, case: Case) {
        self.take_call(case);
        let (rng, it) = (&mut self.rng, &mut self.before);
        match case {
            Case::Good => {}
            Case::OddCall => damage::odd(rng, &mut it.call),
            Case::DamagedCall | Case::DamagedCallAndSize => {
                for _ in 0..1 + rng.below(3) {
                    damage::list(rng, &mut it.call, lent::MOST_CALL);
                }
            }
            Case::RandomCall => {
                let length = rng.below(40);
                it.call = damage::words(rng, length);
                if let Some(number) = it.call.first_mut() {
                    *number = rng.below(30) as u64;
                }
            }
            Case::WrongSize => {
                let (slice, length) = self.sizes[self.next_size % self.sizes.len()];
                self.next_size += 1;
                damage::resize(it, slice, length);
            }
            Case::DamagedSession => damage::session(rng, &mut it.session),
            Case::RandomSession => it.session = damage::words(rng, SESSION_WORDS),
            Case::DamagedContents => damage::contents(rng, it),
        }
        let also = case == Case::WrongSize && rng.chance(30);
        if case == Case::DamagedCallAndSize || also {
            damage::off_by_one(rng, it);
        }
    }

    /// Memory for the store of the opening that is next, with anything in it.
    fn size_store(&mut self) {
        let (rows, bytes) = (self.host.row_count, self.host.row_bytes);
        self.live.rows = damage::words(&mut self.rng, rows * ROW_WORDS);
        self.live.area = vec![self.rng.next_u64() as u8; rows * bytes];
    }

    /// Keeps what the call left, where calls may lead to it.
    fn lead_on(&mut self, case: Case, answer: Option<Answer>) {
        if let Some(answer) = &answer
            && case.leads_on()
        {
            let (live, after) = (&mut self.live, &mut self.after);
            std::mem::swap(&mut live.session, &mut after.session);
            std::mem::swap(&mut live.bus, &mut after.bus);
            std::mem::swap(&mut live.rows, &mut after.rows);
            std::mem::swap(&mut live.area, &mut after.area);
            let call = &self.before.call;
            self.host.note(call, answer, &live.session);
        }
        if case == Case::Good {
            self.next = self.host.next(&self.live.session);
        }
    }
}
