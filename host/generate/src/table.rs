//! How often each refusal and each kind of answer came.
use std::collections::BTreeMap;
use std::fmt::{self, Display, Formatter};
use std::mem;

use oracle::View;
use script::{Answer, Asked, Call, ControllerState, DeviceId, Outcome, RowState};

use crate::Mix;
use crate::bounded::StoreSize;
use crate::corners::{self, Recovered};

/// The refusals of document 01's table, by who can meet them.
const CANNOT_BE_MET: [u16; 3] = [7, 25, 44];
const NO_RUST_SIDE: [u16; 5] = [1, 2, 3, 49, 53];
const ONLY_BY_RECOVERY: [u16; 4] = [43, 46, 47, 48];
const LAST: u16 = 53;
const NOT_MET: &str = "NOT MET";

/// Every kind of report, of question to the backend, and the corners worth a name.
const KINDS: &[&str] = &[
    "ok",
    "row P(0,0)",
    "row P(0,1)",
    "row P(1,0)",
    "row P(1,1)",
    "row C(_,1,0)",
    "row C(_,1,1)",
    "row C(_,13,0)",
    "row C(_,13,1)",
    "row F(_,_,0)",
    "row F(_,_,1)",
    "row A",
    "rows, none",
    "rows, some",
    "abort ready=0 error=-",
    "abort ready=0 error=given",
    "abort ready=1 error=-",
    "abort ready=1 error=given",
    "dump",
    "dump with a recoverable stall",
    "dump with rev=-",
    "asked: none",
    "asked: submit",
    "asked: submit with packets",
    "asked: plan",
    "asked: poll",
    "asked: abort",
    "asked: reset",
    "5 with 128 held",
    FULL_STORE,
    "31 after 0 readings",
    "31 after 1 readings",
    "31 after 2 readings",
    "33 after 1 readings",
    "33 after 2 readings",
    "34 after 1 readings",
    "34 after 2 readings",
    "41 by abort",
    "41 by reset",
    "41 by a recovery that keeps earlier entries",
    "47 by a recovery that keeps earlier entries",
    "48 by a recovery that keeps earlier entries",
    "26 of a slot without a device",
    "26 of an id that is not its slot's",
    "46 by a token twice",
    "46 by a token that no affected row has",
    "46 by a token missing",
    "46 by more than 128 tokens",
    "recovery of 128 rows",
    "recovery of more than 100 rows",
    "recovery that releases 128 rows",
    "recovery that completes rows by data of three lengths",
    "recovery, ready, that leaves a row of an equal token held",
    "reset not ready or with an error",
    "reset that restores Initialized",
    "reset, ready, after a mark since the stall",
    "reset, ready, after a stall of another device",
    "reset, ready, after a stall of another endpoint",
    "reset, ready, after a stall of another device id in its slot",
    "reset, ready, that leaves a row Failed and not quiescent",
    "reset, ready, while Initialized with a stall noted",
    "reset, ready, without a stall noted",
];

/// What only the whole store meets, and what only smaller ones do.
const FULL_STORE: &str = "5 with all 1,024 rows used";
const ONE_ROW: &str = "opening of a store of one row";
const MORE_ROWS: &str = "opening of a store of more rows";
const ONE_ROW_USED: &str = "5 with the only row of a store used";
const MORE_ROWS_USED: &str = "5 with all of more rows of a store used";
const SMALL_KINDS: [&str; 6] = [
    ONE_ROW,
    MORE_ROWS,
    ONE_ROW_USED,
    MORE_ROWS_USED,
    "7 by plan",
    "7 by submit",
];

pub struct Table {
    pub calls: u64,
    mix: Mix,
    /// Whether every opening has a smaller store.
    small_stores: bool,
    /// The store, and the next opening's.
    store: StoreSize,
    next_store: StoreSize,
    refusals: BTreeMap<u16, u64>,
    kinds: BTreeMap<String, u64>,
    corners: BTreeMap<String, u64>,
    most_held: u64,
    most_rows: usize,
    /// State and held rows before the call.
    state: ControllerState,
    held: u64,
    /// The device of each slot that has one.
    devices: BTreeMap<u8, DeviceId>,
}

impl Table {
    /// For calls of this mix.
    pub fn new(mix: Mix) -> Self {
        Self {
            calls: 0,
            mix,
            small_stores: false,
            store: StoreSize::WHOLE,
            next_store: StoreSize::WHOLE,
            refusals: BTreeMap::new(),
            kinds: BTreeMap::new(),
            corners: BTreeMap::new(),
            most_held: 0,
            most_rows: 0,
            state: ControllerState::Closed,
            held: 0,
            devices: BTreeMap::new(),
        }
    }

    /// For calls of this mix in smaller stores.
    pub fn in_small_stores(mix: Mix) -> Self {
        Self {
            small_stores: true,
            ..Self::new(mix)
        }
    }

    /// Counts a call and its answer; `before` is what was there before it.
    pub fn count(&mut self, call: &Call, answer: &Answer, before: &View) {
        self.calls += 1;
        self.most_held = self.most_held.max(answer.held);
        self.most_rows = self.most_rows.max(before.rows.len());
        match &answer.outcome {
            Outcome::Refused { number, error } => {
                *self.refusals.entry(*number).or_default() += 1;
                let category = error.category.name();
                self.refused(call, answer, *number, category, before.rows.len());
            }
            outcome => *self.kinds.entry(kind(outcome)).or_default() += 1,
        }
        self.recovered(call, answer, before);
        *self
            .kinds
            .entry(format!("asked: {}", asked(&answer.asked)))
            .or_default() += 1;
        self.state = answer.state;
        self.held = answer.held;
        match call {
            Call::Device { id, .. } => {
                self.devices.insert(id.slot, *id);
            }
            Call::Open(_) => {
                self.devices.clear();
                self.store = mem::replace(&mut self.next_store, StoreSize::WHOLE);
                match self.store {
                    StoreSize::WHOLE => {}
                    StoreSize { rows: 1, .. } => self.corner(ONE_ROW),
                    _ => self.corner(MORE_ROWS),
                }
            }
            Call::Store { rows, bytes } => {
                let (rows, bytes) = (*rows, *bytes);
                self.next_store = StoreSize { rows, bytes };
            }
            _ => {}
        }
    }

    fn recovered(&mut self, call: &Call, answer: &Answer, before: &View) {
        let Call::Recover { id, kind, reply } = call else {
            return;
        };
        let recovered = Recovered {
            target: before.rows.iter().find(|row| row.id == *id),
            kind: *kind,
            reply,
            answer,
            state: self.state,
            before,
        };
        for name in recovered.corners() {
            self.corner(name);
        }
    }

    fn corner(&mut self, name: impl Into<String>) {
        *self.corners.entry(name.into()).or_default() += 1;
    }

    fn refused(&mut self, call: &Call, answer: &Answer, number: u16, category: &str, rows: usize) {
        match number {
            5 => self.corner(self.no_room(rows)),
            7 => self.corner(format!("7 by {}", call.verb())),
            31 | 33 | 34 => self.corner(format!("{number} after {} readings", answer.reads.len())),
            45 => self.corner(format!("45 by {}, category {category}", call.verb())),
            41 | 47 | 48 => self.corner(format!("{number} by {}", call.verb())),
            26 => self.marked(call),
            40 => self.corner(format!("40 by {}", call.verb())),
            _ => {}
        }
        if matches!(number, 41 | 47 | 48) && answer.held < self.held {
            self.corner(format!("{number} by a recovery that keeps earlier entries"));
        }
    }

    /// Why a submission is 5, where so many rows are used.
    fn no_room(&self, rows: usize) -> &'static str {
        match (self.store, rows as u64) {
            (StoreSize::WHOLE, 1_024..) => FULL_STORE,
            (StoreSize { rows: 1, .. }, 1..) => ONE_ROW_USED,
            (store, rows) if rows >= store.rows => MORE_ROWS_USED,
            _ => "5 with 128 held",
        }
    }

    /// 26 of what would be 27 without the mark.
    fn marked(&mut self, call: &Call) {
        let Some(device) = corners::device(call) else {
            return;
        };
        match self.devices.get(&device.slot) {
            None => self.corner("26 of a slot without a device"),
            Some(own) if *own != device => self.corner("26 of an id that is not its slot's"),
            Some(_) => {}
        }
    }

    /// How often a kind of report or a corner came.
    pub fn times(&self, name: &str) -> u64 {
        let found = self.kinds.get(name).or_else(|| self.corners.get(name));
        found.copied().unwrap_or(0)
    }

    /// What smaller stores met, in a line.
    pub fn small_stores(&self) -> String {
        let [one, more, full_one, full, by_plan, by_submit] =
            SMALL_KINDS.map(|name| self.times(name));
        format!(
            "smaller stores: {one} openings of one row, {more} of more; 5 with all rows used {} times, \
             {full_one} of them with one row; 7 {} times",
            full_one + full,
            by_plan + by_submit
        )
    }

    /// The numbers that this mix can meet and did not.
    pub fn missing(&self) -> Vec<u16> {
        (1..=LAST)
            .filter(|number| self.why(*number) == NOT_MET)
            .filter(|number| !self.refusals.contains_key(number))
            .collect()
    }

    /// The kinds of report and corners that this mix should bring and did not.
    pub fn missing_kinds(&self) -> Vec<&'static str> {
        let met = |name: &str| self.kinds.contains_key(name) || self.corners.contains_key(name);
        let due = |name: &str| {
            (self.mix == Mix::Default || !is_of_recovery(name))
                && (self.small_stores || !SMALL_KINDS.contains(&name))
                && !(self.small_stores && name == FULL_STORE)
        };
        let all = KINDS.iter().chain(&SMALL_KINDS);
        let missing = all.filter(|name| due(name) && !met(name));
        missing.copied().collect()
    }

    /// Why a number was not met.
    fn why(&self, number: u16) -> &'static str {
        match number {
            7 if !self.small_stores => "never: 6 comes first where rows have 65,536 bytes",
            25 => "never: 24 comes first",
            44 => "never: no row is held while Closed, AcquiredUnknown or Closing",
            _ if NO_RUST_SIDE.contains(&number) => "no Rust side",
            _ if self.mix == Mix::NoRecovery && ONLY_BY_RECOVERY.contains(&number) => {
                "only by a recovery"
            }
            _ => NOT_MET,
        }
    }

    /// Both sides' counts, where this table is one side's and `other` the other's.
    pub fn beside(&self, other: &Self) -> String {
        let mut text = String::from("refusals                   Rust      port\n");
        for number in 1..=LAST {
            let counts = [self, other].map(|it| it.refusals.get(&number).copied().unwrap_or(0));
            text += &match counts {
                [0, 0] => format!(
                    "{number:<20} {:>10} {:>9}  {}\n",
                    "-",
                    "-",
                    self.why(number)
                ),
                [a, b] => format!("{number:<20} {a:>10} {b:>9}\n"),
            };
        }
        text += "\nreports, what reached the backend, corners\n";
        let names = |it: &Self| it.kinds.keys().chain(it.corners.keys()).cloned().collect();
        let mut all: Vec<String> = names(self);
        all.extend::<Vec<_>>(names(other));
        all.sort();
        all.dedup();
        for name in all {
            let (own, others) = (self.times(&name), other.times(&name));
            text += &format!("{own:>10} {others:>9}  {name}\n");
        }
        text
    }

    /// The numbers that were met though no opening should lead to them.
    pub fn unexpected(&self) -> Vec<u16> {
        let never = CANNOT_BE_MET.iter().chain(&NO_RUST_SIDE);
        never
            .filter(|number| self.why(**number) != NOT_MET && self.refusals.contains_key(number))
            .copied()
            .collect()
    }
}

fn is_of_recovery(kind: &str) -> bool {
    kind == "row A"
        || ["46 by", "abort", "recovery", "reset"]
            .iter()
            .any(|it| kind.contains(it))
}

fn kind(outcome: &Outcome) -> String {
    match outcome {
        Outcome::Done => "ok".into(),
        Outcome::Row(row) => format!("row {}", state_kind(&row.state)),
        Outcome::Rows(rows) if rows.is_empty() => "rows, none".into(),
        Outcome::Rows(_) => "rows, some".into(),
        Outcome::Abort(report) => format!(
            "abort ready={} error={}",
            u8::from(report.ready),
            if report.error.is_some() { "given" } else { "-" }
        ),
        Outcome::Dump(dump) if dump.stall.is_some() => "dump with a recoverable stall".into(),
        Outcome::Dump(dump) if dump.revision.is_none() => "dump with rev=-".into(),
        Outcome::Dump(_) => "dump".into(),
        Outcome::Refused { .. } => "refuse".into(),
    }
}

fn state_kind(state: &RowState) -> String {
    match state {
        RowState::Pending {
            cancelled,
            timed_out,
        } => format!("P({},{})", u8::from(*cancelled), u8::from(*timed_out)),
        RowState::Completed {
            code, cancelled, ..
        } => format!("C(_,{code},{})", u8::from(*cancelled)),
        RowState::Failed { quiescent, .. } => format!("F(_,_,{})", u8::from(*quiescent)),
        RowState::Aborted => "A".into(),
    }
}

fn asked(asked: &Asked) -> &'static str {
    match asked {
        Asked::Nothing => "none",
        Asked::Submit { packets: None, .. } => "submit",
        Asked::Submit { .. } => "submit with packets",
        Asked::Plan { .. } => "plan",
        Asked::Poll { .. } => "poll",
        Asked::Abort { .. } => "abort",
        Asked::Reset { .. } => "reset",
    }
}

impl Display for Table {
    fn fmt(&self, f: &mut Formatter<'_>) -> fmt::Result {
        writeln!(f, "calls {}", self.calls)?;
        writeln!(
            f,
            "most held {}, most rows {}",
            self.most_held, self.most_rows
        )?;
        writeln!(f, "\nrefusals")?;
        for number in 1..=LAST {
            match self.refusals.get(&number) {
                Some(count) => writeln!(f, "{number:4} {count:8}")?,
                None => writeln!(f, "{number:4}        - {}", self.why(number))?,
            }
        }
        writeln!(f, "\nreports and what reached the backend")?;
        for (name, count) in &self.kinds {
            writeln!(f, "{count:8}  {name}")?;
        }
        writeln!(f, "\ncorners")?;
        for (name, count) in &self.corners {
            writeln!(f, "{count:8}  {name}")?;
        }
        writeln!(f, "\nrefusals missing: {:?}", self.missing())?;
        writeln!(f, "refusals unexpected: {:?}", self.unexpected())?;
        writeln!(f, "kinds missing: {:?}", self.missing_kinds())
    }
}
