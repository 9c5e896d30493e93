//! What is measured, and the most that it may take: the one list of both.
use crate::calls::{Call, Reply, Request};
use crate::scene::Rows;

#[derive(Debug, Clone)]
pub struct Workload {
    pub name: String,
    pub call: Call,
    pub rows: Rows,
    pub target: Target,
}

/// The most that a call may take, as a ratio to the Rust.
#[derive(Debug, Clone, Copy, Default, PartialEq)]
pub struct Target {
    /// By the C function.
    pub words: Option<f64>,
    /// Through `UsbSession`.
    pub session: Option<f64>,
}

impl Workload {
    fn new(name: &str, call: Call, rows: Rows) -> Self {
        Self {
            name: name.into(),
            call,
            rows,
            target: Target::default(),
        }
    }

    fn words(mut self, most: f64) -> Self {
        self.target.words = Some(most);
        self
    }

    fn session(mut self, most: f64) -> Self {
        self.target.session = Some(most);
        self
    }
}

/// So many Completed and held requests in a store of 1,024 rows; the last is
/// the target.
fn rows(completed: usize, held: usize) -> Rows {
    Rows {
        store: 1_024,
        completed,
        held,
        stopped: 0,
        length: 512,
        target: (completed + held).saturating_sub(1),
    }
}

fn empty() -> Rows {
    rows(0, 0)
}

/// 127 held, and 896 Completed.
fn full() -> Rows {
    rows(896, 127)
}

fn large(rows: Rows) -> Rows {
    Rows {
        length: 65_536,
        ..rows
    }
}

fn at(target: usize, rows: Rows) -> Rows {
    Rows { target, ..rows }
}

fn stopped(stopped: usize, rows: Rows) -> Rows {
    Rows { stopped, ..rows }
}

/// All of them, in the order of the page.
pub fn workloads() -> Vec<Workload> {
    [
        submissions(),
        polls(),
        flags(),
        reclaims(),
        reports(),
        sessions(),
        lives(),
        recoveries(),
    ]
    .concat()
}

fn submissions() -> Vec<Workload> {
    use Call::{Submit, SubmitRefused};
    let new = |name, call, rows| Workload::new(name, call, rows).session(3.5);
    let read = Submit(Request::READ);
    let large = Submit(Request::read(65_536));
    let write = Submit(Request::Out { length: 65_536 });
    vec![
        new("submit IN 512, 0 held", read, empty()).words(1.4),
        new("submit IN 512, 127 held", read, rows(0, 127)).words(0.15),
        new("submit IN 512, 127 held + 896", read, full()).words(0.03),
        new("submit IN 65,536, 0 held", large, empty()).words(1.4),
        // The Rust moves its vector, so there is no target.
        Workload::new("submit OUT 65,536, 0 held", write, empty()),
        new("submit control 18", Submit(Request::Control), empty()).words(2.5),
        new("submit plan 18", Submit(Request::Plan), empty()).words(2.5),
        Workload::new("submit, backend's error", SubmitRefused, empty()),
    ]
}

fn polls() -> Vec<Workload> {
    let new = |name, reply, rows| {
        Workload::new(name, Call::Poll(reply), rows)
            .words(1.1)
            .session(2.2)
    };
    let (nothing, all) = (Reply::Nothing, Reply::Completed(65_536));
    vec![
        new("poll nothing, 1 held", nothing, rows(0, 1)),
        new("poll nothing, 128 held", nothing, rows(0, 128)),
        new("poll nothing, 128 held + 896", nothing, rows(896, 128)).words(2.7),
        new("poll completing 512", Reply::Completed(512), rows(0, 1)),
        new("poll completing 65,536", all, large(rows(0, 1))),
        new("poll, a failed completion", Reply::Failed, rows(0, 1)),
        new("poll, backend's error", Reply::Refused, rows(0, 1)),
    ]
}

fn flags() -> Vec<Workload> {
    let new = |name, call, rows| Workload::new(name, call, rows).words(1.1).session(2.2);
    let middle = || at(63, rows(0, 127));
    vec![
        new("cancel, 1 held", Call::Cancel, rows(0, 1)),
        new("cancel, 127 held, the middle", Call::Cancel, middle()),
        new("cancel, 127 held + 896, the last", Call::Cancel, full()).words(1.2),
        new("timeout, 1 held", Call::Timeout, rows(0, 1)),
        new("timeout, 127 held, the middle", Call::Timeout, middle()),
        new("timeout, 127 held + 896, the last", Call::Timeout, full()).words(1.2),
    ]
}

fn reclaims() -> Vec<Workload> {
    let new = |name, rows| Workload::new(name, Call::Reclaim, rows).words(1.1);
    let last = at(895, full());
    vec![
        new("reclaim 512", rows(1, 0)),
        new("reclaim 65,536", large(rows(1, 0))),
        new("reclaim 512, 127 held + 896, the last", last).words(1.2),
    ]
}

fn reports() -> Vec<Workload> {
    let new = |name, rows| {
        Workload::new(name, Call::Status, rows)
            .words(1.1)
            .session(2.2)
    };
    let all = |name, rows| Workload::new(name, Call::Reports, rows).session(2.0);
    let unknown = "status of an unknown request";
    vec![
        new("status Pending", rows(0, 1)),
        new("status Completed 512", rows(1, 0)),
        new("status, 127 held + 896, the last", full()).words(2.2),
        // Every row of the store is looked at, so there is no target.
        Workload::new(unknown, Call::StatusUnknown, rows(0, 1)),
        all("all reports, 16 rows", rows(8, 8)),
        all("all reports, 128 rows", rows(64, 64)),
        all("all reports, 1,023 rows", full()),
    ]
}

fn sessions() -> Vec<Workload> {
    vec![
        Workload::new("opening", Call::Open, empty()),
        Workload::new("close, 128 held", Call::Close, rows(0, 128)),
    ]
}

fn lives() -> Vec<Workload> {
    vec![
        Workload::new("a request's life, 0 held", Call::Life, empty()),
        Workload::new("a request's life, 127 held", Call::Life, rows(0, 127)),
        Workload::new("a request's life, 127 held + 896", Call::Life, full()),
    ]
}

fn recoveries() -> Vec<Workload> {
    let abort = |name, count| Workload::new(name, Call::Abort, stopped(count, rows(0, 128)));
    let reset = stopped(16, rows(896, 128));
    vec![
        abort("abort of 1 of 128 held", 1).words(0.5),
        abort("abort of 16 of 128 held", 16).words(0.5),
        abort("abort of 128 of 128 held", 128).words(0.8),
        Workload::new("reset of 16 of 128 held + 896", Call::Reset, reset).words(0.5),
    ]
}

/// A call in stores of [`STORES`], of which it uses as many rows.
#[derive(Debug, Clone)]
pub struct Growth {
    pub name: &'static str,
    pub workloads: Vec<Workload>,
}

/// How many rows the stores have.
pub const STORES: [usize; 4] = [16, 64, 256, 1_024];

/// Four requests are held; the last is the target.
pub fn growth() -> Vec<Growth> {
    let calls = [
        ("submit IN 512", Call::Submit(Request::READ)),
        ("poll nothing", Call::Poll(Reply::Nothing)),
        ("cancel", Call::Cancel),
        ("status", Call::Status),
    ];
    let workload = |name, call, store| {
        let rows = Rows {
            store,
            ..rows(0, 4)
        };
        Workload::new(&format!("{name}, a store of {store}"), call, rows)
    };
    calls
        .map(|(name, call)| Growth {
            name,
            workloads: STORES.map(|store| workload(name, call, store)).into(),
        })
        .into()
}
