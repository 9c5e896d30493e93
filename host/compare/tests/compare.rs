//! The two sides agree; where one lies, it is found and cut down.
use std::cell::Cell;
use std::collections::BTreeMap;
use std::rc::Rc;

use compare::{Plan, Stop, Tables, compare};
use generate::{Bounded, Mix};
use script::{Answer, Call, Category, DeviceId, InItsPlace, Outcome, RequestId, RowState, Side};

fn plan(seed: u64, calls: u64) -> Plan {
    Plan {
        seed,
        calls,
        mix: Mix::Default,
        phase: None,
        stores: false,
    }
}

fn run(new_port: &dyn Fn() -> Box<dyn Side>, plan: Plan) -> Result<Tables, Stop> {
    let mut tables = match plan.stores {
        true => Tables::in_small_stores(plan.mix),
        false => Tables::new(plan.mix),
    };
    compare(plan, new_port, &mut tables).map(|()| tables)
}

#[test]
fn the_port_answers_as_the_rust() {
    let tables = run(&|| Box::new(port::Port::new()), plan(11, 20_000)).unwrap();
    assert_eq!(tables.port.calls + tables.departures.total(), 20_000);
    assert_eq!(tables.rust.to_string(), tables.port.to_string());
    assert!(tables.departures.times(InItsPlace::Report) > 5);
}

#[test]
fn the_safe_session_answers_as_the_rust() {
    run(&|| Box::new(port::Session::new()), plan(12, 20_000)).unwrap();
}

fn in_small_stores(seed: u64, calls: u64) -> Plan {
    Plan {
        stores: true,
        ..plan(seed, calls)
    }
}

#[test]
fn a_smaller_store_answers_as_the_rust_until_its_limit() {
    let tables = run(&|| Box::new(port::Port::new()), in_small_stores(13, 20_000)).unwrap();
    assert!(tables.port.times("5 with the only row of a store used") > 100);
    assert!(tables.port.times("5 with all of more rows of a store used") > 100);
    assert!(tables.port.times("7 by submit") > 100);
    assert!(tables.port.times("7 by plan") > 50);
    let session = || Box::new(port::Session::new()) as Box<dyn Side>;
    run(&session, in_small_stores(14, 20_000)).unwrap();
}

/// A side of the port whose operator hesitates: before each call the request that
/// was shown last is cancelled and that taken back or, where it is cancelled, the
/// other way round. It counts how often, by whether it was cancelled.
struct Hesitant<S> {
    port: S,
    last: Option<RequestId>,
    times: [Rc<Cell<u64>>; 2],
}

impl<S: Side> Hesitant<S> {
    fn hesitate(&mut self, id: RequestId) -> Result<(), String> {
        let shown = self.port.apply(&Call::Report(id))?;
        let Outcome::Row(row) = &shown.outcome else {
            return Ok(());
        };
        let RowState::Pending { cancelled, .. } = row.state else {
            return Ok(());
        };
        let (first, second) = match cancelled {
            false => (Call::Cancel(id), Call::Withdraw(id)),
            true => (Call::Withdraw(id), Call::Cancel(id)),
        };
        assert_ne!(self.port.apply(&first)?, shown);
        assert_eq!(self.port.apply(&second)?, shown);
        let times = &self.times[usize::from(cancelled)];
        times.set(times.get() + 1);
        Ok(())
    }
}

impl<S: Side> Side for Hesitant<S> {
    fn apply(&mut self, call: &Call) -> Result<Answer, String> {
        if let Some(id) = self.last {
            self.hesitate(id)?;
        }
        let answer = self.port.apply(call)?;
        match &answer.outcome {
            Outcome::Row(row) => self.last = Some(row.id),
            _ if matches!(call, Call::Open(_)) => self.last = None,
            _ => {}
        }
        Ok(answer)
    }
}

fn assert_hesitation_leaves_no_trace<S: Side + 'static>(new: fn() -> S, seed: u64) {
    let times = [(); 2].map(|()| Rc::new(Cell::new(0)));
    let hesitant = || {
        Box::new(Hesitant {
            port: new(),
            last: None,
            times: times.clone(),
        }) as Box<dyn Side>
    };
    run(&hesitant, plan(seed, 20_000)).unwrap();
    for (times, least) in times.iter().zip([2_000, 200]) {
        assert!(times.get() > least, "{}", times.get());
    }
}

#[test]
fn a_cancel_that_is_taken_back_leaves_no_trace() {
    assert_hesitation_leaves_no_trace(port::Port::new, 15);
    assert_hesitation_leaves_no_trace(port::Session::new, 16);
}

/// The port, but its store has a row more than it should.
struct Roomy(port::Port);

impl Side for Roomy {
    fn apply(&mut self, call: &Call) -> Result<Answer, String> {
        match call {
            Call::Store { rows, bytes } => self.0.apply(&Call::Store {
                rows: rows + 1,
                bytes: *bytes,
            }),
            call => self.0.apply(call),
        }
    }
}

#[test]
fn a_store_with_a_row_too_many_is_found() {
    let roomy = || Box::new(Roomy(port::Port::new())) as Box<dyn Side>;
    let Err(Stop::Difference { found, .. }) = run(&roomy, in_small_stores(1, 20_000)) else {
        panic!("it was not found");
    };
    assert!(
        found.answers.rust.starts_with("refuse 5 V.5.-.- |"),
        "{found}"
    );
    assert!(!found.answers.port.starts_with("refuse 5 "), "{found}");
    assert!(matches!(found.script.first(), Some(Call::Store { .. })));
}

/// The port, but its rows have a byte less than they should.
struct Tight(port::Port);

impl Side for Tight {
    fn apply(&mut self, call: &Call) -> Result<Answer, String> {
        match call {
            Call::Store { rows, bytes } if *bytes > 1 => self.0.apply(&Call::Store {
                rows: *rows,
                bytes: bytes - 1,
            }),
            call => self.0.apply(call),
        }
    }
}

#[test]
fn a_row_with_a_byte_too_few_is_found() {
    let tight = || Box::new(Tight(port::Port::new())) as Box<dyn Side>;
    let Err(Stop::Difference { found, .. }) = run(&tight, in_small_stores(1, 20_000)) else {
        panic!("it was not found");
    };
    assert!(
        found.answers.port.starts_with("refuse 7 V.7.-.- |"),
        "{found}"
    );
}

/// The port, but a request that timed out is shown as not timed out.
struct Liar(port::Port);

impl Side for Liar {
    fn apply(&mut self, call: &Call) -> Result<Answer, String> {
        let mut answer = self.0.apply(call)?;
        if let Outcome::Row(row) = &mut answer.outcome
            && let RowState::Pending { timed_out, .. } = &mut row.state
        {
            *timed_out = false;
        }
        Ok(answer)
    }
}

#[test]
fn a_difference_is_found_and_cut_down() {
    let lying = || Box::new(Liar(port::Port::new())) as Box<dyn Side>;
    let stop = run(&lying, plan(7, 20_000));
    let Err(Stop::Difference { after, found }) = stop else {
        panic!("it was not found");
    };
    assert!(after > 1);
    let text = found.to_string();
    // An opening, what makes a device usable, a submission or two and the timeout.
    assert!(found.script.len() <= 14, "{text}");
    assert!(matches!(found.script.last(), Some(Call::Timeout(_))));
    assert!(found.answers.rust.contains("state=P(0,1)"), "{text}");
    assert!(found.answers.port.contains("state=P(0,0)"), "{text}");
}

/// The port, but it has no answer to an abort.
struct Mute(port::Port);

impl Side for Mute {
    fn apply(&mut self, call: &Call) -> Result<Answer, String> {
        match call.verb() {
            "abort" => Err("no word of it".into()),
            _ => self.0.apply(call),
        }
    }
}

#[test]
fn a_side_without_an_answer_is_a_difference() {
    let mute = || Box::new(Mute(port::Port::new())) as Box<dyn Side>;
    let Err(Stop::Difference { found, .. }) = run(&mute, plan(3, 20_000)) else {
        panic!("it was not found");
    };
    assert_eq!(found.answers.port, "no answer: no word of it");
    assert_eq!(found.script.last().map(Call::verb), Some("abort"));
    // Without an opening the Rust has no answer either.
    assert_eq!(found.script.len(), 2, "{found}");
}

/// The port, but a recovery names its ids in the wrong order.
struct Reversing(port::Port);

impl Side for Reversing {
    fn apply(&mut self, call: &Call) -> Result<Answer, String> {
        let mut answer = self.0.apply(call)?;
        if let Outcome::Abort(report) = &mut answer.outcome {
            report.aborted.reverse();
        }
        Ok(answer)
    }
}

#[test]
fn a_difference_in_a_recovery_is_found() {
    let reversing = || Box::new(Reversing(port::Port::new())) as Box<dyn Side>;
    let Err(Stop::Difference { found, .. }) = run(&reversing, plan(13, 20_000)) else {
        panic!("it was not found");
    };
    let Some(Call::Recover {
        reply: Ok(reply), ..
    }) = found.script.last()
    else {
        panic!("{found}");
    };
    // An opening, what makes a device usable, a submission for each token that
    // the reply names, and the recovery.
    let tokens = reply.completed.len() + reply.aborted.len();
    assert!(found.script.len() <= tokens + 8, "{found}");
}

/// The port, but it looks at the mark of a slot after its device (27 before 26).
#[derive(Default)]
struct Late {
    port: port::Port,
    devices: BTreeMap<u8, DeviceId>,
}

impl Side for Late {
    fn apply(&mut self, call: &Call) -> Result<Answer, String> {
        let mut answer = self.port.apply(call)?;
        let device = match call {
            Call::Open(_) => {
                self.devices.clear();
                None
            }
            Call::Device { id, .. } => self.devices.insert(id.slot, *id),
            Call::Submit(submit) => Some(submit.device),
            Call::Plan(plan) => Some(plan.device),
            _ => None,
        };
        if let Outcome::Refused { number, error } = &mut answer.outcome
            && *number == 26
            && device.is_some_and(|id| self.devices.get(&id.slot) != Some(&id))
        {
            (*number, error.message) = (27, 27);
        }
        Ok(answer)
    }
}

#[test]
fn a_mark_that_is_looked_at_after_the_device_is_found_by_every_seed() {
    let late = || Box::new(Late::default()) as Box<dyn Side>;
    for seed in 1..=5 {
        let Err(Stop::Difference { after, found }) = run(&late, plan(seed, 20_000)) else {
            panic!("it was not found by seed {seed}");
        };
        println!("seed {seed}: call {after}");
        assert!(found.answers.rust.starts_with("refuse 26 "), "{found}");
        assert!(found.answers.port.starts_with("refuse 27 "), "{found}");
    }
}

/// The Rust in the port's place, which has no 58.
#[test]
fn a_side_that_does_not_depart_is_found() {
    let rust = || Box::new(Bounded::new()) as Box<dyn Side>;
    let Err(Stop::Difference { found, .. }) = run(&rust, plan(1, 20_000)) else {
        panic!("it was not found");
    };
    assert_eq!(found.answers.rust, found.answers.port);
    let due = found.answers.due.as_deref().unwrap_or("");
    assert!(due.starts_with("refuse 58 U.58.-.- |"), "{found}");
    assert!(matches!(found.script.last(), Some(Call::Submit(_))));
}

/// The port, but 58 is of another category.
struct Miscalled(port::Port);

impl Side for Miscalled {
    fn apply(&mut self, call: &Call) -> Result<Answer, String> {
        let mut answer = self.0.apply(call)?;
        if let Outcome::Refused { number: 58, error } = &mut answer.outcome {
            error.category = Category::Validation;
        }
        Ok(answer)
    }
}

#[test]
fn a_departure_of_another_category_is_found() {
    let miscalled = || Box::new(Miscalled(port::Port::new())) as Box<dyn Side>;
    let Err(Stop::Difference { found, .. }) = run(&miscalled, plan(1, 20_000)) else {
        panic!("it was not found");
    };
    assert!(found.answers.port.starts_with("refuse 58 V.58.-.- |"));
}
