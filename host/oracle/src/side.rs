//! The oracle: a script's calls applied to the unchanged Rust.
use std::cell::RefCell;
use std::rc::Rc;

use script::{Answer, Call, Dump, Open, Outcome, Plan, PortRow, Recovery, Side, Submit};

use crate::answers::{self, Told};
use crate::backend::{Backend, Exchange, SharedExchange};
use crate::convert;
use crate::core::identity;
use crate::direct;
use crate::domain::models::RequestState;
use crate::domain::models::control_plan::{ControlPlan, DataStage};
use crate::domain::models::ports::Ports;
use crate::domain::models::requests::RequestSpec;
use crate::domain::services::usb::{DeviceSnapshot, EndpointSnapshot, UsbSession};

/// A row's facts that steer a generator; the token is in no report.
#[derive(Debug, Clone, Copy)]
pub struct RowView {
    pub id: script::RequestId,
    pub token: u64,
    pub device: script::DeviceId,
    pub endpoint: u8,
    pub length: u64,
    pub pending: bool,
    pub held: bool,
}

impl RowView {
    /// Whether a recovery of one of the two concerns the other.
    pub fn shares_endpoint(&self, other: &Self) -> bool {
        (self.device, self.endpoint) == (other.device, other.endpoint)
    }
}

/// The note of a stall, which no report shows.
#[derive(Debug, Clone, Copy)]
pub struct Stall {
    pub device: script::DeviceId,
    pub endpoint: u8,
    /// Whether no mark came since.
    pub is_current: bool,
}

/// What was there before a call, as far as it tells what the call met.
#[derive(Debug, Default)]
pub struct View {
    pub rows: Vec<RowView>,
    pub stall: Option<Stall>,
}

#[derive(Default)]
pub struct Oracle {
    usb: Option<UsbSession<Backend>>,
    exchange: SharedExchange,
}

impl Side for Oracle {
    fn apply(&mut self, call: &Call) -> Result<Answer, String> {
        self.exchange.replace(Exchange::default());
        if let Call::Open(open) = call {
            self.open(open);
        }
        let usb = self
            .usb
            .as_mut()
            .ok_or("no session is open: the first call must be `open`")?;
        let outcome = told(usb, &self.exchange, call)?;
        let (held, held_bytes) = tallies(usb)?;
        let exchange = self.exchange.take();
        Ok(Answer {
            outcome,
            asked: exchange.asked,
            reads: exchange.reads,
            state: convert::controller_state(usb.session.state()),
            held,
            held_bytes,
        })
    }
}

impl Oracle {
    pub fn new() -> Self {
        Self::default()
    }

    /// The rows by ascending id.
    pub fn rows(&self) -> Vec<RowView> {
        let Some(usb) = &self.usb else {
            return Vec::new();
        };
        let states = usb.session.requests.entries().values();
        let rows = usb.records.iter().zip(states);
        rows.map(|((id, record), state)| RowView {
            id: convert::request_id(*id),
            token: record.token,
            device: convert::device_id(record.metadata.device),
            endpoint: record.metadata.endpoint,
            length: record.metadata.requested_length as u64,
            pending: matches!(state, RequestState::Pending { .. }),
            held: state.device_may_access(),
        })
        .collect()
    }

    pub fn view(&self) -> View {
        View {
            rows: self.rows(),
            stall: self.stall(),
        }
    }

    fn stall(&self) -> Option<Stall> {
        let usb = self.usb.as_ref()?;
        let note = usb.recoverable_stall.as_ref()?;
        Some(Stall {
            device: convert::device_id(note.device),
            endpoint: note.endpoint,
            is_current: usb.session.recovery_revision() == Some(note.revision),
        })
    }

    /// The port rows; none where the opening gave no ports.
    pub fn ports(&self) -> Option<script::Ports> {
        self.usb.as_ref().and_then(ports)
    }

    fn open(&mut self, open: &Open) {
        let mut usb = UsbSession::new(Backend(Rc::clone(&self.exchange)), open.session);
        usb.session.requests.set_next_sequence(open.sequence);
        usb.session.set_recovery_revision(open.revision);
        usb.set_ports(open.ports.map(|count| Ports::new(open.session, count)));
        self.usb = Some(usb);
    }
}

type Usb = UsbSession<Backend>;

fn told(usb: &mut Usb, exchange: &RefCell<Exchange>, call: &Call) -> Told {
    match call {
        Call::Open(_) => Ok(Outcome::Done),
        Call::Device { .. } | Call::Port { .. } | Call::Endpoints { .. } | Call::Raw { .. } => {
            set(usb, call)
        }
        Call::Acquire(_) | Call::Initialise(_) | Call::Close { .. } => session(usb, exchange, call),
        Call::Submit(call) => submit(usb, exchange, call),
        Call::Plan(call) => plan(usb, exchange, call),
        Call::Poll { id, reply } => {
            exchange.borrow_mut().completion = Some(reply.clone());
            answers::report(usb.poll_request(convert::to_request_id(*id)))
        }
        Call::Cancel(id) => {
            answers::report(usb.logical_cancel_request(convert::to_request_id(*id)))
        }
        Call::Timeout(id) => answers::report(usb.timeout_request(convert::to_request_id(*id))),
        Call::Reclaim(id) => answers::report(usb.reclaim_request(convert::to_request_id(*id))),
        Call::Report(id) => answers::report(usb.request_status(convert::to_request_id(*id))),
        Call::Reports => answers::reports(usb.request_reports()),
        Call::Recover { id, kind, reply } => {
            exchange.borrow_mut().recovery = Some(reply.clone());
            let id = convert::to_request_id(*id);
            answers::abort(match kind {
                Recovery::Abort => usb.abort_request(id),
                Recovery::Reset { preserve } => usb.reset_endpoint_request(id, *preserve),
            })
        }
        Call::Dump => Ok(Outcome::Dump(dump(usb))),
        Call::Force(state) => {
            usb.session.set_state(convert::to_controller_state(*state));
            Ok(Outcome::Done)
        }
        Call::Withdraw(_) | Call::Store { .. } => {
            Err(format!("`{}` is for the port's side only", call.verb()))
        }
    }
}

fn set(usb: &mut Usb, call: &Call) -> Told {
    match call {
        Call::Device { id, port, state } => usb.set_device(DeviceSnapshot {
            id: convert::to_device_id(*id),
            port: convert::to_port_id(*port),
            state: convert::to_device_state(*state),
            configuration: None,
        }),
        Call::Port {
            number,
            generation,
            reading,
        } => return answers::done(usb.set_port(*number, *generation, *reading)),
        Call::Endpoints { slot, list } => {
            if list.len() > 30 {
                return Err("over 30 endpoints: refusal 53 has no Rust side".into());
            }
            usb.endpoints
                .insert(*slot, list.iter().map(endpoint).collect());
        }
        Call::Raw { slot, set: true } => {
            usb.raw_coherence.slots.insert(*slot, ());
        }
        Call::Raw { slot, set: false } => {
            usb.raw_coherence.slots.remove(slot);
        }
        _ => unreachable!("handled by the caller"),
    }
    Ok(Outcome::Done)
}

/// Only address and type are ever read.
fn endpoint((address, transfer_type): &(u8, script::TransferType)) -> EndpointSnapshot {
    EndpointSnapshot {
        address: *address,
        transfer_type: convert::type_name(*transfer_type),
        direction: String::new(),
        max_packet_size: 0,
        interval: 0,
    }
}

fn session(usb: &mut Usb, exchange: &RefCell<Exchange>, call: &Call) -> Told {
    match call {
        Call::Acquire(reply) => {
            exchange.borrow_mut().acquire = Some(*reply);
            answers::done(usb.session.acquire("controller"))
        }
        Call::Initialise(reply) => {
            exchange.borrow_mut().done = Some(*reply);
            answers::done(usb.session.initialize())
        }
        Call::Close { fresh, reply } => {
            exchange.borrow_mut().done = Some(*reply);
            identity::set_fresh(*fresh);
            answers::done(direct::close(usb))
        }
        _ => unreachable!("handled by the caller"),
    }
}

fn submit(usb: &mut Usb, exchange: &RefCell<Exchange>, call: &Submit) -> Told {
    {
        let mut exchange = exchange.borrow_mut();
        exchange.readings = call.readings.into();
        exchange.token = Some(call.reply);
    }
    let spec = RequestSpec {
        device: convert::to_device_id(call.device),
        endpoint: call.endpoint,
        transfer_type: convert::to_transfer_type(call.transfer_type),
        direction: convert::to_direction(call.direction),
        length: convert::to_usize(call.length),
        setup: call.setup.map(convert::to_setup),
        data: call.data.to_bytes(),
    };
    let packets = call.packets.as_ref();
    let packets = packets.map(|list| list.iter().map(|n| convert::to_usize(*n)).collect());
    answers::report(usb.submit_request_packets(spec, packets))
}

fn plan(usb: &mut Usb, exchange: &RefCell<Exchange>, call: &Plan) -> Told {
    {
        let mut exchange = exchange.borrow_mut();
        exchange.readings = [call.reading].into();
        exchange.token = Some(call.reply);
    }
    let stage = call.stage.map(|(direction, length)| DataStage {
        direction: convert::to_direction(direction),
        length: convert::to_usize(length),
    });
    answers::report(usb.submit_control_plan(ControlPlan {
        device: convert::to_device_id(call.device),
        profile: convert::to_profile(call.profile),
        setup: convert::to_setup(call.setup),
        data_stage: stage,
        status_direction: call.status.map(convert::to_direction),
        data: call.data.to_bytes(),
    }))
}

fn dump(usb: &Usb) -> Dump {
    let stall = usb.recoverable_stall.as_ref();
    Dump {
        session: usb.session.identity(),
        next: usb.session.requests.next_sequence(),
        revision: usb.session.recovery_revision(),
        stall: stall.map(|it| (it.revision, convert::device_id(it.device), it.endpoint)),
        rows: usb.records.len() as u64,
        ports: ports(usb),
    }
}

fn ports(usb: &Usb) -> Option<script::Ports> {
    let ports = usb.ports()?;
    let row = |(generation, reading)| PortRow {
        generation,
        reading,
    };
    Some(script::Ports {
        session: ports.session_number(),
        rows: ports.rows().into_iter().map(row).collect(),
    })
}

/// Held rows and the sum of their requested lengths, over records and ledger,
/// which must have the same ids.
fn tallies(usb: &Usb) -> Result<(u64, u64), String> {
    let entries = usb.session.requests.entries();
    if !usb.records.keys().eq(entries.keys()) {
        return Err("the Rust's records and ledger have different ids".into());
    }
    let mut held = (0, 0);
    for (record, state) in usb.records.values().zip(entries.values()) {
        if state.device_may_access() {
            held.0 += 1;
            held.1 += record.metadata.requested_length as u64;
        }
    }
    Ok(held)
}
