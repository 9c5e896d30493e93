//! The safe crate's `UsbSession`, with a backend that replies as each call says.
use std::mem;
use std::rc::Rc;

use script::{
    Answer, Bytes, Call, Error, Open, Outcome, Plan, Recovery, Row, RowState, Side, Submit,
};
use tapewoad::{
    ControlPlan, ControllerState, DataStage, OperationError, Refusal, RequestReport, RequestSpec,
    RequestState, UsbSession,
};

use crate::backend::{self, Backend, Exchange, SharedExchange};
use crate::{NOT_OPEN, WHOLE, convert, dump, force, memory};

type Usb = UsbSession<Backend>;
type Told = Result<Outcome, String>;

/// The port, through `UsbSession`.
pub struct Session {
    usb: Option<Usb>,
    exchange: SharedExchange,
    /// Rows and bytes a row of the next opening.
    size: (u64, u64),
}

impl Default for Session {
    fn default() -> Self {
        Self {
            usb: None,
            exchange: SharedExchange::default(),
            size: WHOLE,
        }
    }
}

impl Side for Session {
    fn apply(&mut self, call: &Call) -> Result<Answer, String> {
        self.exchange.replace(Exchange::default());
        let outcome = match (call, &mut self.usb) {
            (Call::Store { rows, bytes }, _) => {
                self.size = (*rows, *bytes);
                Outcome::Done
            }
            (Call::Open(open), _) => self.open(open)?,
            (_, None) => return Err(NOT_OPEN.into()),
            (_, Some(usb)) => told(usb, &self.exchange, call)?,
        };
        let exchange = self.exchange.take();
        let (state, held, held_bytes) = match &self.usb {
            Some(usb) => (usb.state(), usb.held_count().into(), usb.held_bytes()),
            None => (ControllerState::Closed, 0, 0),
        };
        Ok(Answer {
            outcome,
            asked: exchange.asked,
            reads: exchange.reads,
            state: convert::controller_state(state),
            held,
            held_bytes,
        })
    }
}

impl Session {
    pub fn new() -> Self {
        Self::default()
    }

    fn open(&mut self, open: &Open) -> Told {
        let size = mem::replace(&mut self.size, WHOLE);
        let (rows, bytes) = memory(size).ok_or("so large a store can't be had")?;
        let backend = Backend(Rc::clone(&self.exchange));
        let opening = convert::to_opening(open);
        match UsbSession::with_store(backend, opening, rows, bytes) {
            Ok(usb) => {
                self.usb = Some(usb);
                Ok(Outcome::Done)
            }
            Err(refusal) => refused(&refusal),
        }
    }
}

fn told(usb: &mut Usb, exchange: &SharedExchange, call: &Call) -> Told {
    match call {
        Call::Device { id, port, state } => {
            done(usb.set_device(convert::to_snapshot(*id, *port, *state)))
        }
        Call::Port {
            number,
            generation,
            reading,
        } => done(usb.set_port(*number, *generation, *reading)),
        Call::Endpoints { slot, list } => {
            done(usb.set_endpoints(*slot, &convert::to_endpoints(list)))
        }
        Call::Raw { slot, set } => done(usb.set_reconcile(*slot, *set)),
        Call::Acquire(reply) => {
            exchange.borrow_mut().acquire = Some(*reply);
            done(usb.acquire("controller"))
        }
        Call::Initialise(reply) => {
            exchange.borrow_mut().done = Some(*reply);
            done(usb.initialize())
        }
        Call::Close { fresh, reply } => {
            exchange.borrow_mut().done = Some(*reply);
            exchange.borrow_mut().fresh = *fresh;
            done(usb.close())
        }
        Call::Submit(call) => submit(usb, exchange, call),
        Call::Plan(call) => plan(usb, exchange, call),
        Call::Poll { id, reply } => {
            exchange.borrow_mut().completion = Some(reply.clone());
            report(usb.poll_request(convert::to_request_id(*id)))
        }
        Call::Cancel(id) => report(usb.logical_cancel_request(convert::to_request_id(*id))),
        Call::Withdraw(id) => report(usb.withdraw_cancel_request(convert::to_request_id(*id))),
        Call::Timeout(id) => report(usb.timeout_request(convert::to_request_id(*id))),
        Call::Reclaim(id) => report(usb.reclaim_request(convert::to_request_id(*id))),
        Call::Report(id) => report(usb.request_status(convert::to_request_id(*id))),
        Call::Reports => reports(usb.request_reports()),
        Call::Recover { id, kind, reply } => {
            exchange.borrow_mut().recovery = Some(reply.clone());
            recover(usb, convert::to_request_id(*id), *kind)
        }
        Call::Dump => dump(usb.store_mut()).map(Outcome::Dump),
        Call::Force(state) => {
            force(usb.store_mut(), *state);
            Ok(Outcome::Done)
        }
        Call::Open(_) | Call::Store { .. } => unreachable!("handled by the caller"),
    }
}

fn submit(usb: &mut Usb, exchange: &SharedExchange, call: &Submit) -> Told {
    {
        let mut exchange = exchange.borrow_mut();
        exchange.readings = call.readings.into();
        exchange.token = Some(call.reply);
    }
    let spec = RequestSpec {
        device: convert::to_device_id(call.device),
        endpoint: call.endpoint,
        transfer_type: convert::to_transfer_type(call.transfer_type),
        direction: convert::to_direction(call.direction),
        length: call.length as usize,
        setup: call.setup.map(convert::to_setup),
        data: call.data.to_bytes(),
    };
    let packets = call.packets.as_ref();
    let packets = packets.map(|list| list.iter().map(|length| *length as usize).collect());
    report(usb.submit_request_packets(spec, packets))
}

fn plan(usb: &mut Usb, exchange: &SharedExchange, call: &Plan) -> Told {
    {
        let mut exchange = exchange.borrow_mut();
        exchange.readings = [call.reading].into();
        exchange.token = Some(call.reply);
    }
    let stage = call.stage.map(|(direction, length)| DataStage {
        direction: convert::to_direction(direction),
        length: length as usize,
    });
    report(usb.submit_control_plan(ControlPlan {
        device: convert::to_device_id(call.device),
        profile: convert::to_profile(call.profile),
        setup: convert::to_setup(call.setup),
        data_stage: stage,
        status_direction: call.status.map(convert::to_direction),
        data: call.data.to_bytes(),
    }))
}

fn done(result: Result<(), Refusal>) -> Told {
    match result {
        Ok(()) => Ok(Outcome::Done),
        Err(refusal) => refused(&refusal),
    }
}

fn report(result: Result<RequestReport, Refusal>) -> Told {
    match result {
        Ok(report) => Ok(Outcome::Row(Box::new(row(report)?))),
        Err(refusal) => refused(&refusal),
    }
}

fn reports(result: Result<Vec<RequestReport>, Refusal>) -> Told {
    match result {
        Ok(reports) => {
            let rows: Result<Vec<_>, _> = reports.into_iter().map(row).collect();
            Ok(Outcome::Rows(rows?))
        }
        Err(refusal) => refused(&refusal),
    }
}

fn recover(usb: &mut Usb, target: tapewoad::RequestId, kind: Recovery) -> Told {
    let result = match kind {
        Recovery::Abort => usb.abort_request(target),
        Recovery::Reset { preserve } => usb.reset_endpoint_request(target, preserve),
    };
    let report = match result {
        Ok(report) => report,
        Err(refusal) => return refused(&refusal),
    };
    Ok(Outcome::Abort(script::AbortReport {
        target: convert::request_id(report.target),
        device: convert::device_id(report.device),
        endpoint: report.endpoint,
        completed: convert::request_ids(report.completed),
        aborted: convert::request_ids(report.aborted),
        ready: report.restart_ready,
        error: report.error.as_ref().map(backend_error).transpose()?,
    }))
}

/// The backend's own message number for 33 and 45, else the refusal's.
fn refused(refusal: &Refusal) -> Told {
    let number = refusal.number;
    let error = match number {
        33 | 45 => backend_error(&refusal.error)?,
        _ => numbered(&refusal.error, number),
    };
    Ok(Outcome::Refused { number, error })
}

fn backend_error(error: &OperationError) -> Result<Error, String> {
    let number = backend::number(&error.message);
    let number = number.ok_or_else(|| format!("no text of the backend: {error}"))?;
    Ok(numbered(error, number))
}

fn numbered(error: &OperationError, message: u16) -> Error {
    Error {
        category: convert::category(error.category),
        message,
        os_code: error.os_code,
        completion_code: error.completion_code,
    }
}

fn row(report: RequestReport) -> Result<Row, String> {
    let metadata = report.metadata;
    Ok(Row {
        id: convert::request_id(report.id),
        device: convert::device_id(metadata.device),
        endpoint: metadata.endpoint,
        transfer_type: convert::transfer_type(metadata.transfer_type),
        direction: convert::direction(metadata.direction),
        length: metadata.requested_length as u64,
        setup: metadata.setup.map(convert::setup),
        state: row_state(report.state)?,
        cancel: report.logical_cancel,
        timeout: report.timed_out,
        data: report.data.map(Bytes),
    })
}

/// The text of a row whose completion the library found invalid is its own.
fn row_state(state: RequestState) -> Result<RowState, String> {
    Ok(match state {
        RequestState::Pending {
            logical_cancel,
            timed_out,
        } => RowState::Pending {
            cancelled: logical_cancel,
            timed_out,
        },
        RequestState::Completed {
            actual_length,
            completion_code,
            logical_cancel,
        } => RowState::Completed {
            length: actual_length as u64,
            code: completion_code,
            cancelled: logical_cancel,
        },
        RequestState::Failed {
            error,
            completion_code,
            quiescent,
        } => RowState::Failed {
            error: match error.message.as_str() {
                "backend returned an unconfirmed or invalid completion" => numbered(&error, 48),
                _ => backend_error(&error)?,
            },
            code: completion_code,
            quiescent,
        },
        RequestState::Aborted => RowState::Aborted,
    })
}
