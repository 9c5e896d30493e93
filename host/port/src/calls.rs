//! The library's calls, one by one.
mod recovery;

use std::mem;

use script::{Answer, Asked, Bytes, Call, Completion, Open, Outcome, Plan, Row, RowState, Side};
use tapewoad::ErrorCategory;
use tapewoad::calls::{self, Question, Reading, State, Store};

use crate::{NOT_OPEN, WHOLE, answered, convert, dump, force, memory, number, unexpected};
use recovery::Submitted;

/// What a call gave, what reached the backend, and which ports were read.
type Told = Result<(Outcome, Asked, Vec<u8>), String>;

/// A reading that was not taken.
const UNREAD: Reading = Err(calls::Error::new(ErrorCategory::Validation, 0));

/// The port, by its own calls.
pub struct Port {
    store: Store,
    /// The size of the store, and of the next opening's.
    size: (u64, u64),
    next_size: (u64, u64),
    is_open: bool,
    submitted: Submitted,
}

impl Default for Port {
    fn default() -> Self {
        Self {
            store: Store::new(Store::ROWS, Store::ROW_BYTES),
            size: WHOLE,
            next_size: WHOLE,
            is_open: false,
            submitted: Submitted::default(),
        }
    }
}

impl Side for Port {
    fn apply(&mut self, call: &Call) -> Result<Answer, String> {
        let first = matches!(call, Call::Open(_) | Call::Store { .. });
        if !first && !self.is_open {
            return Err(NOT_OPEN.into());
        }
        let (outcome, asked, reads) = self.told(call)?;
        self.submitted.note(call, &outcome);
        let (held, held_bytes) = match self.is_open {
            true => (
                number(&mut self.store, &calls::Call::HeldCount)?,
                number(&mut self.store, &calls::Call::HeldBytes)?,
            ),
            false => (0, 0),
        };
        Ok(Answer {
            outcome,
            asked,
            reads,
            state: convert::controller_state(self.store.status().state),
            held,
            held_bytes,
        })
    }
}

impl Port {
    pub fn new() -> Self {
        Self::default()
    }

    fn told(&mut self, call: &Call) -> Told {
        let outcome = match call {
            Call::Submit(submit) => return self.submit(submit),
            Call::Plan(plan) => return self.plan(plan),
            Call::Poll { id, reply } => return self.poll(*id, reply),
            Call::Recover { id, kind, reply } => return self.recover(*id, *kind, reply),
            Call::Open(open) => self.open(open),
            Call::Device { .. } | Call::Port { .. } | Call::Endpoints { .. } | Call::Raw { .. } => {
                self.set(call)
            }
            Call::Acquire(reply) => {
                let reply = reply.map_err(|(error, kept)| (convert::to_error(error), kept));
                self.made(&calls::Call::Acquire(reply))
            }
            Call::Initialise(reply) => {
                let reply = reply.map_err(convert::to_error);
                self.made(&calls::Call::Initialize(reply))
            }
            Call::Close { fresh, reply } => self.made(&calls::Call::Close {
                fresh: *fresh,
                reply: reply.map_err(convert::to_error),
            }),
            Call::Cancel(id) => self.of(calls::Call::LogicalCancelRequest, *id),
            Call::Withdraw(id) => self.of(calls::Call::WithdrawCancelRequest, *id),
            Call::Timeout(id) => self.of(calls::Call::TimeoutRequest, *id),
            Call::Report(id) => self.of(calls::Call::RequestStatus, *id),
            Call::Reclaim(id) => self.reclaim(*id),
            Call::Reports => self.reports(),
            Call::Dump => dump(&mut self.store).map(Outcome::Dump),
            Call::Force(state) => {
                force(&mut self.store, *state);
                Ok(Outcome::Done)
            }
            Call::Store { rows, bytes } => {
                self.next_size = (*rows, *bytes);
                Ok(Outcome::Done)
            }
        };
        Ok((outcome?, Asked::Nothing, Vec::new()))
    }

    /// A store of another size is taken only if the port opens it.
    fn open(&mut self, open: &Open) -> Result<Outcome, String> {
        let size = mem::replace(&mut self.next_size, WHOLE);
        let (rows, row_bytes) = size;
        let call = calls::Call::Open {
            opening: convert::to_opening(open),
            rows,
            row_bytes,
        };
        let answer = match memory(size) {
            _ if size == self.size => answered(&mut self.store, &call)?,
            None => return Err("so large a store can't be had".into()),
            Some((rows, bytes)) => {
                let mut store = Store::new(rows, bytes);
                let answer = answered(&mut store, &call)?;
                if answer == calls::Answer::Passed {
                    (self.store, self.size) = (store, size);
                }
                answer
            }
        };
        self.is_open |= answer == calls::Answer::Passed;
        self.outcome(&call, answer)
    }

    fn set(&mut self, call: &Call) -> Result<Outcome, String> {
        match call {
            Call::Device { id, port, state } => {
                let device = convert::to_snapshot(*id, *port, *state);
                self.made(&calls::Call::SetDevice(device))
            }
            Call::Port {
                number,
                generation,
                reading,
            } => self.made(&calls::Call::SetPort {
                number: *number,
                generation: *generation,
                reading: *reading,
            }),
            Call::Endpoints { slot, list } => self.made(&calls::Call::SetEndpoints {
                slot: *slot,
                endpoints: &convert::to_endpoints(list),
            }),
            Call::Raw { slot, set } => self.made(&calls::Call::SetReconcile {
                slot: *slot,
                set: *set,
            }),
            _ => unreachable!("handled by the caller"),
        }
    }

    fn of<'a>(
        &mut self,
        call: impl Fn(tapewoad::RequestId) -> calls::Call<'a>,
        id: script::RequestId,
    ) -> Result<Outcome, String> {
        self.made(&call(convert::to_request_id(id)))
    }

    fn made(&mut self, call: &calls::Call<'_>) -> Result<Outcome, String> {
        let answer = answered(&mut self.store, call)?;
        self.outcome(call, answer)
    }

    fn outcome(
        &mut self,
        call: &calls::Call<'_>,
        answer: calls::Answer,
    ) -> Result<Outcome, String> {
        match answer {
            calls::Answer::Passed => Ok(Outcome::Done),
            calls::Answer::Refused(refusal) => Ok(refused(refusal)),
            calls::Answer::Report(report) => {
                let data = self.completed(&report)?;
                Ok(Outcome::Row(Box::new(row(&report, data))))
            }
            calls::Answer::Recovered(report) => Ok(Outcome::Abort(recovery::abort_report(report))),
            answer => Err(unexpected(call, &answer)),
        }
    }

    fn completed(&mut self, report: &calls::Report) -> Result<Option<Bytes>, String> {
        let bytes = self.completed_bytes(report.id)?;
        data(report, bytes)
    }

    fn completed_bytes(
        &mut self,
        id: tapewoad::RequestId,
    ) -> Result<Result<Vec<u8>, calls::Refusal>, String> {
        let call = calls::Call::CompletedBytes(id);
        match answered(&mut self.store, &call)? {
            calls::Answer::Bytes { start, length } => {
                Ok(Ok(self.store.bytes(start, length).to_vec()))
            }
            calls::Answer::Refused(refusal) => Ok(Err(refusal)),
            answer => Err(unexpected(&call, &answer)),
        }
    }

    /// The bytes are asked for while the request is there.
    fn reclaim(&mut self, id: script::RequestId) -> Result<Outcome, String> {
        let id = convert::to_request_id(id);
        let bytes = self.completed_bytes(id)?;
        let call = calls::Call::ReclaimRequest(id);
        match answered(&mut self.store, &call)? {
            calls::Answer::Report(report) => {
                let data = data(&report, bytes)?;
                Ok(Outcome::Row(Box::new(row(&report, data))))
            }
            answer => self.outcome(&call, answer),
        }
    }

    fn reports(&mut self) -> Result<Outcome, String> {
        let mut rows = Vec::new();
        let mut after = None;
        loop {
            let call = calls::Call::RequestReports { after };
            match answered(&mut self.store, &call)? {
                calls::Answer::NoReport => break,
                calls::Answer::Report(report) => {
                    after = Some(report.id);
                    let data = self.completed(&report)?;
                    rows.push(row(&report, data));
                }
                answer => return self.outcome(&call, answer),
            }
        }
        let count = number(&mut self.store, &calls::Call::CountReports)?;
        if count != rows.len() as u64 {
            return Err(format!("{} reports, {count} counted", rows.len()));
        }
        Ok(Outcome::Rows(rows))
    }

    fn submit(&mut self, submit: &script::Submit) -> Told {
        let data = submit.data.to_bytes();
        let given = convert::to_submit(submit, &data);
        let reads = self.reads(given.readings, |readings| {
            Question::SubmitWants(calls::Submit { readings, ..given })
        })?;
        self.begin(
            &calls::Call::SubmitRequestPackets(given),
            reads,
            submit.reply,
            |store, answer| match answer {
                calls::Answer::Begun { begun, packets } => Some(Asked::Submit {
                    buffer: Bytes(store.buffer(begun).to_vec()),
                    packets: submit.packets.clone().filter(|_| *packets),
                }),
                _ => None,
            },
        )
    }

    fn plan(&mut self, plan: &Plan) -> Told {
        let data = plan.data.to_bytes();
        let given = convert::to_plan(plan, &data);
        let reads = self.reads([given.reading], |[reading]| {
            Question::PlanWants(calls::Plan { reading, ..given })
        })?;
        self.begin(
            &calls::Call::SubmitControlPlan(given),
            reads,
            plan.reply,
            |store, answer| match answer {
                calls::Answer::PlanBegun { begun, stages } => Some(Asked::Plan {
                    buffer: Bytes(store.buffer(begun).to_vec()),
                    wire: stages.wire_setup,
                    has_data: stages.has_data,
                    direction: convert::direction(stages.data_direction),
                    status: convert::direction(stages.status_direction),
                    compliant: stages.profile == tapewoad::ControlProfile::Compliant,
                }),
                _ => None,
            },
        )
    }

    /// A submission and, where it begins, its reply. `asked` says what the
    /// backend is asked if the answer says so.
    fn begin(
        &mut self,
        call: &calls::Call<'_>,
        reads: Vec<u8>,
        reply: Result<u64, script::Error>,
        asked: impl Fn(&Store, &calls::Answer) -> Option<Asked>,
    ) -> Told {
        let answer = answered(&mut self.store, call)?;
        if let Some(asked) = asked(&self.store, &answer) {
            let reply = calls::Call::SubmitReply(reply.map_err(convert::to_error));
            return Ok((self.made(&reply)?, asked, reads));
        }
        Ok((self.outcome(call, answer)?, Asked::Nothing, reads))
    }

    /// The ports that a submission with these readings reads, in order: it is told
    /// a reading only when it wants it.
    fn reads<'a, const N: usize>(
        &self,
        readings: [Reading; N],
        wants: impl Fn([Reading; N]) -> Question<'a>,
    ) -> Result<Vec<u8>, String> {
        let (mut taken, mut ports) = ([UNREAD; N], Vec::new());
        for _ in 0..N {
            let wanted = match self.store.try_ask(&wants(taken)) {
                Ok(calls::Answer::Wants(Some(wanted))) => wanted,
                Ok(calls::Answer::Wants(None)) => break,
                answer => return Err(format!("the port wants {answer:?}")),
            };
            taken[wanted.reading] = readings[wanted.reading];
            ports.push(wanted.port);
            if taken[wanted.reading].is_err() {
                break;
            }
        }
        Ok(ports)
    }

    fn poll(&mut self, id: script::RequestId, reply: &script::PollReply) -> Told {
        let call = calls::Call::PollRequest(convert::to_request_id(id));
        let answer = answered(&mut self.store, &call)?;
        let calls::Answer::Ask { token } = answer else {
            return Ok((self.outcome(&call, answer)?, Asked::Nothing, Vec::new()));
        };
        let outcome = match reply {
            Ok(None) => self.made(&calls::Call::PollReply(Ok(None))),
            Ok(Some(done)) => self.complete(done),
            Err(error) => self.made(&calls::Call::PollReply(Err(convert::to_error(*error)))),
        };
        Ok((outcome?, Asked::Poll { token }, Vec::new()))
    }

    fn complete(&mut self, done: &Completion) -> Result<Outcome, String> {
        let data = done.data.as_ref().map(script::Data::to_bytes);
        let done = convert::to_completion(done, data.as_deref());
        self.made(&calls::Call::PollReply(Ok(Some(done))))
    }
}

/// The bytes that go with a report: those of a Completed request. Every other
/// request that has a report has none.
fn data(
    report: &calls::Report,
    bytes: Result<Vec<u8>, calls::Refusal>,
) -> Result<Option<Bytes>, String> {
    let completed = matches!(report.state, State::Completed { .. });
    match bytes {
        Ok(bytes) if completed => Ok(Some(Bytes(bytes))),
        Ok(bytes) if bytes.is_empty() => Ok(None),
        bytes => Err(format!("the port has {bytes:?} as the bytes of {report:?}")),
    }
}

fn refused(refusal: calls::Refusal) -> Outcome {
    Outcome::Refused {
        number: refusal.number,
        error: convert::error(refusal.error),
    }
}

fn row(report: &calls::Report, data: Option<Bytes>) -> Row {
    let metadata = &report.metadata;
    Row {
        id: convert::request_id(report.id),
        device: convert::device_id(metadata.device),
        endpoint: metadata.endpoint,
        transfer_type: convert::transfer_type(metadata.transfer_type),
        direction: convert::direction(metadata.direction),
        length: metadata.requested_length,
        setup: metadata.setup.map(convert::setup),
        state: row_state(report.state),
        cancel: report.logical_cancel,
        timeout: report.timed_out,
        data,
    }
}

fn row_state(state: State) -> RowState {
    match state {
        State::Pending {
            logical_cancel,
            timed_out,
        } => RowState::Pending {
            cancelled: logical_cancel,
            timed_out,
        },
        State::Completed {
            actual_length,
            completion_code,
            logical_cancel,
        } => RowState::Completed {
            length: actual_length,
            code: completion_code,
            cancelled: logical_cancel,
        },
        State::Failed {
            error,
            completion_code,
            quiescent,
        } => RowState::Failed {
            error: convert::error(error),
            code: completion_code,
            quiescent,
        },
        State::Aborted => RowState::Aborted,
    }
}
