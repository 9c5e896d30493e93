//! Calls to words. A word that a call does not read is 0.
use std::borrow::Cow;

use super::words::Words;
use super::{Abort, Call, Completion, Error, Plan, Question, Reading, Submit};
use crate::models::{DeviceId, PortId, RequestId, SetupPacket};

/// The numbers of calls about one request.
pub const POLL_REQUEST: u64 = 11;
pub const LOGICAL_CANCEL_REQUEST: u64 = 13;
pub const TIMEOUT_REQUEST: u64 = 14;
pub const RECLAIM_REQUEST: u64 = 15;
pub const REQUEST_STATUS: u64 = 16;
pub const COMPLETED_BYTES: u64 = 19;
pub const ABORT_REQUEST: u64 = 22;
pub const WITHDRAW_CANCEL_REQUEST: u64 = 29;

/// The numbers of submissions, as calls.
pub const SUBMIT_REQUEST_PACKETS: u64 = 8;
pub const SUBMIT_CONTROL_PLAN: u64 = 9;
/// The number of the question for the first report at or after a place.
pub const REPORT_FROM: u64 = 26;
/// The words of a poll's reply that nothing came.
pub const NOTHING_CAME: [u64; 12] = [12, 0, 0, 0, 0, 0, 0, 0, 0, 0, 0, 0];

/// Where a submission's first reading stands, and how many words it has.
const FIRST_READING: usize = 14;
const READING_WORDS: usize = 6;

/// The words of a call about one request.
#[inline(always)]
pub fn of(number: u64, id: RequestId) -> [u64; 4] {
    [number, id.session, id.generation, id.sequence]
}

/// The words of a submission's reply.
#[inline(always)]
pub fn submit_reply(reply: &Result<u64, Error>) -> [u64; 7] {
    let [category, message, os_code, code] = error(reply.as_ref().err());
    let failed = u64::from(reply.is_err());
    let token = reply.unwrap_or(0);
    [10, failed, token, category, message, os_code, code]
}

/// The words of a poll's reply that is an error.
pub fn poll_failed(it: &Error) -> [u64; 12] {
    let mut words = [12, 1, 0, 0, 0, 0, 0, 0, 0, 0, 0, 0];
    words[3..7].copy_from_slice(&error(Some(it)));
    words
}

/// The words of a poll's reply that is a completion.
#[inline(always)]
pub fn completed(done: &Completion<'_>) -> [u64; 12] {
    let mut words = [12, 2, 0, 0, 0, 0, 0, 0, 0, 0, 0, 0];
    words[2..].copy_from_slice(&completion(done));
    words
}

#[inline(always)]
fn completion(done: &Completion<'_>) -> [u64; 10] {
    let [category, message, os_code, code] = error(done.error.as_ref());
    [
        u64::from(done.error.is_some()),
        category,
        message,
        os_code,
        code,
        u64::from(done.actual_length.is_some()),
        done.actual_length.unwrap_or(0),
        option_u32(done.completion_code),
        u64::from(done.data.is_some()),
        u64::from(done.quiescent),
    ]
}

#[inline(always)]
fn reading(reading: &Reading) -> [u64; READING_WORDS] {
    let [category, message, os_code, code] = error(reading.as_ref().err());
    let failed = u64::from(reading.is_err());
    let word = reading.map_or(0, u64::from);
    [failed, word, category, message, os_code, code]
}

/// Four zeros where there is none.
#[inline(always)]
fn error(error: Option<&Error>) -> [u64; 4] {
    error.map_or([0; 4], |error| {
        [
            error.category as u64,
            u64::from(error.message),
            option_u32(error.os_code.map(i32::cast_unsigned)),
            option_u32(error.completion_code),
        ]
    })
}

impl Call<'_> {
    /// The call's words.
    pub fn words(&self) -> Vec<u64> {
        self.encode().to_vec()
    }

    /// The bytes that go with the words; of a recovery's reply those of its
    /// completions, one after the other.
    pub fn bytes(&self) -> Cow<'_, [u8]> {
        let bytes = match self {
            Self::SubmitRequestPackets(submit) => submit.data,
            Self::SubmitControlPlan(plan) => plan.data,
            Self::PollReply(Ok(Some(completion))) => completion.data.unwrap_or_default(),
            Self::RecoveryReply(Ok(abort)) => {
                let data = abort.completed.iter().filter_map(|(_, done)| done.data);
                return Cow::Owned(data.flatten().copied().collect());
            }
            _ => &[],
        };
        Cow::Borrowed(bytes)
    }

    pub(crate) fn encode(&self) -> Words {
        let mut w = Words::new();
        match self {
            Self::Open {
                opening,
                rows,
                row_bytes,
            } => {
                w.put(&[0, opening.session, opening.first_sequence]);
                w.option_u64(opening.recovery_revision);
                w.option_u64(opening.ports.map(u64::from));
                w.put(&[*rows, *row_bytes]);
            }
            Self::SetDevice(device) => {
                w.put(&[1]);
                w.device(device.id);
                w.port(device.port);
                w.put(&[device.state as u64]);
            }
            Self::SetPort {
                number,
                generation,
                reading,
            } => w.put(&[2, u64::from(*number), *generation, option_u32(*reading)]),
            Self::SetEndpoints { slot, endpoints } => {
                w.put(&[3, u64::from(*slot)]);
                for it in *endpoints {
                    w.put(&[u64::from(it.address) + 256 * (it.transfer_type as u64)]);
                }
            }
            Self::SetReconcile { slot, set } => w.put(&[4, u64::from(*slot), u64::from(*set)]),
            Self::Acquire(reply) => {
                let retained = matches!(reply, Err((_, true)));
                w.put(&[5, u64::from(reply.is_err()), u64::from(retained)]);
                w.error(reply.as_ref().err().map(|(error, _)| error));
            }
            Self::Initialize(reply) => {
                w.put(&[6]);
                w.option_error(reply.as_ref().err());
            }
            Self::Close { fresh, reply } => {
                w.put(&[7]);
                w.option_u64(*fresh);
                w.option_error(reply.as_ref().err());
            }
            Self::SubmitRequestPackets(submit) => w.submit(SUBMIT_REQUEST_PACKETS, submit),
            Self::SubmitControlPlan(plan) => w.plan(SUBMIT_CONTROL_PLAN, plan),
            Self::SubmitReply(reply) => w.put(&submit_reply(reply)),
            Self::PollRequest(id) => w.of(POLL_REQUEST, *id),
            Self::PollReply(reply) => w.poll_reply(reply),
            Self::LogicalCancelRequest(id) => w.of(LOGICAL_CANCEL_REQUEST, *id),
            Self::WithdrawCancelRequest(id) => w.of(WITHDRAW_CANCEL_REQUEST, *id),
            Self::TimeoutRequest(id) => w.of(TIMEOUT_REQUEST, *id),
            Self::ReclaimRequest(id) => w.of(RECLAIM_REQUEST, *id),
            Self::RequestStatus(id) => w.of(REQUEST_STATUS, *id),
            Self::RequestReports { after } => {
                w.put(&[17, u64::from(after.is_some())]);
                w.id(after.unwrap_or(RequestId {
                    session: 0,
                    generation: 0,
                    sequence: 0,
                }));
            }
            Self::CountReports => w.put(&[18]),
            Self::CompletedBytes(id) => w.of(COMPLETED_BYTES, *id),
            Self::HeldCount => w.put(&[20]),
            Self::HeldBytes => w.put(&[21]),
            Self::AbortRequest(target) => w.of(ABORT_REQUEST, *target),
            Self::ResetEndpointRequest { target, preserve } => {
                w.of(23, *target);
                w.put(&[u64::from(*preserve)]);
            }
            Self::RecoveryReply(reply) => w.recovery_reply(reply),
        }
        w
    }
}

impl Question<'_> {
    /// The question's words.
    pub fn words(&self) -> Vec<u64> {
        self.encode().to_vec()
    }

    /// The bytes that go with the words.
    pub fn bytes(&self) -> &[u8] {
        match self {
            Self::SessionStatus | Self::ReportFrom { .. } => &[],
            Self::SubmitWants(submit) => submit.data,
            Self::PlanWants(plan) => plan.data,
        }
    }

    pub(crate) fn encode(&self) -> Words {
        let mut w = Words::new();
        match self {
            Self::SessionStatus => w.put(&[25]),
            Self::ReportFrom { place } => w.put(&[REPORT_FROM, *place]),
            Self::SubmitWants(submit) => w.submit(27, submit),
            Self::PlanWants(plan) => w.plan(28, plan),
        }
        w
    }
}

fn option_u32(value: Option<u32>) -> u64 {
    value.map_or(0, |number| u64::from(number) + 1)
}

/// A submission is written up to three times, so in line: then where each word
/// goes is known before it runs.
impl Words {
    fn option_u64(&mut self, value: Option<u64>) {
        self.put(&[u64::from(value.is_some()), value.unwrap_or(0)]);
    }

    fn id(&mut self, id: RequestId) {
        self.put(&[id.session, id.generation, id.sequence]);
    }

    fn of(&mut self, number: u64, id: RequestId) {
        self.put(&of(number, id));
    }

    #[inline(always)]
    fn device(&mut self, id: DeviceId) {
        self.put(&[id.session, id.generation, u64::from(id.slot)]);
    }

    fn port(&mut self, id: PortId) {
        self.put(&[id.session, id.generation, u64::from(id.number)]);
    }

    fn error(&mut self, it: Option<&Error>) {
        self.put(&error(it));
    }

    fn option_error(&mut self, error: Option<&Error>) {
        self.put(&[u64::from(error.is_some())]);
        self.error(error);
    }

    #[inline(always)]
    fn setup(&mut self, setup: SetupPacket) {
        self.put(&[
            u64::from(setup.request_type),
            u64::from(setup.request),
            u64::from(setup.value),
            u64::from(setup.index),
            u64::from(setup.length),
        ]);
    }

    /// Makes of a submission's question its call.
    pub fn become_call(&mut self, number: u64) {
        self[0] = number;
    }

    /// Gives a submission that was written a reading in place of its own.
    pub fn give(&mut self, place: usize, it: &Reading) {
        let start = FIRST_READING + place * READING_WORDS;
        self[start..start + READING_WORDS].copy_from_slice(&reading(it));
    }

    #[inline(always)]
    fn submit(&mut self, number: u64, submit: &Submit<'_>) {
        self.put(&[number]);
        self.device(submit.device);
        self.put(&[
            u64::from(submit.endpoint),
            submit.transfer_type as u64,
            submit.direction as u64,
            submit.length,
        ]);
        self.put(&[u64::from(submit.setup.is_some())]);
        match submit.setup {
            Some(setup) => self.setup(setup),
            None => self.put(&[0; 5]),
        }
        self.put(&reading(&submit.readings[0]));
        self.put(&reading(&submit.readings[1]));
        self.put(&[u64::from(submit.packets.is_some())]);
        self.put(submit.packets.unwrap_or_default());
    }

    #[inline(always)]
    fn plan(&mut self, number: u64, plan: &Plan<'_>) {
        self.put(&[number]);
        self.device(plan.device);
        self.put(&[plan.profile as u64]);
        self.setup(plan.setup);
        let (direction, length) = plan
            .data_stage
            .map_or((0, 0), |(direction, length)| (direction as u64, length));
        let status = plan.status_direction.map_or(0, |it| it as u64 + 1);
        self.put(&[
            u64::from(plan.data_stage.is_some()),
            direction,
            length,
            status,
        ]);
        self.put(&reading(&plan.reading));
    }

    fn poll_reply(&mut self, reply: &Result<Option<Completion<'_>>, Error>) {
        match reply {
            Ok(None) => self.put(&NOTHING_CAME),
            Err(error) => self.put(&poll_failed(error)),
            Ok(Some(completion)) => self.put(&completed(completion)),
        }
    }

    fn recovery_reply(&mut self, reply: &Result<Abort<'_>, Error>) {
        let abort = match reply {
            Ok(abort) => abort,
            Err(error) => {
                self.put(&[24, 1, 0, 0]);
                self.error(Some(error));
                return self.put(&[0, 0]);
            }
        };
        self.put(&[24, 0, u64::from(abort.restart_ready)]);
        self.option_error(abort.error.as_ref());
        let count = abort.completed.len() as u64;
        self.put(&[count, count]);
        for (token, _) in abort.completed {
            self.put(&[*token]);
        }
        for (_, done) in abort.completed {
            self.put(&completion(done));
            self.put(&[done.data.map_or(0, <[u8]>::len) as u64]);
        }
        self.put(abort.aborted);
    }
}

#[cfg(test)]
#[path = "encode_tests.rs"]
mod tests;
