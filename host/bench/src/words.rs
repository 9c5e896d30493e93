//! The C function's side: words made before, and memory of its own.
use tapewoad::calls::{
    self, ANSWER_WORDS, BUS_WORDS, Call as C, Completion, Error, LIST_WORDS, Plan, ROW_WORDS,
    SESSION_WORDS, Store, Submit,
};
use tapewoad::library::{self, Memory};
use tapewoad::{
    ControlProfile, DeviceId, DeviceSnapshot, DeviceState, Direction, Endpoint, ErrorCategory,
    Opening, PortId, RequestId, SetupPacket, TransferType,
};

use crate::answer::{Answer, Report, State, Told};
use crate::calls::*;
use crate::side::{Run, Side};

pub struct Words {
    session: [u64; SESSION_WORDS],
    bus: Vec<u64>,
    rows: Vec<u64>,
    area: Vec<u8>,
    out: [u64; ANSWER_WORDS],
    lists: [u64; LIST_WORDS],
    /// The words of the library's calls that the next call is, with their bytes.
    ready: Vec<(Vec<u64>, Vec<u8>)>,
    /// The answers of all reports.
    reports: Vec<[u64; ANSWER_WORDS]>,
}

/// What the function returned; the answer is in `out`.
struct Status(u64);

/// The same after all reports, which are in `reports`.
struct Listed(u64);

const DEVICE: DeviceId = DeviceId {
    session: SESSION,
    generation: GENERATION,
    slot: SLOT,
};

impl Side for Words {
    fn open(rows: usize) -> Self {
        let mut side = Self {
            session: [0; SESSION_WORDS],
            bus: vec![0; BUS_WORDS],
            rows: vec![0; rows * ROW_WORDS],
            area: vec![0; rows * Store::ROW_BYTES],
            out: [0; ANSWER_WORDS],
            lists: [0; LIST_WORDS],
            ready: Vec::new(),
            reports: Vec::with_capacity(Store::ROWS),
        };
        side.pass(&side.opening());
        side.pass(&C::Acquire(Ok(())));
        side.pass(&C::Initialize(Ok(())));
        side.place();
        side
    }

    fn ready(&mut self, call: Call, sequence: u64, stopped: &[u64]) {
        let target = id(sequence);
        let token = Ok(token(sequence));
        self.ready.clear();
        match call {
            Call::Open => self.lay(&self.opening()),
            Call::Close => self.lay(&C::Close {
                fresh: Some(FRESH),
                reply: Ok(()),
            }),
            Call::Submit(request) => self.submit(request, token),
            Call::SubmitRefused => self.submit(Request::READ, Err(ERROR)),
            Call::Poll(reply) => self.poll(target, reply),
            Call::Cancel => self.lay(&C::LogicalCancelRequest(target)),
            Call::Timeout => self.lay(&C::TimeoutRequest(target)),
            Call::Reclaim => self.lay(&C::ReclaimRequest(target)),
            Call::Status | Call::StatusUnknown => self.lay(&C::RequestStatus(target)),
            Call::Reports => self.lay(&C::RequestReports { after: None }),
            Call::Abort => self.recover(&C::AbortRequest(target), stopped),
            Call::Reset => {
                let preserve = false;
                self.recover(&C::ResetEndpointRequest { target, preserve }, stopped);
            }
            Call::Life => {
                self.submit(Request::READ, token);
                self.poll(target, Reply::Completed(512));
                self.lay(&C::ReclaimRequest(target));
            }
        }
    }

    fn each(sides: &mut [Self], call: Call, run: &mut impl Run) {
        match call {
            Call::Reports => run.each(sides, Self::list_reports),
            _ => run.each(sides, Self::apply_all),
        }
    }
}

impl Words {
    fn apply(&mut self, call: usize) -> u64 {
        let memory = Memory {
            session: &mut self.session,
            bus: &mut self.bus,
            rows: &mut self.rows,
            area: &mut self.area,
        };
        let (words, bytes) = &self.ready[call];
        library::apply(memory, words, bytes, &mut self.out, &mut self.lists)
    }

    fn apply_all(&mut self) -> Status {
        let calls = 0..self.ready.len();
        Status(calls.fold(0, |status, call| status | self.apply(call)))
    }

    /// Report after report, each kept as a host program would keep it.
    fn list_reports(&mut self) -> Listed {
        self.reports.clear();
        let mut status = self.apply(0);
        while self.out[0] == REPORT {
            self.reports.push(self.out);
            self.ready[0].0[1] = 1;
            self.ready[0].0[2..5].copy_from_slice(&self.out[1..4]);
            status |= self.apply(0);
        }
        self.ready[0].0[1..5].fill(0);
        Listed(status)
    }

    /// Lays a call ready after those that are.
    fn lay(&mut self, call: &C<'_>) {
        self.ready.push((call.words(), call.bytes().into_owned()));
    }

    /// Makes a call that passes.
    fn pass(&mut self, call: &C<'_>) {
        self.ready.clear();
        self.lay(call);
        assert_eq!(self.apply_all().told(self), Answer::Passed);
    }

    fn opening(&self) -> C<'static> {
        C::Open {
            opening: Opening::new(SESSION, Some(PORTS)),
            rows: (self.rows.len() / ROW_WORDS) as u64,
            row_bytes: Store::ROW_BYTES as u64,
        }
    }

    fn place(&mut self) {
        self.pass(&C::SetPort {
            number: PORT,
            generation: GENERATION,
            reading: Some(READING),
        });
        self.pass(&C::SetDevice(DeviceSnapshot {
            id: DEVICE,
            port: PortId {
                session: SESSION,
                generation: GENERATION,
                number: PORT,
            },
            state: DeviceState::Configured,
        }));
        self.pass(&C::SetEndpoints {
            slot: SLOT,
            endpoints: &ENDPOINTS.map(|address| Endpoint {
                address,
                transfer_type: TransferType::Bulk,
            }),
        });
    }

    fn submit(&mut self, request: Request, reply: Result<u64, Error>) {
        let data = match request {
            Request::Out { length } => vec![BYTE; length],
            _ => Vec::new(),
        };
        match request {
            Request::Plan => self.lay(&C::SubmitControlPlan(plan())),
            _ => self.lay(&C::SubmitRequestPackets(submission(request, &data))),
        }
        self.lay(&C::SubmitReply(reply));
    }

    fn poll(&mut self, id: RequestId, reply: Reply) {
        let data = match reply {
            Reply::Completed(length) => Some(vec![BYTE; length]),
            _ => None,
        };
        let done = Completion {
            actual_length: data.as_ref().map(|it| it.len() as u64),
            completion_code: Some(if data.is_some() { COMPLETED } else { FAILED }),
            data: data.as_deref(),
            error: (reply == Reply::Failed).then_some(ERROR),
            quiescent: true,
        };
        self.lay(&C::PollRequest(id));
        self.lay(&C::PollReply(match reply {
            Reply::Nothing => Ok(None),
            Reply::Refused => Err(ERROR),
            Reply::Completed(_) | Reply::Failed => Ok(Some(done)),
        }));
    }

    fn recover(&mut self, begin: &C<'_>, tokens: &[u64]) {
        self.lay(begin);
        self.lay(&C::RecoveryReply(Ok(calls::Abort {
            completed: &[],
            aborted: tokens,
            restart_ready: true,
            error: None,
        })));
    }

    fn answer(&self) -> calls::Answer {
        calls::Answer::from_words(&self.out, &self.lists).expect("an answer of docs/CALLS.md")
    }

    /// The bytes of a Completed request that is still there.
    fn data(&mut self, id: RequestId) -> Option<Vec<u8>> {
        self.ready.clear();
        self.lay(&C::CompletedBytes(id));
        assert_eq!(self.apply(0), 0, "{ANSWERED}");
        match self.answer() {
            calls::Answer::Bytes { start, length } => {
                let (start, length) = (start as usize, length as usize);
                Some(self.area[start..start + length].to_vec())
            }
            _ => None,
        }
    }

    fn report(&mut self, report: &calls::Report) -> Report {
        let state = match report.state {
            calls::State::Pending { .. } => State::Pending,
            calls::State::Completed { actual_length, .. } => State::Completed {
                length: actual_length,
            },
            calls::State::Failed { .. } => State::Failed,
            calls::State::Aborted => State::Aborted,
        };
        Report {
            sequence: report.id.sequence,
            endpoint: report.metadata.endpoint,
            length: report.metadata.requested_length,
            state,
            cancelled: report.logical_cancel,
            timed_out: report.timed_out,
            data: match state {
                State::Completed { .. } => self.data(report.id),
                _ => None,
            },
        }
    }
}

const ANSWERED: &str = "status 0 of docs/CALLS.md";

/// The tag of a report.
const REPORT: u64 = 4;

/// The backend's; it leaves the controller as it is.
const ERROR: Error = Error::new(ErrorCategory::Validation, 1_000);

fn id(sequence: u64) -> RequestId {
    RequestId {
        session: SESSION,
        generation: 0,
        sequence,
    }
}

fn setup() -> SetupPacket {
    let (request_type, request, value, index, length) = GET_DESCRIPTOR;
    SetupPacket {
        request_type,
        request,
        value,
        index,
        length,
    }
}

fn submission(request: Request, data: &[u8]) -> Submit<'_> {
    let (endpoint, direction, length) = match request {
        Request::In { endpoint, length } => (endpoint, Direction::In, length),
        Request::Out { length } => (OUT_ENDPOINT, Direction::Out, length),
        Request::Control | Request::Plan => (0, Direction::In, usize::from(GET_DESCRIPTOR.4)),
    };
    Submit {
        device: DEVICE,
        endpoint,
        transfer_type: match endpoint {
            0 => TransferType::Control,
            _ => TransferType::Bulk,
        },
        direction,
        length: length as u64,
        setup: (endpoint == 0).then(setup),
        data,
        packets: None,
        readings: [Ok(READING); 2],
    }
}

fn plan() -> Plan<'static> {
    Plan {
        device: DEVICE,
        profile: ControlProfile::Compliant,
        setup: setup(),
        data_stage: Some((Direction::In, u64::from(GET_DESCRIPTOR.4))),
        status_direction: Some(Direction::Out),
        data: &[],
        reading: Ok(READING),
    }
}

impl Told<Words> for Status {
    fn told(self, side: &mut Words) -> Answer {
        assert_eq!(self.0, 0, "{ANSWERED}");
        match side.answer() {
            calls::Answer::Passed => Answer::Passed,
            calls::Answer::Refused(refusal) => Answer::Refused(refusal.error.category as u64),
            calls::Answer::Report(report) => Answer::Report(side.report(&report)),
            calls::Answer::Recovered(it) => {
                Answer::Aborted(it.aborted.iter().map(|id| id.sequence).collect())
            }
            answer => panic!("the end of no call: {answer:?}"),
        }
    }
}

impl Told<Words> for Listed {
    fn told(self, side: &mut Words) -> Answer {
        assert_eq!(self.0, 0, "{ANSWERED}");
        let mut reports = Vec::new();
        for out in std::mem::take(&mut side.reports) {
            side.out = out;
            match side.answer() {
                calls::Answer::Report(report) => reports.push(side.report(&report)),
                answer => panic!("no report: {answer:?}"),
            }
        }
        Answer::Reports(reports)
    }
}
