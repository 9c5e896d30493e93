//! The calls of a host program: mostly such that pass, from openings to closes.
use std::collections::VecDeque;

use seeded::Rng;
use tapewoad::calls::{AcquireReply, Answer, Call, Error, Question, Reading};
use tapewoad::{
    ControllerState, DeviceId, DeviceSnapshot, DeviceState, Endpoint, ErrorCategory, Opening,
    PortId, RequestId, TransferType,
};

/// A call's words and bytes.
#[derive(Debug, Clone, PartialEq, Eq)]
pub struct Words {
    pub call: Vec<u64>,
    pub bytes: Vec<u8>,
}

impl From<&Question<'_>> for Words {
    fn from(question: &Question<'_>) -> Self {
        Self {
            call: question.words(),
            bytes: question.bytes().to_vec(),
        }
    }
}

impl From<&Call<'_>> for Words {
    fn from(call: &Call<'_>) -> Self {
        Self {
            call: call.words(),
            bytes: call.bytes().into_owned(),
        }
    }
}

/// A request that has a row.
#[derive(Debug, Clone, Copy)]
pub struct Known {
    pub id: RequestId,
    pub token: u64,
    pub length: u64,
}

/// A port's word: connected, enabled, full speed.
pub const WORD: u32 = 0x403;
pub const ENDPOINTS: [(u8, TransferType); 5] = [
    (0x81, TransferType::Bulk),
    (0x01, TransferType::Bulk),
    (0x82, TransferType::Interrupt),
    (0x83, TransferType::Isochronous),
    (0x03, TransferType::Isochronous),
];
/// Slots 1 to 3 have devices, on the ports of these numbers.
pub const SLOTS: u8 = 3;

pub struct Host {
    pub rng: Rng,
    queue: VecDeque<Words>,
    pub known: Vec<Known>,
    /// The tokens that the recovery in flight affects.
    pub affected: Vec<u64>,
    pub next_token: u64,
    /// The opening's session number, and the generation of its ports.
    pub opening: u64,
    generation: u64,
    /// Rows and bytes a row of its store.
    pub row_count: usize,
    pub row_bytes: usize,
}

impl Host {
    pub fn new(rng: Rng) -> Self {
        Self {
            rng,
            queue: VecDeque::new(),
            known: Vec::new(),
            affected: Vec::new(),
            next_token: 0,
            opening: 0,
            generation: 1,
            row_count: 1,
            row_bytes: 1,
        }
    }

    /// Begins a session anew: its store, and the calls that make it useful.
    pub fn open(&mut self) {
        let rng = &mut self.rng;
        self.opening = rng.pick(&[1, 7, u64::MAX]);
        self.generation = rng.weighted(&[(8, 1), (1, u64::MAX)]);
        self.row_count = rng.pick(&[1, 2, 5, 12, 40]);
        self.row_bytes = rng.pick(&[1, 8, 64, 200]);
        let first_sequence = rng.weighted(&[(6, 0), (1, u64::MAX - 3)]);
        let revision = rng.weighted(&[(6, Some(0)), (1, None), (1, Some(u64::MAX))]);
        let ports = rng.weighted(&[(12, Some(4)), (1, None), (1, Some(0)), (1, Some(255))]);
        let opening = Opening::new(self.opening, ports)
            .with_first_sequence(first_sequence)
            .with_recovery_revision(revision);
        self.queue.clear();
        self.push(&Call::Open {
            opening,
            rows: self.row_count as u64,
            row_bytes: self.row_bytes as u64,
        });
        for number in 1..=SLOTS {
            self.push(&Call::SetPort {
                number,
                generation: self.generation,
                reading: Some(WORD),
            });
            let device = self.device(number, DeviceState::Configured);
            self.push(&device);
            let endpoints = self.endpoints(number);
            self.queue.push_back(endpoints);
        }
        self.push(&Call::Acquire(Ok(())));
        self.push(&Call::Initialize(Ok(())));
    }

    fn push(&mut self, call: &Call<'_>) {
        self.queue.push_back(call.into());
    }

    pub fn device_id(&self, slot: u8) -> DeviceId {
        DeviceId {
            session: self.opening,
            generation: 0,
            slot,
        }
    }

    fn device(&self, number: u8, state: DeviceState) -> Call<'static> {
        Call::SetDevice(DeviceSnapshot {
            id: self.device_id(number),
            port: PortId {
                session: self.opening,
                generation: self.generation,
                number,
            },
            state,
        })
    }

    fn endpoints(&mut self, slot: u8) -> Words {
        let list = ENDPOINTS.map(|(address, transfer_type)| Endpoint {
            address,
            transfer_type,
        });
        let many = vec![list[0]; 29 + self.rng.below(3)];
        let endpoints = match self.rng.below(12) {
            0 => &many[..],
            _ => &list[..],
        };
        Words::from(&Call::SetEndpoints { slot, endpoints })
    }

    /// The next call, where the session's words are these.
    pub fn next(&mut self, session: &[u64]) -> Words {
        if let Some(words) = self.queue.pop_front() {
            return words;
        }
        if self.rng.below(400) == 0 {
            self.open();
        }
        match session[15] {
            _ if self.rng.chance(4) => self.any(),
            1 => self.submit_reply(),
            2 => self.poll_reply(),
            3 => self.recovery_reply(),
            _ => self.begin(session[6]),
        }
    }

    /// A call while nothing is in flight.
    fn begin(&mut self, state: u64) -> Words {
        let lead = self.rng.chance(60);
        match state {
            0 if lead => self.acquire(),
            1 if lead => self.initialize(),
            4 if lead => match self.rng.below(4) {
                0 => self.close(),
                _ => self.recover(),
            },
            _ => self.any(),
        }
    }

    fn any(&mut self) -> Words {
        let idle = self.known.is_empty() && self.rng.chance(80);
        match self.rng.below(40) {
            16..33 if idle => self.submit(),
            0..12 => self.submit(),
            12..16 => self.plan(),
            16..22 => Words::from(&Call::PollRequest(self.id())),
            22 => Words::from(&Call::LogicalCancelRequest(self.id())),
            23 => Words::from(&Call::WithdrawCancelRequest(self.id())),
            24 => Words::from(&Call::TimeoutRequest(self.id())),
            25..28 => Words::from(&Call::ReclaimRequest(self.id())),
            28..31 => self.report(),
            31..33 => self.recover(),
            33..37 => self.place(),
            37 => self.acquire(),
            38 => self.initialize(),
            _ => self.close(),
        }
    }

    /// Mostly that of a row.
    pub fn id(&mut self) -> RequestId {
        match self.known.is_empty() || self.rng.chance(3) {
            true => RequestId {
                session: self.opening,
                generation: 0,
                sequence: self.rng.below(9) as u64,
            },
            false => self.rng.pick(&self.known).id,
        }
    }

    pub fn error(&mut self) -> Error {
        const CATEGORIES: [ErrorCategory; 4] = [
            ErrorCategory::Validation,
            ErrorCategory::Controller,
            ErrorCategory::Unsupported,
            ErrorCategory::RecoveryRequired,
        ];
        let category = self.rng.pick(&CATEGORIES);
        let mut error = Error::new(category, self.rng.next_u64() as u16);
        error.os_code = self.rng.pick(&[None, Some(-5), Some(i32::MIN)]);
        error.completion_code = self.rng.pick(&[None, Some(6), Some(u32::MAX)]);
        error
    }

    pub fn reading(&mut self) -> Reading {
        match self.rng.below(40) {
            0 => Err(self.error()),
            1 => Ok(WORD ^ 1),
            2 => Ok(0x803),
            _ => Ok(WORD),
        }
    }

    fn acquire(&mut self) -> Words {
        let reply: AcquireReply = match self.rng.chance(10) {
            true => Err((self.error(), self.rng.chance(50))),
            false => Ok(()),
        };
        Words::from(&Call::Acquire(reply))
    }

    fn initialize(&mut self) -> Words {
        let reply = match self.rng.chance(10) {
            true => Err(self.error()),
            false => Ok(()),
        };
        Words::from(&Call::Initialize(reply))
    }

    fn close(&mut self) -> Words {
        let fresh = self.rng.weighted(&[(1, None), (4, Some(self.opening))]);
        let reply = match self.rng.chance(20) {
            true => Err(self.error()),
            false => Ok(()),
        };
        Words::from(&Call::Close { fresh, reply })
    }

    fn place(&mut self) -> Words {
        let slot = 1 + self.rng.below(usize::from(SLOTS)) as u8;
        let state = self.rng.weighted(&[
            (8, DeviceState::Configured),
            (1, DeviceState::Addressed),
            (1, DeviceState::Observed),
        ]);
        let generation = self.rng.weighted(&[(9, self.generation), (1, 2)]);
        let reading = self.rng.weighted(&[(8, Some(WORD)), (1, None)]);
        Words::from(&match self.rng.below(8) {
            0..3 => self.device(slot, state),
            3..6 => Call::SetPort {
                number: self.rng.weighted(&[(12, slot), (1, 0), (1, 5)]),
                generation,
                reading,
            },
            6 => return self.endpoints(slot),
            _ => Call::SetReconcile {
                slot: self.rng.weighted(&[(4, slot), (1, 9)]),
                set: self.rng.chance(30),
            },
        })
    }

    fn report(&mut self) -> Words {
        let id = self.id();
        Words::from(&match self.rng.below(8) {
            0 | 1 => Call::RequestStatus(id),
            2 => Call::RequestReports { after: None },
            3 => Call::RequestReports { after: Some(id) },
            4 => Call::CountReports,
            5 => Call::CompletedBytes(id),
            6 => Call::HeldCount,
            _ => Call::HeldBytes,
        })
    }

    /// A report or a question; seldom a call that only the other function takes.
    pub fn read(&mut self) -> Words {
        let place = self.rng.below(self.row_count + 2) as u64;
        match self.rng.below(20) {
            0..8 => self.report(),
            8..10 => Words::from(&Question::SessionStatus),
            10..13 => Words::from(&Question::ReportFrom { place }),
            13..17 => self.submit_wants(),
            17..19 => self.plan_wants(),
            _ => self.any(),
        }
    }

    fn recover(&mut self) -> Words {
        let target = self.id();
        Words::from(&match self.rng.below(3) {
            0 => Call::AbortRequest(target),
            _ => Call::ResetEndpointRequest {
                target,
                preserve: self.rng.chance(50),
            },
        })
    }

    /// Keeps what a call has changed; `session` are its words after it.
    pub fn note(&mut self, call: &[u64], answer: &Answer, session: &[u64]) {
        match answer {
            Answer::Passed if matches!(call[0], 0 | 7) && session[6] == CLOSED => {
                self.known.clear();
                if call[0] == 0 {
                    self.opening = session[0];
                }
            }
            Answer::Begun { begun, .. } | Answer::PlanBegun { begun, .. } => {
                self.known.push(Known {
                    id: begun.id,
                    token: 0,
                    length: begun.metadata.requested_length,
                });
            }
            Answer::Report(report) => match (call[0], self.place_of(report.id)) {
                (10, Some(at)) => self.known[at].token = call[2],
                (15, Some(at)) => drop(self.known.remove(at)),
                _ => {}
            },
            Answer::Refused(refusal) if (call[0], refusal.number) == (10, 45) => {
                self.known.pop();
            }
            Answer::Recover(begun) => self.affected.clone_from(&begun.tokens),
            _ => {}
        }
    }

    fn place_of(&self, id: RequestId) -> Option<usize> {
        self.known.iter().position(|known| known.id == id)
    }
}

const CLOSED: u64 = ControllerState::Closed as u64;
