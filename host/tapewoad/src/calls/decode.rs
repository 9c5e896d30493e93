//! Words to answers.
use super::{
    ANSWER_WORDS, AbortReport, Answer, Begun, Error, Metadata, Operation, Recovering, Recovery,
    Refusal, Report, SessionStatus, Stages, Stall, State, Wanted,
};
use crate::models::{
    ControlProfile, ControllerState, DeviceId, Direction, ErrorCategory, RequestId, SetupPacket,
    TransferType,
};

/// An enum whose cases are numbered in the order of their declaration.
macro_rules! numbered {
    ($name:ident, $type:ty, [$($case:ident),*]) => {
        #[inline(always)]
        fn $name(&mut self) -> Option<$type> {
            const CASES: &[$type] = &[$(<$type>::$case),*];
            CASES.get(usize::try_from(self.word()?).ok()?).copied()
        }
    };
}

/// Reads words one by one. What a report has is read in line: its fields are
/// written where it will stand, and not copied from call to call.
pub struct Reader<'a>(pub &'a [u64]);

impl Answer {
    /// What the words of an answer and its lists say; none where they are no
    /// answer's.
    #[inline(always)]
    pub fn from_words(words: &[u64; ANSWER_WORDS], lists: &[u64]) -> Option<Self> {
        let mut r = Reader(words);
        Some(match r.word()? {
            0 => Self::Refused(r.refusal()?),
            1 => Self::Passed,
            2 => Self::Begun {
                begun: r.begun()?,
                packets: r.flag()?,
            },
            3 => Self::PlanBegun {
                begun: r.begun()?,
                stages: r.stages()?,
            },
            4 => Self::Report(r.report()?),
            5 => Self::NoReport,
            6 => Self::Ask { token: r.word()? },
            7 => Self::Number(r.word()?),
            8 => Self::Bytes {
                start: r.word()?,
                length: r.word()?,
            },
            9 => Self::Recover(r.recovering(&mut Reader(lists))?),
            10 => Self::Recovered(r.abort_report(&mut Reader(lists))?),
            11 => Self::Status(r.session_status()?),
            12 => Self::ReportAt {
                place: r.word()?,
                report: r.report()?,
            },
            13 => Self::Wants(r.wanted()?),
            _ => return None,
        })
    }
}

/// An optional 32-bit number's word.
pub fn option_u32(word: u64) -> Option<Option<u32>> {
    Reader(&[word]).option_u32()
}

impl Reader<'_> {
    #[inline(always)]
    pub fn word(&mut self) -> Option<u64> {
        let (first, rest) = self.0.split_first()?;
        self.0 = rest;
        Some(*first)
    }

    /// A word of a narrower field.
    #[inline(always)]
    fn narrow<T: TryFrom<u64>>(&mut self) -> Option<T> {
        T::try_from(self.word()?).ok()
    }

    #[inline(always)]
    fn flag(&mut self) -> Option<bool> {
        match self.word()? {
            0 => Some(false),
            1 => Some(true),
            _ => None,
        }
    }

    #[inline(always)]
    fn option_u32(&mut self) -> Option<Option<u32>> {
        match self.word()? {
            0 => Some(None),
            word => u32::try_from(word - 1).ok().map(Some),
        }
    }

    fn option_u64(&mut self) -> Option<Option<u64>> {
        let (given, number) = (self.flag()?, self.word()?);
        Some(given.then_some(number))
    }

    numbered!(
        controller_state,
        ControllerState,
        [
            Closed,
            AcquiredUnknown,
            Initialized,
            Closing,
            RecoveryRequired
        ]
    );
    numbered!(
        category,
        ErrorCategory,
        [
            Validation,
            Unsupported,
            OperatingSystem,
            Controller,
            Timeout,
            Disconnect,
            RecoveryRequired
        ]
    );
    numbered!(
        transfer_type,
        TransferType,
        [Control, Bulk, Interrupt, Isochronous]
    );
    numbered!(direction, Direction, [In, Out]);
    numbered!(profile, ControlProfile, [Compliant, DeviceCompatibility]);

    #[inline(always)]
    fn error(&mut self) -> Option<Error> {
        Some(Error {
            category: self.category()?,
            message: self.narrow()?,
            os_code: self.option_u32()?.map(u32::cast_signed),
            completion_code: self.option_u32()?,
        })
    }

    #[inline(always)]
    pub fn refusal(&mut self) -> Option<Refusal> {
        Some(Refusal {
            number: self.narrow()?,
            error: self.error()?,
        })
    }

    fn option_error(&mut self) -> Option<Option<Error>> {
        let given = self.flag()?;
        let error = self.error()?;
        Some(given.then_some(error))
    }

    /// Its length, then its items.
    fn list<T>(&mut self, item: impl Fn(&mut Self) -> Option<T>) -> Option<Vec<T>> {
        let length = self.word()?;
        (0..length).map(|_| item(self)).collect()
    }

    #[inline(always)]
    fn id(&mut self) -> Option<RequestId> {
        Some(RequestId {
            session: self.word()?,
            generation: self.word()?,
            sequence: self.word()?,
        })
    }

    #[inline(always)]
    fn device(&mut self) -> Option<DeviceId> {
        Some(DeviceId {
            session: self.word()?,
            generation: self.word()?,
            slot: self.narrow()?,
        })
    }

    #[inline(always)]
    fn setup(&mut self) -> Option<Option<SetupPacket>> {
        let given = self.flag()?;
        let packet = SetupPacket {
            request_type: self.narrow()?,
            request: self.narrow()?,
            value: self.narrow()?,
            index: self.narrow()?,
            length: self.narrow()?,
        };
        Some(given.then_some(packet))
    }

    #[inline(always)]
    fn metadata(&mut self) -> Option<Metadata> {
        Some(Metadata {
            device: self.device()?,
            endpoint: self.narrow()?,
            transfer_type: self.transfer_type()?,
            direction: self.direction()?,
            requested_length: self.word()?,
            setup: self.setup()?,
        })
    }

    #[inline(always)]
    pub fn begun(&mut self) -> Option<Begun> {
        Some(Begun {
            id: self.id()?,
            row: self.word()?,
            metadata: self.metadata()?,
        })
    }

    #[inline(always)]
    pub fn stages(&mut self) -> Option<Stages> {
        let has_data = self.flag()?;
        let (data_direction, status_direction) = (self.direction()?, self.direction()?);
        let profile = self.profile()?;
        let mut wire_setup = [0; 8];
        for byte in &mut wire_setup {
            *byte = self.narrow()?;
        }
        Some(Stages {
            has_data,
            data_direction,
            status_direction,
            profile,
            wire_setup,
        })
    }

    #[inline(always)]
    pub fn report(&mut self) -> Option<Report> {
        Some(Report {
            id: self.id()?,
            metadata: self.metadata()?,
            state: self.state()?,
            logical_cancel: self.flag()?,
            timed_out: self.flag()?,
        })
    }

    fn recovering(&mut self, lists: &mut Reader<'_>) -> Option<Recovering> {
        let (target, device, endpoint) = (self.id()?, self.device()?, self.narrow()?);
        let kind = match self.word()? {
            0 => Recovery::Abort,
            1 => Recovery::Reset { preserve: false },
            2 => Recovery::Reset { preserve: true },
            _ => return None,
        };
        Some(Recovering {
            target,
            device,
            endpoint,
            kind,
            tokens: lists.list(Reader::word)?,
        })
    }

    /// The lists are as long as the answer says.
    fn abort_report(&mut self, lists: &mut Reader<'_>) -> Option<AbortReport> {
        let (target, device, endpoint) = (self.id()?, self.device()?, self.narrow()?);
        let counts = [self.word()?, self.word()?];
        let (completed, aborted) = (lists.list(Reader::id)?, lists.list(Reader::id)?);
        let report = AbortReport {
            target,
            device,
            endpoint,
            restart_ready: self.flag()?,
            error: self.option_error()?,
            completed,
            aborted,
        };
        let lengths = [report.completed.len() as u64, report.aborted.len() as u64];
        (lengths == counts).then_some(report)
    }

    fn session_status(&mut self) -> Option<SessionStatus> {
        Some(SessionStatus {
            session: self.word()?,
            generation: self.word()?,
            next_sequence: self.word()?,
            ports: self.ports()?,
            state: self.controller_state()?,
            recovery_revision: self.option_u64()?,
            recoverable_stall: self.stall()?,
            in_flight: self.operation()?,
            rows: self.word()?,
            row_bytes: self.word()?,
        })
    }

    fn ports(&mut self) -> Option<Option<(u64, u8)>> {
        let given = self.flag()?;
        let ports = (self.word()?, self.narrow()?);
        Some(given.then_some(ports))
    }

    fn stall(&mut self) -> Option<Option<Stall>> {
        let given = self.flag()?;
        let stall = Stall {
            revision: self.word()?,
            device: self.device()?,
            endpoint: self.narrow()?,
        };
        Some(given.then_some(stall))
    }

    fn operation(&mut self) -> Option<Option<Operation>> {
        Some(match self.word()? {
            0 => None,
            1 => Some(Operation::Submission),
            2 => Some(Operation::Poll),
            3 => Some(Operation::Recovery),
            _ => return None,
        })
    }

    #[inline(always)]
    pub fn wanted(&mut self) -> Option<Option<Wanted>> {
        let (reading, port) = (self.word()?, self.narrow()?);
        Some(match reading {
            0 => None,
            1 => Some(Wanted { reading: 0, port }),
            2 => Some(Wanted { reading: 1, port }),
            _ => return None,
        })
    }

    /// A tag and six words, whatever the state.
    #[inline(always)]
    fn state(&mut self) -> Option<State> {
        let (words, rest) = self.0.split_at_checked(7)?;
        self.0 = rest;
        let mut r = Reader(words);
        Some(match r.word()? {
            0 => State::Pending {
                logical_cancel: r.flag()?,
                timed_out: r.flag()?,
            },
            1 => State::Completed {
                actual_length: r.word()?,
                completion_code: r.narrow()?,
                logical_cancel: r.flag()?,
            },
            2 => r.failed()?,
            3 => State::Aborted,
            _ => return None,
        })
    }

    #[inline(always)]
    fn failed(&mut self) -> Option<State> {
        let (category, message) = (self.category()?, self.narrow()?);
        let quiescent = self.flag()?;
        let error = Error {
            category,
            message,
            os_code: self.option_u32()?.map(u32::cast_signed),
            completion_code: self.option_u32()?,
        };
        Some(State::Failed {
            error,
            completion_code: self.option_u32()?,
            quiescent,
        })
    }
}

#[cfg(test)]
#[path = "decode_tests.rs"]
mod tests;
