//! An answer as words, from docs/CALLS.md: what the library wrote must be just
//! these.
use tapewoad::RequestId;
use tapewoad::calls::{
    ANSWER_WORDS, AbortReport, Answer, Begun, Error, Metadata, Operation, Recovering, Recovery,
    Report, SessionStatus, Stages, State,
};
use tapewoad::{DeviceId, SetupPacket};

/// The answer's words, filled up with zeros, and its lists.
pub fn encode(answer: &Answer) -> ([u64; ANSWER_WORDS], Vec<u64>) {
    let mut words = Words(Vec::new());
    let mut lists = Vec::new();
    words.answer(answer, &mut lists);
    let mut whole = [0; ANSWER_WORDS];
    whole[..words.0.len()].copy_from_slice(&words.0);
    (whole, lists)
}

struct Words(Vec<u64>);

fn option32(value: Option<u32>) -> u64 {
    value.map_or(0, |number| u64::from(number) + 1)
}

impl Words {
    fn put<const N: usize>(&mut self, words: [u64; N]) {
        self.0.extend(words);
    }

    fn answer(&mut self, answer: &Answer, lists: &mut Vec<u64>) {
        match answer {
            Answer::Refused(refusal) => {
                self.put([0, refusal.number.into()]);
                self.error(&refusal.error);
            }
            Answer::Passed => self.put([1]),
            Answer::Begun { begun, packets } => {
                self.put([2]);
                self.begun(begun);
                self.put([u64::from(*packets)]);
            }
            Answer::PlanBegun { begun, stages } => {
                self.put([3]);
                self.begun(begun);
                self.stages(stages);
            }
            Answer::Report(report) => {
                self.put([4]);
                self.report(report);
            }
            Answer::NoReport => self.put([5]),
            Answer::Ask { token } => self.put([6, *token]),
            Answer::Number(number) => self.put([7, *number]),
            Answer::Bytes { start, length } => self.put([8, *start, *length]),
            Answer::Recover(begun) => self.recovering(begun, lists),
            Answer::Recovered(report) => self.recovered(report, lists),
            Answer::Status(status) => self.status(status),
            Answer::ReportAt { place, report } => {
                self.put([12, *place]);
                self.report(report);
            }
            Answer::Wants(wanted) => {
                let it = wanted.map(|it| [it.reading as u64 + 1, it.port.into()]);
                self.put([13]);
                self.put(it.unwrap_or_default());
            }
            answer => unreachable!("no words for {answer:?}"),
        }
    }

    fn id(&mut self, id: RequestId) {
        self.put([id.session, id.generation, id.sequence]);
    }

    fn device(&mut self, id: DeviceId) {
        self.put([id.session, id.generation, id.slot.into()]);
    }

    fn error(&mut self, error: &Error) {
        self.put([
            error.category as u64,
            error.message.into(),
            option32(error.os_code.map(i32::cast_unsigned)),
            option32(error.completion_code),
        ]);
    }

    fn begun(&mut self, begun: &Begun) {
        self.id(begun.id);
        self.put([begun.row]);
        self.metadata(&begun.metadata);
    }

    fn stages(&mut self, stages: &Stages) {
        self.put([
            u64::from(stages.has_data),
            stages.data_direction as u64,
            stages.status_direction as u64,
            stages.profile as u64,
        ]);
        self.put(stages.wire_setup.map(u64::from));
    }

    fn metadata(&mut self, metadata: &Metadata) {
        self.device(metadata.device);
        self.put([
            metadata.endpoint.into(),
            metadata.transfer_type as u64,
            metadata.direction as u64,
            metadata.requested_length,
            u64::from(metadata.setup.is_some()),
        ]);
        self.setup(metadata.setup);
    }

    fn setup(&mut self, setup: Option<SetupPacket>) {
        let Some(setup) = setup else {
            return self.put([0; 5]);
        };
        self.put([setup.request_type, setup.request].map(u64::from));
        self.put([setup.value, setup.index, setup.length].map(u64::from));
    }

    fn report(&mut self, report: &Report) {
        self.id(report.id);
        self.metadata(&report.metadata);
        self.state(&report.state);
        self.put([report.logical_cancel, report.timed_out].map(u64::from));
    }

    fn status(&mut self, status: &SessionStatus) {
        self.put([11, status.session, status.generation, status.next_sequence]);
        let ports = status
            .ports
            .map(|(session, count)| [1, session, count.into()]);
        self.put(ports.unwrap_or_default());
        self.put([status.state as u64]);
        let revision = status.recovery_revision.map(|it| [1, it]);
        self.put(revision.unwrap_or_default());
        match status.recoverable_stall {
            Some(stall) => {
                self.put([1, stall.revision]);
                self.device(stall.device);
                self.put([stall.endpoint.into()]);
            }
            None => self.put([0; 6]),
        }
        let in_flight = match status.in_flight {
            None => 0,
            Some(Operation::Submission) => 1,
            Some(Operation::Poll) => 2,
            Some(Operation::Recovery) => 3,
        };
        self.put([in_flight, status.rows, status.row_bytes]);
    }

    fn state(&mut self, state: &State) {
        self.put(match *state {
            State::Pending {
                logical_cancel,
                timed_out,
            } => [0, logical_cancel.into(), timed_out.into(), 0, 0, 0, 0],
            State::Completed {
                actual_length,
                completion_code,
                logical_cancel,
            } => {
                let flag = logical_cancel.into();
                [1, actual_length, completion_code.into(), flag, 0, 0, 0]
            }
            State::Failed {
                error,
                completion_code,
                quiescent,
            } => [
                2,
                error.category as u64,
                error.message.into(),
                quiescent.into(),
                option32(error.os_code.map(i32::cast_unsigned)),
                option32(error.completion_code),
                option32(completion_code),
            ],
            State::Aborted => [3, 0, 0, 0, 0, 0, 0],
        });
    }

    fn recovering(&mut self, begun: &Recovering, lists: &mut Vec<u64>) {
        self.put([9]);
        self.id(begun.target);
        self.device(begun.device);
        let kind = match begun.kind {
            Recovery::Abort => 0,
            Recovery::Reset { preserve } => 1 + u64::from(preserve),
        };
        self.put([begun.endpoint.into(), kind]);
        lists.push(begun.tokens.len() as u64);
        lists.extend(&begun.tokens);
    }

    fn recovered(&mut self, report: &AbortReport, lists: &mut Vec<u64>) {
        self.put([10]);
        self.id(report.target);
        self.device(report.device);
        let counts = [&report.completed, &report.aborted].map(|ids| ids.len() as u64);
        self.put([report.endpoint.into(), counts[0], counts[1]]);
        self.put([report.restart_ready, report.error.is_some()].map(u64::from));
        match &report.error {
            Some(error) => self.error(error),
            None => self.put([0; 4]),
        }
        for ids in [&report.completed, &report.aborted] {
            lists.push(ids.len() as u64);
            lists.extend(
                ids.iter()
                    .flat_map(|id| [id.session, id.generation, id.sequence]),
            );
        }
    }
}

#[cfg(test)]
mod tests {
    use super::*;

    /// A report of a Failed request, as docs/CALLS.md lays it out.
    const FAILED: [u64; 26] = [
        4, 1, 0, 5, 1, 2, 3, 0x81, 1, 0, 64, 1, 0x80, 6, 0x100, 0, 18, 2, 4, 9, 1, 3, 0, 7, 0, 1,
    ];

    #[test]
    fn an_answer_has_the_words_that_it_was_read_from() {
        let mut words = [0; ANSWER_WORDS];
        words[..26].copy_from_slice(&FAILED);
        let answer = Answer::from_words(&words, &[]).unwrap();
        assert_eq!(encode(&answer), (words, Vec::new()));
        words[31] = 1;
        let answer = Answer::from_words(&words, &[]).unwrap();
        assert_ne!(encode(&answer).0, words, "a word past the answer's last");
    }

    #[test]
    fn lists_are_a_length_and_their_items() {
        let mut words = [0; ANSWER_WORDS];
        words[..15].copy_from_slice(&[10, 1, 0, 5, 1, 2, 3, 0x81, 1, 0, 1, 0, 0, 0, 0]);
        let lists = [1, 1, 0, 5, 0];
        let answer = Answer::from_words(&words, &lists).unwrap();
        assert_eq!(encode(&answer), (words, lists.to_vec()));
    }
}
