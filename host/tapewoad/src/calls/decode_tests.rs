use super::*;

fn read(words: &[u64]) -> Option<Answer> {
    read_lists(words, &[])
}

fn read_lists(words: &[u64], lists: &[u64]) -> Option<Answer> {
    let mut all = [0; ANSWER_WORDS];
    all[..words.len()].copy_from_slice(words);
    Answer::from_words(&all, lists)
}

const ID: RequestId = RequestId {
    session: 7,
    generation: 0,
    sequence: 9,
};
const METADATA_WORDS: [u64; 13] = [1, 2, 3, 0x81, 1, 0, 8, 1, 0x80, 6, 0x100, 5, 18];

fn metadata() -> Metadata {
    Metadata {
        device: DeviceId {
            session: 1,
            generation: 2,
            slot: 3,
        },
        endpoint: 0x81,
        transfer_type: TransferType::Bulk,
        direction: Direction::In,
        requested_length: 8,
        setup: Some(SetupPacket {
            request_type: 0x80,
            request: 6,
            value: 0x100,
            index: 5,
            length: 18,
        }),
    }
}

#[test]
fn short_answers() {
    let error = Error {
        category: ErrorCategory::Timeout,
        message: 9,
        os_code: Some(i32::MIN),
        completion_code: None,
    };
    let refused = Answer::Refused(Refusal { number: 45, error });
    assert_eq!(read(&[0, 45, 4, 9, (1 << 31) + 1, 0]), Some(refused));
    assert_eq!(read(&[1]), Some(Answer::Passed));
    assert_eq!(read(&[5]), Some(Answer::NoReport));
    assert_eq!(read(&[6, 11]), Some(Answer::Ask { token: 11 }));
    assert_eq!(read(&[7, 12]), Some(Answer::Number(12)));
    let bytes = Answer::Bytes {
        start: 1,
        length: 2,
    };
    assert_eq!(read(&[8, 1, 2]), Some(bytes));
}

#[test]
fn submissions() {
    let begun = Begun {
        id: ID,
        row: 4,
        metadata: metadata(),
    };
    let head = [&[7, 0, 9, 4], &METADATA_WORDS[..]].concat();
    let words = [&[2], &head[..], &[1]].concat();
    let packets = true;
    assert_eq!(read(&words), Some(Answer::Begun { begun, packets }));
    let stages = Stages {
        has_data: true,
        data_direction: Direction::Out,
        status_direction: Direction::In,
        profile: ControlProfile::DeviceCompatibility,
        wire_setup: [0x80, 6, 0, 1, 5, 0, 18, 255],
    };
    let tail = [1, 1, 0, 1, 0x80, 6, 0, 1, 5, 0, 18, 255];
    let words = [&[3], &head[..], &tail].concat();
    assert_eq!(read(&words), Some(Answer::PlanBegun { begun, stages }));
}

fn state(words: [u64; 7]) -> Option<State> {
    let head = [&[4, 7, 0, 9], &METADATA_WORDS[..]].concat();
    match read(&[&head[..], &words, &[1, 0]].concat())? {
        Answer::Report(report) => {
            assert_eq!((report.id, report.metadata), (ID, metadata()));
            assert!(report.logical_cancel && !report.timed_out);
            Some(report.state)
        }
        _ => None,
    }
}

#[test]
fn reports() {
    let pending = State::Pending {
        logical_cancel: true,
        timed_out: false,
    };
    assert_eq!(state([0, 1, 0, 0, 0, 0, 0]), Some(pending));
    let completed = State::Completed {
        actual_length: 8,
        completion_code: 13,
        logical_cancel: true,
    };
    assert_eq!(state([1, 8, 13, 1, 0, 0, 0]), Some(completed));
    let failed = State::Failed {
        error: Error {
            category: ErrorCategory::RecoveryRequired,
            message: 48,
            os_code: None,
            completion_code: Some(6),
        },
        completion_code: Some(0),
        quiescent: true,
    };
    assert_eq!(state([2, 6, 48, 1, 0, 7, 1]), Some(failed));
    assert_eq!(state([3, 0, 0, 0, 0, 0, 0]), Some(State::Aborted));
    assert_eq!(state([4, 0, 0, 0, 0, 0, 0]), None);
}

#[test]
fn recoveries_have_lists() {
    let device = metadata().device;
    for (word, kind) in [
        (0, Recovery::Abort),
        (1, Recovery::Reset { preserve: false }),
        (2, Recovery::Reset { preserve: true }),
    ] {
        let words = [9, 7, 0, 9, 1, 2, 3, 0x81, word];
        let recovering = Recovering {
            target: ID,
            device,
            endpoint: 0x81,
            kind,
            tokens: vec![5, u64::MAX],
        };
        let answer = read_lists(&words, &[2, 5, u64::MAX, 77]);
        assert_eq!(answer, Some(Answer::Recover(recovering)));
    }
    let words = [10, 7, 0, 9, 1, 2, 3, 0x81, 1, 2, 1, 1, 4, 9, 0, 7];
    let lists = [1, 7, 0, 9, 2, 7, 0, 9, 7, 0, 9, 77];
    let report = AbortReport {
        target: ID,
        device,
        endpoint: 0x81,
        completed: vec![ID],
        aborted: vec![ID, ID],
        restart_ready: true,
        error: Some(Error {
            category: ErrorCategory::Timeout,
            message: 9,
            os_code: None,
            completion_code: Some(6),
        }),
    };
    let answer = read_lists(&words, &lists);
    assert_eq!(answer, Some(Answer::Recovered(report)));
}

#[test]
fn answers_to_questions() {
    let mut status = SessionStatus {
        session: 7,
        generation: 0,
        next_sequence: 9,
        ports: Some((1, 4)),
        state: ControllerState::RecoveryRequired,
        recovery_revision: Some(5),
        recoverable_stall: Some(Stall {
            revision: 5,
            device: metadata().device,
            endpoint: 0x81,
        }),
        in_flight: None,
        rows: 16,
        row_bytes: 64,
    };
    let head = [11, 7, 0, 9, 1, 1, 4, 4, 1, 5, 1, 5, 1, 2, 3, 0x81];
    for (word, in_flight) in [
        (0, None),
        (1, Some(Operation::Submission)),
        (2, Some(Operation::Poll)),
        (3, Some(Operation::Recovery)),
    ] {
        status.in_flight = in_flight;
        let words = [&head[..], &[word, 16, 64]].concat();
        assert_eq!(read(&words), Some(Answer::Status(status)));
    }
    let report = Report {
        id: ID,
        metadata: metadata(),
        state: State::Aborted,
        logical_cancel: false,
        timed_out: true,
    };
    let head = [&[12, 1_023, 7, 0, 9], &METADATA_WORDS[..]].concat();
    let words = [&head[..], &[3, 0, 0, 0, 0, 0, 0, 0, 1]].concat();
    let place = 1_023;
    assert_eq!(read(&words), Some(Answer::ReportAt { place, report }));
    let wanted = |reading| Answer::Wants(Some(Wanted { reading, port: 255 }));
    assert_eq!(read(&[13, 0, 0]), Some(Answer::Wants(None)));
    assert_eq!(read(&[13, 1, 255]), Some(wanted(0)));
    assert_eq!(read(&[13, 2, 255]), Some(wanted(1)));
}

#[test]
fn lists_that_are_no_answer() {
    let begun = [9, 7, 0, 9, 1, 2, 3, 0x81, 0];
    let reported = [10, 7, 0, 9, 1, 2, 3, 0x81, 1, 0];
    assert!(read_lists(&begun, &[1, 5]).is_some());
    assert!(read_lists(&reported, &[1, 7, 0, 9, 0]).is_some());
    for (words, lists) in [
        (&begun[..], &[][..]),
        (&begun, &[2, 5]),
        (&begun, &[u64::MAX, 5]),
        (&[9, 7, 0, 9, 1, 2, 3, 0x81, 3], &[1, 5]),
        (&reported, &[0, 0]),
        (&reported, &[1, 7, 0, 9, 1, 7, 0, 9]),
        (&reported, &[1, 7, 0, 9, 0][..4]),
    ] {
        assert_eq!(read_lists(words, lists), None, "{words:?} {lists:?}");
    }
}

#[test]
fn words_that_are_no_answer() {
    for words in [
        &[14][..],
        &[11, 7, 0, 9, 2],
        &[11, 7, 0, 9, 0, 0, 0, 5],
        &[11, 7, 0, 9, 0, 0, 0, 4, 0, 0, 0, 0, 0, 0, 256],
        &[11, 7, 0, 9, 0, 0, 0, 4, 0, 0, 0, 0, 0, 0, 0, 0, 4],
        &[12, 3, 7, 0, 9, 1, 2, 3, 0x81, 4],
        &[13, 3, 1],
        &[13, 1, 256],
        &[0, 65_536],
        &[0, 4, 7],
        &[0, 4, 0, 4, (1 << 32) + 1],
        &[2, 7, 0, 9, 4, 1, 2, 256],
        &[4, 7, 0, 9, 1, 2, 3, 0x81, 4],
        &[4, 7, 0, 9, 1, 2, 3, 0x81, 1, 2],
    ] {
        assert_eq!(read(words), None, "{words:?}");
    }
}
