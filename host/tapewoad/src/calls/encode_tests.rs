use super::*;
use crate::models::*;

const ID: RequestId = RequestId {
    session: 7,
    generation: 8,
    sequence: 9,
};
const DEVICE: DeviceId = DeviceId {
    session: 1,
    generation: 2,
    slot: 255,
};
const ERROR: Error = Error {
    category: ErrorCategory::RecoveryRequired,
    message: 65_535,
    os_code: Some(-1),
    completion_code: Some(u32::MAX),
};
const ERROR_WORDS: [u64; 4] = [6, 65_535, 1 << 32, 1 << 32];
const SETUP: SetupPacket = SetupPacket {
    request_type: 0x80,
    request: 6,
    value: 0x100,
    index: 65_535,
    length: 18,
};
const SETUP_WORDS: [u64; 5] = [0x80, 6, 0x100, 65_535, 18];

fn submit() -> Submit<'static> {
    Submit {
        device: DEVICE,
        endpoint: 0x81,
        transfer_type: TransferType::Isochronous,
        direction: Direction::Out,
        length: 5,
        setup: None,
        data: &[1, 2, 3, 4, 5],
        packets: Some(&[2, 3]),
        readings: [Ok(0x603), Err(ERROR)],
    }
}

fn plan() -> Plan<'static> {
    Plan {
        device: DEVICE,
        profile: ControlProfile::DeviceCompatibility,
        setup: SETUP,
        data_stage: Some((Direction::Out, 3)),
        status_direction: Some(Direction::In),
        data: &[1, 2, 3],
        reading: Ok(1),
    }
}

fn completion() -> Completion<'static> {
    Completion {
        actual_length: Some(0),
        completion_code: Some(13),
        data: Some(&[]),
        error: None,
        quiescent: true,
    }
}

#[test]
fn openings_and_placing_calls() {
    let opening = Opening {
        session: 1,
        first_sequence: 2,
        recovery_revision: None,
        ports: Some(255),
    };
    let open = Call::Open {
        opening,
        rows: 3,
        row_bytes: 4,
    };
    assert_eq!(open.words(), [0, 1, 2, 0, 0, 1, 255, 3, 4]);
    let port = PortId {
        session: 4,
        generation: 5,
        number: 6,
    };
    let device = DeviceSnapshot {
        id: DEVICE,
        port,
        state: DeviceState::Disconnected,
    };
    assert_eq!(Call::SetDevice(device).words(), [1, 1, 2, 255, 4, 5, 6, 6]);
    let row = |reading| Call::SetPort {
        number: 3,
        generation: 9,
        reading,
    };
    assert_eq!(row(Some(u32::MAX)).words(), [2, 3, 9, 1 << 32]);
    assert_eq!(row(None).words(), [2, 3, 9, 0]);
    let endpoints = &[Endpoint {
        address: 0x81,
        transfer_type: TransferType::Isochronous,
    }];
    let list = Call::SetEndpoints { slot: 2, endpoints };
    assert_eq!(list.words(), [3, 2, 0x381]);
    let mark = Call::SetReconcile { slot: 2, set: true };
    assert_eq!(mark.words(), [4, 2, 1]);
}

#[test]
fn calls_that_move_the_state() {
    assert_eq!(Call::Acquire(Ok(())).words(), [5, 0, 0, 0, 0, 0, 0]);
    let failed = Call::Acquire(Err((ERROR, true))).words();
    assert_eq!(failed, [&[5, 1, 1], &ERROR_WORDS[..]].concat());
    assert_eq!(Call::Initialize(Ok(())).words(), [6, 0, 0, 0, 0, 0]);
    let failed = Call::Initialize(Err(ERROR)).words();
    assert_eq!(failed, [&[6, 1], &ERROR_WORDS[..]].concat());
    let close = Call::Close {
        fresh: Some(4),
        reply: Err(ERROR),
    };
    assert_eq!(close.words(), [&[7, 1, 4, 1], &ERROR_WORDS[..]].concat());
}

#[test]
fn submissions() {
    let head = [8, 1, 2, 255, 0x81, 3, 1, 5];
    let readings = [&[0, 0x603, 0, 0, 0, 0, 1, 0], &ERROR_WORDS[..]].concat();
    let call = Call::SubmitRequestPackets(submit());
    let expected = [&head[..], &[0; 6], &readings, &[1, 2, 3]].concat();
    assert_eq!(call.words(), expected);
    assert_eq!(*call.bytes(), [1, 2, 3, 4, 5]);
    let call = Call::SubmitRequestPackets(Submit {
        setup: Some(SETUP),
        packets: None,
        ..submit()
    });
    let expected = [&head[..], &[1], &SETUP_WORDS, &readings, &[0]].concat();
    assert_eq!(call.words(), expected);
}

#[test]
fn plans() {
    let head = [&[9, 1, 2, 255, 1], &SETUP_WORDS[..]].concat();
    let call = Call::SubmitControlPlan(plan());
    let expected = [&head[..], &[1, 1, 3, 1, 0, 1, 0, 0, 0, 0]].concat();
    assert_eq!(call.words(), expected);
    assert_eq!(*call.bytes(), [1, 2, 3]);
    let call = Call::SubmitControlPlan(Plan {
        data_stage: None,
        status_direction: None,
        reading: Err(ERROR),
        ..plan()
    });
    let expected = [&head[..], &[0, 0, 0, 0, 1, 0], &ERROR_WORDS].concat();
    assert_eq!(call.words(), expected);
}

#[test]
fn questions() {
    assert_eq!(Question::SessionStatus.words(), [25]);
    let from = Question::ReportFrom { place: u64::MAX };
    assert_eq!(from.words(), [26, u64::MAX]);
    for question in [Question::SessionStatus, from] {
        assert_eq!(question.bytes(), []);
    }
    for (call, question, number) in [
        (
            Call::SubmitRequestPackets(submit()),
            Question::SubmitWants(submit()),
            27,
        ),
        (
            Call::SubmitControlPlan(plan()),
            Question::PlanWants(plan()),
            28,
        ),
    ] {
        let expected = [&[number], &call.words()[1..]].concat();
        assert_eq!(question.words(), expected);
        assert_eq!(*question.bytes(), *call.bytes());
    }
}

#[test]
fn replies() {
    assert_eq!(Call::SubmitReply(Ok(4)).words(), [10, 0, 4, 0, 0, 0, 0]);
    let failed = Call::SubmitReply(Err(ERROR)).words();
    assert_eq!(failed, [&[10, 1, 0], &ERROR_WORDS[..]].concat());
    let nothing = Call::PollReply(Ok(None)).words();
    assert_eq!(nothing, [12, 0, 0, 0, 0, 0, 0, 0, 0, 0, 0, 0]);
    let failed = Call::PollReply(Err(ERROR)).words();
    let expected = [&[12, 1, 0], &ERROR_WORDS[..], &[0; 5]].concat();
    assert_eq!(failed, expected);
    let done = Call::PollReply(Ok(Some(completion()))).words();
    assert_eq!(done, [12, 2, 0, 0, 0, 0, 0, 1, 0, 14, 1, 1]);
    let stalled = Completion {
        actual_length: None,
        data: None,
        error: Some(ERROR),
        quiescent: false,
        ..completion()
    };
    let stalled = Call::PollReply(Ok(Some(stalled))).words();
    let expected = [&[12, 2, 1], &ERROR_WORDS[..], &[0, 0, 14, 0, 0]].concat();
    assert_eq!(stalled, expected);
}

#[test]
fn calls_of_one_request_and_counts() {
    for (call, number) in [
        (Call::PollRequest(ID), 11),
        (Call::LogicalCancelRequest(ID), 13),
        (Call::TimeoutRequest(ID), 14),
        (Call::ReclaimRequest(ID), 15),
        (Call::RequestStatus(ID), 16),
        (Call::CompletedBytes(ID), 19),
        (Call::AbortRequest(ID), 22),
        (Call::WithdrawCancelRequest(ID), 29),
    ] {
        assert_eq!(call.words(), [number, 7, 8, 9]);
    }
    let after = |after| Call::RequestReports { after }.words();
    assert_eq!(after(None), [17, 0, 0, 0, 0]);
    assert_eq!(after(Some(ID)), [17, 1, 7, 8, 9]);
    assert_eq!(Call::CountReports.words(), [18]);
    assert_eq!(Call::HeldCount.words(), [20]);
    assert_eq!(Call::HeldBytes.words(), [21]);
    let reset = Call::ResetEndpointRequest {
        target: ID,
        preserve: true,
    };
    assert_eq!(reset.words(), [23, 7, 8, 9, 1]);
}

#[test]
fn replies_of_recoveries() {
    let failed = Call::RecoveryReply(Err(ERROR)).words();
    assert_eq!(failed, [&[24, 1, 0, 0], &ERROR_WORDS[..], &[0, 0]].concat());
    let empty = Abort {
        completed: &[],
        aborted: &[],
        restart_ready: false,
        error: Some(ERROR),
    };
    let words = Call::RecoveryReply(Ok(empty)).words();
    assert_eq!(words, [&[24, 0, 0, 1], &ERROR_WORDS[..], &[0, 0]].concat());
    let completed = &[
        (
            7,
            Completion {
                actual_length: Some(2),
                data: Some(&[10, 11]),
                ..completion()
            },
        ),
        (
            8,
            Completion {
                actual_length: None,
                data: None,
                error: Some(ERROR),
                quiescent: false,
                ..completion()
            },
        ),
        (
            9,
            Completion {
                data: Some(&[12]),
                ..completion()
            },
        ),
    ];
    let call = Call::RecoveryReply(Ok(Abort {
        completed,
        aborted: &[5, u64::MAX],
        restart_ready: true,
        error: None,
    }));
    let expected = [
        &[24, 0, 1, 0, 0, 0, 0, 0, 3, 3, 7, 8, 9],
        &[0, 0, 0, 0, 0, 1, 2, 14, 1, 1, 2][..],
        &[1],
        &ERROR_WORDS,
        &[0, 0, 14, 0, 0, 0],
        &[0, 0, 0, 0, 0, 1, 0, 14, 1, 1, 1],
        &[5, u64::MAX],
    ];
    assert_eq!(call.words(), expected.concat());
    assert_eq!(*call.bytes(), [10, 11, 12]);
}
