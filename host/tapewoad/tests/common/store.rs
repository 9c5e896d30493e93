//! Calls over a store.
use super::{DEVICE, ENDPOINTS, WORD, id, snapshot};
use tapewoad::calls::*;
use tapewoad::{ControlProfile, Direction, ErrorCategory, Opening, SetupPacket, TransferType};

pub const ERROR: Error = Error::new(ErrorCategory::Timeout, 77);

/// Two rows of 16 bytes, Initialized, with one configured device on port 1.
pub fn ready() -> Store {
    ready_with(2)
}

pub fn ready_with(rows: usize) -> Store {
    let mut store = Store::new(rows, 16);
    assert_eq!(store.open(opening()), Answer::Passed);
    for call in first_calls() {
        assert_eq!(store.apply(&call), Answer::Passed);
    }
    store
}

pub fn opening() -> Opening {
    Opening::new(1, Some(1))
}

/// What follows the opening, up to Initialized.
pub fn first_calls() -> [Call<'static>; 5] {
    [
        Call::SetDevice(snapshot()),
        Call::SetPort {
            number: 1,
            generation: 1,
            reading: Some(WORD),
        },
        Call::SetEndpoints {
            slot: 2,
            endpoints: &ENDPOINTS,
        },
        Call::Acquire(Ok(())),
        Call::Initialize(Ok(())),
    ]
}

pub fn submit() -> Call<'static> {
    Call::SubmitRequestPackets(Submit {
        device: DEVICE,
        endpoint: 0x01,
        transfer_type: TransferType::Bulk,
        direction: Direction::Out,
        length: 3,
        setup: None,
        data: &[1, 2, 3],
        packets: None,
        readings: [Ok(WORD), Ok(WORD)],
    })
}

/// GET_DESCRIPTOR of 3 bytes.
pub const DESCRIPTOR: SetupPacket = SetupPacket {
    request_type: 0x80,
    request: 6,
    value: 0x100,
    index: 0,
    length: 3,
};

pub fn plan(reading: Reading) -> Plan<'static> {
    Plan {
        device: DEVICE,
        profile: ControlProfile::Compliant,
        setup: DESCRIPTOR,
        data_stage: Some((Direction::In, 3)),
        status_direction: Some(Direction::Out),
        data: &[],
        reading,
    }
}

pub fn refusal(answer: Answer) -> u16 {
    match answer {
        Answer::Refused(refusal) => refusal.number,
        answer => panic!("{answer:?}"),
    }
}

pub fn completion(data: &[u8]) -> Call<'_> {
    Call::PollReply(Ok(Some(Completion {
        actual_length: Some(data.len() as u64),
        completion_code: Some(1),
        data: Some(data),
        error: None,
        quiescent: true,
    })))
}

/// Calls that are refused (1) while something is in flight.
pub fn others() -> Vec<Call<'static>> {
    vec![
        Call::SetDevice(snapshot()),
        Call::SetReconcile { slot: 2, set: true },
        Call::Acquire(Ok(())),
        Call::Initialize(Ok(())),
        Call::Close {
            fresh: Some(2),
            reply: Ok(()),
        },
        submit(),
        Call::PollRequest(id(0)),
        Call::LogicalCancelRequest(id(0)),
        Call::WithdrawCancelRequest(id(0)),
        Call::TimeoutRequest(id(0)),
        Call::ReclaimRequest(id(0)),
        Call::AbortRequest(id(0)),
        Call::ResetEndpointRequest {
            target: id(0),
            preserve: false,
        },
    ]
}

/// What the library may write: session, ports and bytes.
pub fn words(store: &Store) -> (Vec<u64>, String, Vec<u8>) {
    let port = format!("{:?}", store.port(1));
    let session = store.session_words().to_vec();
    (session, port, store.bytes(0, 32).into())
}
