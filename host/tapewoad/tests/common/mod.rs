//! Values that several tests share.
#![allow(dead_code)]
pub mod raw;
pub mod scripted;
pub mod store;

use tapewoad::*;

/// A port word: connected, enabled, high speed.
pub const WORD: u32 = 0xe03;

pub const DEVICE: DeviceId = DeviceId {
    session: 1,
    generation: 1,
    slot: 2,
};

pub fn snapshot() -> DeviceSnapshot {
    DeviceSnapshot {
        id: DEVICE,
        port: PortId {
            session: 1,
            generation: 1,
            number: 1,
        },
        state: DeviceState::Configured,
    }
}

pub const ENDPOINTS: [Endpoint; 3] = [
    Endpoint {
        address: 0x81,
        transfer_type: TransferType::Bulk,
    },
    Endpoint {
        address: 0x01,
        transfer_type: TransferType::Bulk,
    },
    Endpoint {
        address: 0x83,
        transfer_type: TransferType::Isochronous,
    },
];

pub fn id(sequence: u64) -> RequestId {
    RequestId {
        session: 1,
        generation: 0,
        sequence,
    }
}
