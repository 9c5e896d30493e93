//! Between the script's values and the Rust's types.
use crate::domain::models::{self, OperationError, control_plan, ports, requests};
use crate::domain::services::usb;

/// Two enums with the same case names, converted either way. Not every type is
/// needed in both.
macro_rules! same_cases {
    ($ours:ty, $theirs:ty, $to:ident, $from:ident, [$($case:ident),*]) => {
        pub fn $to(value: $ours) -> $theirs {
            match value {
                $(<$ours>::$case => <$theirs>::$case),*
            }
        }

        #[allow(dead_code)]
        pub fn $from(value: $theirs) -> $ours {
            match value {
                $(<$theirs>::$case => <$ours>::$case),*
            }
        }
    };
}

same_cases!(
    script::Category,
    models::ErrorCategory,
    to_category,
    category,
    [
        Validation,
        Unsupported,
        OperatingSystem,
        Controller,
        Timeout,
        Disconnect,
        RecoveryRequired
    ]
);
same_cases!(
    script::ControllerState,
    models::ControllerState,
    to_controller_state,
    controller_state,
    [
        Closed,
        AcquiredUnknown,
        Initialized,
        Closing,
        RecoveryRequired
    ]
);
same_cases!(
    script::DeviceState,
    models::DeviceState,
    to_device_state,
    device_state,
    [
        Observed,
        PortReset,
        SlotEnabled,
        DefaultAddress,
        Addressed,
        Configured,
        Disconnected
    ]
);
same_cases!(
    script::TransferType,
    requests::TransferType,
    to_transfer_type,
    transfer_type,
    [Control, Bulk, Interrupt, Isochronous]
);
same_cases!(
    script::Direction,
    requests::Direction,
    to_direction,
    direction,
    [In, Out]
);
same_cases!(
    script::Profile,
    control_plan::ControlProfile,
    to_profile,
    profile,
    [Compliant, DeviceCompatibility]
);

pub fn operation_error(error: script::Error, message: String) -> OperationError {
    OperationError {
        category: to_category(error.category),
        message,
        os_code: error.os_code,
        completion_code: error.completion_code,
    }
}

pub fn error(error: &OperationError, message: u16) -> script::Error {
    script::Error {
        category: category(error.category),
        message,
        os_code: error.os_code,
        completion_code: error.completion_code,
    }
}

pub fn to_request_id(id: script::RequestId) -> models::RequestId {
    models::RequestId {
        session: id.session,
        generation: id.generation,
        sequence: id.sequence,
    }
}

pub fn request_id(id: models::RequestId) -> script::RequestId {
    script::RequestId {
        session: id.session,
        generation: id.generation,
        sequence: id.sequence,
    }
}

pub fn to_device_id(id: script::DeviceId) -> usb::DeviceId {
    usb::DeviceId {
        session: id.session,
        generation: id.generation,
        slot: id.slot,
    }
}

pub fn device_id(id: usb::DeviceId) -> script::DeviceId {
    script::DeviceId {
        session: id.session,
        generation: id.generation,
        slot: id.slot,
    }
}

pub fn to_port_id(id: script::PortId) -> ports::PortId {
    ports::PortId {
        session: id.session,
        generation: id.generation,
        number: id.number,
    }
}

pub fn to_setup(setup: script::Setup) -> requests::SetupPacket {
    requests::SetupPacket {
        request_type: setup.request_type,
        request: setup.request,
        value: setup.value,
        index: setup.index,
        length: setup.length,
    }
}

pub fn setup(setup: requests::SetupPacket) -> script::Setup {
    script::Setup {
        request_type: setup.request_type,
        request: setup.request,
        value: setup.value,
        index: setup.index,
        length: setup.length,
    }
}

/// The name that the Rust's endpoint lists use for a transfer type.
pub fn type_name(transfer_type: script::TransferType) -> String {
    transfer_type.name().into()
}

/// The Rust's lengths are `usize`, which has 64 bits wherever this runs.
pub fn to_usize(length: u64) -> usize {
    usize::try_from(length).expect("a 64-bit target")
}
