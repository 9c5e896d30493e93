//! Between the script's values and the safe crate's types.
use tapewoad::calls;

/// Two enums with the same case names, converted either way. Not every type is
/// needed in both.
macro_rules! same_cases {
    ($ours:ty, $theirs:ty, $to:ident, $from:ident, [$($case:ident),*]) => {
        pub fn $to(value: $ours) -> $theirs {
            match value {
                $(<$ours>::$case => <$theirs>::$case),*
            }
        }

        #[allow(dead_code)]
        pub fn $from(value: $theirs) -> $ours {
            match value {
                $(<$theirs>::$case => <$ours>::$case),*
            }
        }
    };
}

same_cases!(
    script::Category,
    tapewoad::ErrorCategory,
    to_category,
    category,
    [
        Validation,
        Unsupported,
        OperatingSystem,
        Controller,
        Timeout,
        Disconnect,
        RecoveryRequired
    ]
);
same_cases!(
    script::ControllerState,
    tapewoad::ControllerState,
    to_controller_state,
    controller_state,
    [
        Closed,
        AcquiredUnknown,
        Initialized,
        Closing,
        RecoveryRequired
    ]
);
same_cases!(
    script::DeviceState,
    tapewoad::DeviceState,
    to_device_state,
    device_state,
    [
        Observed,
        PortReset,
        SlotEnabled,
        DefaultAddress,
        Addressed,
        Configured,
        Disconnected
    ]
);
same_cases!(
    script::TransferType,
    tapewoad::TransferType,
    to_transfer_type,
    transfer_type,
    [Control, Bulk, Interrupt, Isochronous]
);
same_cases!(
    script::Direction,
    tapewoad::Direction,
    to_direction,
    direction,
    [In, Out]
);
same_cases!(
    script::Profile,
    tapewoad::ControlProfile,
    to_profile,
    profile,
    [Compliant, DeviceCompatibility]
);

/// Two structs with the same fields, converted either way.
macro_rules! same_fields {
    ($ours:path, $theirs:path, $to:ident, $from:ident, [$($field:ident),*]) => {
        pub fn $to(value: $ours) -> $theirs {
            $theirs { $($field: value.$field),* }
        }

        #[allow(dead_code)]
        pub fn $from(value: $theirs) -> $ours {
            $ours { $($field: value.$field),* }
        }
    };
}

same_fields!(
    script::RequestId,
    tapewoad::RequestId,
    to_request_id,
    request_id,
    [session, generation, sequence]
);
same_fields!(
    script::DeviceId,
    tapewoad::DeviceId,
    to_device_id,
    device_id,
    [session, generation, slot]
);
same_fields!(
    script::PortId,
    tapewoad::PortId,
    to_port_id,
    port_id,
    [session, generation, number]
);
same_fields!(
    script::Setup,
    tapewoad::SetupPacket,
    to_setup,
    setup,
    [request_type, request, value, index, length]
);

pub fn request_ids(ids: Vec<tapewoad::RequestId>) -> Vec<script::RequestId> {
    ids.into_iter().map(request_id).collect()
}

pub fn to_error(error: script::Error) -> calls::Error {
    let mut made = calls::Error::new(to_category(error.category), error.message);
    made.os_code = error.os_code;
    made.completion_code = error.completion_code;
    made
}

pub fn error(error: calls::Error) -> script::Error {
    script::Error {
        category: category(error.category),
        message: error.message,
        os_code: error.os_code,
        completion_code: error.completion_code,
    }
}

pub fn to_opening(open: &script::Open) -> tapewoad::Opening {
    tapewoad::Opening::new(open.session, open.ports)
        .with_first_sequence(open.sequence)
        .with_recovery_revision(open.revision)
}

pub fn to_endpoints(list: &[(u8, script::TransferType)]) -> Vec<tapewoad::Endpoint> {
    let endpoint = |(address, kind): &(u8, script::TransferType)| tapewoad::Endpoint {
        address: *address,
        transfer_type: to_transfer_type(*kind),
    };
    list.iter().map(endpoint).collect()
}

pub fn to_snapshot(
    id: script::DeviceId,
    port: script::PortId,
    state: script::DeviceState,
) -> tapewoad::DeviceSnapshot {
    tapewoad::DeviceSnapshot {
        id: to_device_id(id),
        port: to_port_id(port),
        state: to_device_state(state),
    }
}

/// With the bytes of its data.
pub fn to_submit<'a>(submit: &'a script::Submit, data: &'a [u8]) -> calls::Submit<'a> {
    calls::Submit {
        device: to_device_id(submit.device),
        endpoint: submit.endpoint,
        transfer_type: to_transfer_type(submit.transfer_type),
        direction: to_direction(submit.direction),
        length: submit.length,
        setup: submit.setup.map(to_setup),
        data,
        packets: submit.packets.as_deref(),
        readings: submit.readings.map(|it| it.map_err(to_error)),
    }
}

/// With the bytes of its data.
pub fn to_plan<'a>(plan: &script::Plan, data: &'a [u8]) -> calls::Plan<'a> {
    let stage = plan.stage;
    calls::Plan {
        device: to_device_id(plan.device),
        profile: to_profile(plan.profile),
        setup: to_setup(plan.setup),
        data_stage: stage.map(|(direction, length)| (to_direction(direction), length)),
        status_direction: plan.status.map(to_direction),
        data,
        reading: plan.reading.map_err(to_error),
    }
}

/// Makes the call of a recovery's reply, which lends it the bytes of its data.
pub fn recovery_reply<T>(
    reply: &script::AbortReply,
    make: impl FnOnce(&calls::Call<'_>) -> T,
) -> T {
    let result = match reply {
        Ok(result) => result,
        Err(error) => return make(&calls::Call::RecoveryReply(Err(to_error(*error)))),
    };
    let data = |(_, done): &(u64, script::Completion)| done.data.as_ref().map(|it| it.to_bytes());
    let data: Vec<_> = result.completed.iter().map(data).collect();
    let completed = result.completed.iter().zip(&data);
    let completed: Vec<_> = completed
        .map(|((token, done), data)| (*token, to_completion(done, data.as_deref())))
        .collect();
    make(&calls::Call::RecoveryReply(Ok(calls::Abort {
        completed: &completed,
        aborted: &result.aborted,
        restart_ready: result.ready,
        error: result.error.map(to_error),
    })))
}

/// An abort or reset of this request.
pub fn to_recovery(target: script::RequestId, kind: script::Recovery) -> calls::Call<'static> {
    let target = to_request_id(target);
    match kind {
        script::Recovery::Abort => calls::Call::AbortRequest(target),
        script::Recovery::Reset { preserve } => {
            calls::Call::ResetEndpointRequest { target, preserve }
        }
    }
}

/// With the bytes of its data.
pub fn to_completion<'a>(
    done: &script::Completion,
    data: Option<&'a [u8]>,
) -> calls::Completion<'a> {
    calls::Completion {
        actual_length: done.length,
        completion_code: done.code,
        data,
        error: done.error.map(to_error),
        quiescent: done.quiescent,
    }
}
