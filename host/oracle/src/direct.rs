//! The Rust's session as it is, over any backend: what the originals keep to
//! themselves, for a program that makes its calls without a script.
use crate::domain::models::OperationError;
use crate::domain::models::ports::Ports;
use crate::domain::services::usb::{DeviceBackend, DeviceSnapshot, EndpointSnapshot, UsbSession};

/// A session with so many ports.
pub fn open<B: DeviceBackend>(backend: B, session: u64, ports: u8) -> UsbSession<B> {
    let mut usb = UsbSession::new(backend, session);
    usb.set_ports(Some(Ports::new(session, ports)));
    usb
}

/// Places a device on its port, which has this reading, with its endpoints.
///
/// # Errors
/// Where the port is none of the session's.
pub fn place<B: DeviceBackend>(
    usb: &mut UsbSession<B>,
    device: DeviceSnapshot,
    reading: u32,
    endpoints: Vec<EndpointSnapshot>,
) -> Result<(), OperationError> {
    usb.set_port(device.port.number, device.port.generation, Some(reading))?;
    usb.endpoints.insert(device.id.slot, endpoints);
    usb.set_device(device);
    Ok(())
}

/// `Session::close`; one that passes also empties the records, as document 01
/// has it.
///
/// # Errors
/// The Rust's own.
pub fn close<B: DeviceBackend>(usb: &mut UsbSession<B>) -> Result<(), OperationError> {
    let was_closed = usb.session.state() == crate::domain::models::ControllerState::Closed;
    usb.session.close()?;
    if !was_closed {
        usb.records.clear();
    }
    Ok(())
}
