//! A session's life over a device that echoes: what is written to endpoint 01h
//! is read back from 81h, which stalls once and is reset.
//!
//! Run by `cargo run --example life -p tapewoad` in `host/`; a test holds what it
//! prints to life.txt.
use std::collections::VecDeque;
use std::error::Error;
use std::io::{self, Write};

use tapewoad::*;

/// A controller with one high-speed device on port 1.
#[derive(Default)]
struct Echo {
    next_token: u64,
    sessions: u64,
    /// Bytes that were written and not yet read.
    written: VecDeque<u8>,
    /// Requests with their tokens.
    submitted: Vec<(u64, OwnedRequest)>,
    /// The endpoint that stalls until it is reset.
    stalled: Option<u8>,
}

impl Echo {
    fn completion(&mut self, request: OwnedRequest) -> BackendCompletion {
        let length = request.buffer.len();
        let data: Vec<u8> = match request.metadata.direction {
            Direction::Out => {
                self.written.extend(&request.buffer);
                request.buffer
            }
            Direction::In => {
                let there = self.written.len().min(length);
                self.written.drain(..there).collect()
            }
        };
        BackendCompletion {
            actual_length: Some(data.len()),
            // 1 is Success, 13 Short Packet.
            completion_code: Some(if data.len() == length { 1 } else { 13 }),
            data: Some(data),
            error: None,
            quiescent: true,
        }
    }

    /// Stops an endpoint, of which nothing ever moved.
    fn stop(&mut self, endpoint: u8) -> BackendAbort {
        let submitted = &mut self.submitted;
        let stopped = submitted.extract_if(.., |(_, it)| it.metadata.endpoint == endpoint);
        BackendAbort {
            completed: Vec::new(),
            aborted: stopped.map(|(token, _)| token).collect(),
            restart_ready: true,
            error: None,
        }
    }
}

/// A stall (completion code 6): until a reset the controller may still write.
fn stall() -> BackendCompletion {
    let error = OperationError::new(ErrorCategory::RecoveryRequired, "the endpoint stalled");
    BackendCompletion {
        actual_length: None,
        completion_code: Some(6),
        data: None,
        error: Some(error.with_completion_code(6)),
        quiescent: false,
    }
}

impl Backend for Echo {
    fn acquire(&mut self, _target: &str) -> Result<(), AcquisitionFailure> {
        Ok(())
    }

    fn initialize(&mut self) -> Result<(), OperationError> {
        Ok(())
    }

    fn close(&mut self) -> Result<(), OperationError> {
        self.submitted.clear();
        Ok(())
    }

    fn fresh_identity(&mut self) -> Option<u64> {
        self.sessions = self.sessions.checked_add(1)?;
        self.sessions.checked_add(1)
    }

    fn port_status(&self, _number: u8) -> Result<u32, OperationError> {
        Ok(PORT_WORD)
    }

    fn submit_request(&mut self, request: OwnedRequest) -> Result<u64, OperationError> {
        self.next_token += 1;
        self.submitted.push((self.next_token, request));
        Ok(self.next_token)
    }

    fn submit_control_plan(&mut self, _plan: ValidatedControlPlan) -> Result<u64, OperationError> {
        Err(unsupported("this device has no control plans"))
    }

    fn poll_request(&mut self, token: u64) -> Result<Option<BackendCompletion>, OperationError> {
        let Some(place) = self.submitted.iter().position(|(it, _)| *it == token) else {
            return Ok(None);
        };
        if self.stalled == Some(self.submitted[place].1.metadata.endpoint) {
            return Ok(Some(stall()));
        }
        let (_, request) = self.submitted.remove(place);
        Ok(Some(self.completion(request)))
    }

    fn reset_endpoint_recovery(
        &mut self,
        _slot: u8,
        endpoint: u8,
        _preserve: bool,
    ) -> Result<BackendAbort, OperationError> {
        self.stalled = None;
        Ok(self.stop(endpoint))
    }

    fn abort_endpoint(&mut self, _slot: u8, endpoint: u8) -> Result<BackendAbort, OperationError> {
        Ok(self.stop(endpoint))
    }
}

/// Connected, enabled, speed 3 (high).
const PORT_WORD: u32 = 0xc03;

const DEVICE: DeviceId = DeviceId {
    session: 1,
    generation: 1,
    slot: 1,
};

/// A write to endpoint 01h.
fn write(data: &[u8]) -> RequestSpec {
    RequestSpec {
        device: DEVICE,
        endpoint: 0x01,
        transfer_type: TransferType::Bulk,
        direction: Direction::Out,
        length: data.len(),
        setup: None,
        data: data.into(),
    }
}

/// A read of at most 64 bytes from endpoint 81h.
fn read() -> RequestSpec {
    RequestSpec {
        endpoint: 0x81,
        direction: Direction::In,
        length: 64,
        data: Vec::new(),
        ..write(&[])
    }
}

/// What enumeration found, told to the session.
fn place(usb: &mut UsbSession<Echo>) -> Result<(), Refusal> {
    usb.set_port(1, 1, Some(PORT_WORD))?;
    usb.set_device(DeviceSnapshot {
        id: DEVICE,
        port: PortId {
            session: 1,
            generation: 1,
            number: 1,
        },
        state: DeviceState::Configured,
    })?;
    let endpoint = |address| Endpoint {
        address,
        transfer_type: TransferType::Bulk,
    };
    usb.set_endpoints(DEVICE.slot, &[endpoint(0x01), endpoint(0x81)])
}

fn show(out: &mut impl Write, report: &RequestReport) -> io::Result<()> {
    let sequence = report.id.sequence;
    let text = String::from_utf8_lossy(report.data.as_deref().unwrap_or_default());
    match &report.state {
        RequestState::Failed { error, .. } => writeln!(out, "request {sequence}: {error}"),
        state => writeln!(out, "request {sequence}: {state:?} {text:?}"),
    }
}

/// A write comes back, a wrong request is refused, an idle one is taken back.
fn echo(usb: &mut UsbSession<Echo>, out: &mut impl Write) -> Result<(), Box<dyn Error>> {
    let written = usb.submit_request(write(b"hello"))?;
    let back = usb.submit_request(read())?;
    let (count, bytes) = (usb.held_count(), usb.held_bytes());
    writeln!(out, "{count} requests held, {bytes} bytes")?;
    show(out, &usb.poll_request(written.id)?)?;
    show(out, &usb.poll_request(back.id)?)?;

    // Nothing of it reaches the device.
    let mut wrong = read();
    wrong.data = b"data".into();
    let refusal = usb.submit_request(wrong).expect_err("IN has no data");
    writeln!(out, "{refusal}: {}", refusal.error)?;

    let idle = usb.submit_request(read())?;
    let report = usb.abort_request(idle.id)?;
    writeln!(out, "aborted: {}", report.aborted.len())?;
    Ok(())
}

/// A read stalls, and everything waits. The reset takes it back; the write that
/// waited goes on, and so does the next read.
fn stall_and_reset(usb: &mut UsbSession<Echo>, out: &mut impl Write) -> Result<(), Box<dyn Error>> {
    let written = usb.submit_request(write(b"again"))?;
    let stalled = usb.submit_request(read())?;
    usb.backend_mut().stalled = Some(0x81);
    show(out, &usb.poll_request(stalled.id)?)?;
    writeln!(out, "{:?}, {} held", usb.state(), usb.held_count())?;
    let refusal = usb.poll_request(written.id).expect_err("it waits");
    writeln!(out, "{refusal}: {}", refusal.error)?;

    let report = usb.reset_endpoint_request(stalled.id, false)?;
    let (aborted, ready) = (report.aborted.len(), report.restart_ready);
    writeln!(out, "reset: {aborted} aborted, ready: {ready}")?;
    writeln!(out, "{:?}, {} held", usb.state(), usb.held_count())?;

    show(out, &usb.poll_request(written.id)?)?;
    let next = usb.submit_request(read())?;
    show(out, &usb.poll_request(next.id)?)?;
    Ok(())
}

/// The whole life, told line by line.
pub(crate) fn run(out: &mut impl Write) -> Result<(), Box<dyn Error>> {
    let mut usb = UsbSession::with_store(Echo::default(), Opening::new(1, Some(1)), 8, 512)?;
    usb.acquire("0000:00:14.0")?;
    usb.initialize()?;
    place(&mut usb)?;
    echo(&mut usb, out)?;
    stall_and_reset(&mut usb, out)?;
    for report in usb.request_reports()? {
        usb.reclaim_request(report.id)?;
    }
    usb.close()?;
    writeln!(out, "{:?}, next session {}", usb.state(), usb.identity())?;
    Ok(())
}

fn main() -> Result<(), Box<dyn Error>> {
    run(&mut io::stdout())
}
