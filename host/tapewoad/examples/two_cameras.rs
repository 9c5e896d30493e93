//! Two cameras on one controller: one stalls and is reset, the other's requests
//! are untouched. Prints a timeline.
//!
//! Run by `cargo run --example two_cameras -p tapewoad` in `host/`; a test holds
//! what it prints to two_cameras.txt.
use std::error::Error;
use std::io::{self, Write};

use tapewoad::*;

/// A camera's slot, which is its port too.
type Slot = u8;
const A: Slot = 1;
const B: Slot = 2;

/// Both cameras send their images on it.
const ENDPOINT: u8 = 0x81;
const IMAGE_BYTES: usize = 512;
/// Connected, enabled, speed 3 (high).
const PORT_WORD: u32 = 0xc03;

/// A controller whose cameras fill an image with their slot's number.
#[derive(Default)]
struct Controller {
    next_token: u64,
    /// Requests with their tokens.
    submitted: Vec<(u64, OwnedRequest)>,
    /// The camera that stalls until it is reset.
    stalled: Option<Slot>,
}

fn image(request: &OwnedRequest) -> BackendCompletion {
    let length = request.buffer.len();
    BackendCompletion {
        actual_length: Some(length),
        completion_code: Some(1),
        data: Some(vec![request.metadata.device.slot; length]),
        error: None,
        quiescent: true,
    }
}

/// A stall (completion code 6): until a reset the controller may still write.
fn stall() -> BackendCompletion {
    let error = OperationError::new(ErrorCategory::RecoveryRequired, "the camera stalled");
    BackendCompletion {
        actual_length: None,
        completion_code: Some(6),
        data: None,
        error: Some(error.with_completion_code(6)),
        quiescent: false,
    }
}

impl Backend for Controller {
    fn acquire(&mut self, _target: &str) -> Result<(), AcquisitionFailure> {
        Ok(())
    }

    fn initialize(&mut self) -> Result<(), OperationError> {
        Ok(())
    }

    fn close(&mut self) -> Result<(), OperationError> {
        self.submitted.clear();
        Ok(())
    }

    fn fresh_identity(&mut self) -> Option<u64> {
        Some(2)
    }

    fn port_status(&self, _number: u8) -> Result<u32, OperationError> {
        Ok(PORT_WORD)
    }

    fn submit_request(&mut self, request: OwnedRequest) -> Result<u64, OperationError> {
        self.next_token += 1;
        self.submitted.push((self.next_token, request));
        Ok(self.next_token)
    }

    fn submit_control_plan(&mut self, _plan: ValidatedControlPlan) -> Result<u64, OperationError> {
        Err(unsupported("these cameras have no control plans"))
    }

    fn poll_request(&mut self, token: u64) -> Result<Option<BackendCompletion>, OperationError> {
        let Some(place) = self.submitted.iter().position(|(it, _)| *it == token) else {
            return Ok(None);
        };
        if self.stalled == Some(self.submitted[place].1.metadata.device.slot) {
            return Ok(Some(stall()));
        }
        let (_, request) = self.submitted.remove(place);
        Ok(Some(image(&request)))
    }

    fn reset_endpoint_recovery(
        &mut self,
        slot: u8,
        endpoint: u8,
        _preserve: bool,
    ) -> Result<BackendAbort, OperationError> {
        self.stalled = None;
        self.abort_endpoint(slot, endpoint)
    }

    /// Nothing of a stopped endpoint ever moved.
    fn abort_endpoint(&mut self, slot: u8, endpoint: u8) -> Result<BackendAbort, OperationError> {
        let stopped = self.submitted.extract_if(.., |(_, request)| {
            let it = &request.metadata;
            (it.device.slot, it.endpoint) == (slot, endpoint)
        });
        Ok(BackendAbort {
            completed: Vec::new(),
            aborted: stopped.map(|(token, _)| token).collect(),
            restart_ready: true,
            error: None,
        })
    }
}

fn device(slot: Slot) -> DeviceId {
    DeviceId {
        session: 1,
        generation: 1,
        slot,
    }
}

/// What enumeration found, told to the session.
fn place(usb: &mut UsbSession<Controller>, slot: Slot) -> Result<(), Refusal> {
    usb.set_port(slot, 1, Some(PORT_WORD))?;
    usb.set_device(DeviceSnapshot {
        id: device(slot),
        port: PortId {
            session: 1,
            generation: 1,
            number: slot,
        },
        state: DeviceState::Configured,
    })?;
    let image = Endpoint {
        address: ENDPOINT,
        transfer_type: TransferType::Bulk,
    };
    usb.set_endpoints(slot, &[image])
}

/// Images are numbered in the order in which they were asked for.
fn name(id: RequestId) -> String {
    format!("image {}", id.sequence + 1)
}

/// The session, and the timeline of its answers.
struct Timeline<'a, W> {
    usb: UsbSession<Controller>,
    out: &'a mut W,
    step: u32,
}

impl<W: Write> Timeline<'_, W> {
    fn head(&mut self) -> io::Result<()> {
        let out = &mut self.out;
        writeln!(out, "held: image buffers that the controller may write to")?;
        writeln!(out, "waits: refused (28) until the stalled camera is reset")?;
        let columns = ["camera A (port 1)", "camera B (port 2)", "controller"];
        let [a, b, controller] = columns;
        writeln!(out, "step  {a:<30}{b:<30}{controller:<18}held")
    }

    fn line(&mut self, camera: Slot, what: &str) -> io::Result<()> {
        self.step += 1;
        let (step, state) = (self.step, format!("{:?}", self.usb.state()));
        let held = self.usb.held_count();
        let (a, b) = if camera == A { (what, "") } else { ("", what) };
        writeln!(self.out, "{step:>4}  {a:<30}{b:<30}{state:<18}{held:>4}")
    }

    /// Hands the controller a buffer for the camera's next image.
    fn ask(&mut self, camera: Slot) -> Result<RequestId, Box<dyn Error>> {
        let report = self.usb.submit_request(RequestSpec {
            device: device(camera),
            endpoint: ENDPOINT,
            transfer_type: TransferType::Bulk,
            direction: Direction::In,
            length: IMAGE_BYTES,
            setup: None,
            data: Vec::new(),
        })?;
        self.line(camera, &format!("{} asked for", name(report.id)))?;
        Ok(report.id)
    }

    /// Looks whether an image came.
    fn look(&mut self, camera: Slot, id: RequestId) -> Result<(), Box<dyn Error>> {
        let name = name(id);
        let what = match self.usb.poll_request(id) {
            Ok(report) => match (report.state, report.data) {
                (RequestState::Completed { .. }, Some(data)) => {
                    format!("{name}: {} bytes of {:02x}", data.len(), data[0])
                }
                (RequestState::Failed { error, .. }, _) => format!("{name}: {}", error.message),
                (state, _) => format!("{name}: {state:?}"),
            },
            Err(refusal) => format!("{name} waits ({})", refusal.number),
        };
        Ok(self.line(camera, &what)?)
    }

    /// Resets the camera of an image, and says what became of the other's.
    fn reset(&mut self, id: RequestId, other: RequestId) -> Result<(), Box<dyn Error>> {
        let before = self.usb.request_status(other)?;
        let report = self.usb.reset_endpoint_request(id, false)?;
        let back: Vec<_> = report.aborted.into_iter().map(name).collect();
        let what = format!("reset: {} back", back.join(", "));
        self.line(report.device.slot, &what)?;
        let after = self.usb.request_status(other)?;
        let untouched = if before == after { "is" } else { "IS NOT" };
        let what = format!("{} {untouched} as before", name(other));
        Ok(self.line(after.metadata.device.slot, &what)?)
    }
}

/// The timeline, line by line.
pub(crate) fn run(out: &mut impl Write) -> Result<(), Box<dyn Error>> {
    let opening = Opening::new(1, Some(2));
    let mut usb = UsbSession::with_store(Controller::default(), opening, 8, IMAGE_BYTES)?;
    usb.acquire("0000:00:14.0")?;
    usb.initialize()?;
    place(&mut usb, A)?;
    place(&mut usb, B)?;
    let step = 0;
    let mut timeline = Timeline { usb, out, step };
    timeline.head()?;

    let (a, b) = (timeline.ask(A)?, timeline.ask(B)?);
    timeline.look(A, a)?;
    timeline.look(B, b)?;

    let (a, _, b) = (timeline.ask(A)?, timeline.ask(A)?, timeline.ask(B)?);
    timeline.usb.backend_mut().stalled = Some(A);
    timeline.look(A, a)?;
    timeline.look(B, b)?;
    timeline.reset(a, b)?;
    timeline.look(B, b)?;

    let a = timeline.ask(A)?;
    timeline.look(A, a)?;
    timeline.usb.close()?;
    Ok(())
}

fn main() -> Result<(), Box<dyn Error>> {
    run(&mut io::stdout())
}
