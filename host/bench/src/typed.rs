//! What the Rust's session and the crate's have in common: the same methods on
//! types of the same names, so that both are driven by the same lines.

/// The side `$side` over the types that the module has in scope, its `open` and
/// `close`.
macro_rules! typed_side {
    ($side:ident) => {
        pub struct $side {
            usb: Usb,
            target: RequestId,
            request: Option<RequestSpec>,
            plan: Option<ControlPlan>,
        }

        /// A backend: the replies to the next call.
        #[derive(Default)]
        pub struct Replies {
            token: u64,
            error: Option<OperationError>,
            completion: Option<BackendCompletion>,
            abort: Option<BackendAbort>,
        }

        impl Replies {
            fn token(&mut self) -> Result<u64, OperationError> {
                match self.error.take() {
                    Some(error) => Err(error),
                    None => Ok(self.token),
                }
            }

            fn completion(&mut self) -> Result<Option<BackendCompletion>, OperationError> {
                match self.error.take() {
                    Some(error) => Err(error),
                    None => Ok(self.completion.take()),
                }
            }

            fn abort(&mut self) -> Result<BackendAbort, OperationError> {
                Ok(self.abort.take().expect(READY))
            }
        }

        const READY: &str = "made ready before the call";

        const DEVICE: DeviceId = DeviceId {
            session: SESSION,
            generation: GENERATION,
            slot: SLOT,
        };

        impl Side for $side {
            fn open(rows: usize) -> Self {
                Self {
                    usb: placed(open(rows)),
                    target: id(0),
                    request: None,
                    plan: None,
                }
            }

            fn ready(&mut self, call: Call, sequence: u64, stopped: &[u64]) {
                self.target = id(sequence);
                let mut replies = Replies {
                    token: token(sequence),
                    ..Replies::default()
                };
                match call {
                    Call::Submit(Request::Plan) => self.plan = Some(plan()),
                    Call::Submit(it) => self.request = Some(request(it)),
                    Call::SubmitRefused => {
                        self.request = Some(request(Request::READ));
                        replies.error = Some(error());
                    }
                    Call::Poll(reply) => replies.poll(reply),
                    Call::Abort | Call::Reset => replies.abort = Some(abort(stopped)),
                    Call::Life => {
                        self.request = Some(request(Request::READ));
                        replies.poll(Reply::Completed(512));
                    }
                    _ => {}
                }
                set_replies(&mut self.usb, replies);
            }

            fn each(sides: &mut [Self], call: Call, run: &mut impl Run) {
                match call {
                    Call::Open => run.each(sides, |_| open(Store::ROWS)),
                    Call::Close => run.each(sides, |it| close(&mut it.usb)),
                    Call::Submit(Request::Plan) => run.each(sides, Self::submit_plan),
                    Call::Submit(_) | Call::SubmitRefused => run.each(sides, Self::submit),
                    Call::Poll(_) => run.each(sides, |it| it.usb.poll_request(it.target)),
                    Call::Cancel => run.each(sides, |it| it.usb.logical_cancel_request(it.target)),
                    Call::Timeout => run.each(sides, |it| it.usb.timeout_request(it.target)),
                    Call::Reclaim => run.each(sides, |it| it.usb.reclaim_request(it.target)),
                    Call::Status | Call::StatusUnknown => {
                        run.each(sides, |it| it.usb.request_status(it.target));
                    }
                    Call::Reports => run.each(sides, |it| it.usb.request_reports()),
                    Call::Abort => run.each(sides, |it| it.usb.abort_request(it.target)),
                    Call::Reset => {
                        run.each(sides, |it| it.usb.reset_endpoint_request(it.target, false));
                    }
                    Call::Life => run.each(sides, Self::life),
                }
            }
        }

        impl $side {
            fn submit(&mut self) -> Result<RequestReport, Failure> {
                self.usb.submit_request(self.request.take().expect(READY))
            }

            fn submit_plan(&mut self) -> Result<RequestReport, Failure> {
                self.usb.submit_control_plan(self.plan.take().expect(READY))
            }

            fn life(&mut self) -> Result<RequestReport, Failure> {
                self.submit()?;
                self.usb.poll_request(self.target)?;
                self.usb.reclaim_request(self.target)
            }
        }

        impl Replies {
            fn poll(&mut self, reply: Reply) {
                let (length, failed) = match reply {
                    Reply::Nothing => return,
                    Reply::Refused => return self.error = Some(error()),
                    Reply::Completed(length) => (Some(length), None),
                    Reply::Failed => (None, Some(error())),
                };
                self.completion = Some(BackendCompletion {
                    actual_length: length,
                    completion_code: Some(if failed.is_none() { COMPLETED } else { FAILED }),
                    data: length.map(|length| vec![BYTE; length]),
                    error: failed,
                    quiescent: true,
                });
            }
        }

        fn id(sequence: u64) -> RequestId {
            RequestId {
                session: SESSION,
                generation: 0,
                sequence,
            }
        }

        /// One that leaves the controller as it is.
        fn error() -> OperationError {
            OperationError::validation("the backend refuses it")
        }

        fn abort(tokens: &[u64]) -> BackendAbort {
            BackendAbort {
                completed: Vec::new(),
                aborted: tokens.to_vec(),
                restart_ready: true,
                error: None,
            }
        }

        fn setup() -> SetupPacket {
            let (request_type, request, value, index, length) = GET_DESCRIPTOR;
            SetupPacket {
                request_type,
                request,
                value,
                index,
                length,
            }
        }

        fn request(request: Request) -> RequestSpec {
            let (endpoint, length) = match request {
                Request::In { endpoint, length } => (endpoint, length),
                Request::Out { length } => (OUT_ENDPOINT, length),
                Request::Control | Request::Plan => (0, usize::from(GET_DESCRIPTOR.4)),
            };
            let is_out = matches!(request, Request::Out { .. });
            RequestSpec {
                device: DEVICE,
                endpoint,
                transfer_type: match endpoint {
                    0 => TransferType::Control,
                    _ => TransferType::Bulk,
                },
                direction: if is_out {
                    Direction::Out
                } else {
                    Direction::In
                },
                length,
                setup: (endpoint == 0).then(setup),
                data: vec![BYTE; if is_out { length } else { 0 }],
            }
        }

        fn plan() -> ControlPlan {
            ControlPlan {
                device: DEVICE,
                profile: ControlProfile::Compliant,
                setup: setup(),
                data_stage: Some(DataStage {
                    direction: Direction::In,
                    length: usize::from(GET_DESCRIPTOR.4),
                }),
                status_direction: Some(Direction::Out),
                data: Vec::new(),
            }
        }

        impl Told<$side> for Usb {
            fn told(self, _side: &mut $side) -> Answer {
                Answer::Passed
            }
        }

        impl Told<$side> for Result<(), Failure> {
            fn told(self, _side: &mut $side) -> Answer {
                self.map_or_else(refused, |()| Answer::Passed)
            }
        }

        impl Told<$side> for Result<RequestReport, Failure> {
            fn told(self, _side: &mut $side) -> Answer {
                self.map_or_else(refused, |it| Answer::Report(report(it)))
            }
        }

        impl Told<$side> for Result<Vec<RequestReport>, Failure> {
            fn told(self, _side: &mut $side) -> Answer {
                self.map_or_else(refused, |list| {
                    Answer::Reports(list.into_iter().map(report).collect())
                })
            }
        }

        impl Told<$side> for Result<AbortReport, Failure> {
            fn told(self, _side: &mut $side) -> Answer {
                self.map_or_else(refused, |it| {
                    Answer::Aborted(it.aborted.iter().map(|id| id.sequence).collect())
                })
            }
        }

        fn refused(failure: Failure) -> Answer {
            Answer::Refused(OperationError::from(failure).category as u64)
        }

        fn report(report: RequestReport) -> Report {
            Report {
                sequence: report.id.sequence,
                endpoint: report.metadata.endpoint,
                length: report.metadata.requested_length as u64,
                state: match report.state {
                    RequestState::Pending { .. } => State::Pending,
                    RequestState::Completed { actual_length, .. } => State::Completed {
                        length: actual_length as u64,
                    },
                    RequestState::Failed { .. } => State::Failed,
                    RequestState::Aborted => State::Aborted,
                },
                cancelled: report.logical_cancel,
                timed_out: report.timed_out,
                data: report.data,
            }
        }
    };
}

pub(crate) use typed_side;
