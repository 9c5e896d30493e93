//! Sessions of one side in the state that a workload begins with.
use std::time::Duration;

use crate::answer::{Answer, State};
use crate::calls::{Call, Reply, Request, token};
use crate::side::{Answers, Clock, Side};

/// What a workload begins with. Rows are filled in this order.
#[derive(Debug, Clone, Copy, PartialEq, Eq)]
pub struct Rows {
    /// How many the store has.
    pub store: usize,
    pub completed: usize,
    pub held: usize,
    /// How many of the held, the last ones, have the endpoint that is recovered.
    pub stopped: usize,
    /// How many bytes each request has.
    pub length: usize,
    /// Which of them all the calls are about.
    pub target: usize,
}

/// Equal sessions, so that one call on each can be timed at once.
pub struct Scene<S> {
    sides: Vec<S>,
    rows: Rows,
    /// The sequence numbers of the requests that are there.
    requests: Vec<u64>,
    next: u64,
}

impl<S: Side> Scene<S> {
    pub fn new(rows: Rows, sides: usize) -> Self {
        let mut scene = Self {
            sides: (0..sides).map(|_| S::open(rows.store)).collect(),
            rows,
            requests: Vec::new(),
            next: 0,
        };
        for _ in 0..rows.completed {
            let request = scene.completed();
            scene.requests.push(request);
        }
        for place in 0..rows.held {
            let request = match place + rows.stopped < rows.held {
                true => Request::read(rows.length),
                false => Request::STOPPED,
            };
            let request = scene.submitted(request);
            scene.requests.push(request);
        }
        scene
    }

    /// Makes a call in every session and gives the answer.
    ///
    /// # Panics
    /// Where the sessions answer differently.
    pub fn answer(&mut self, call: Call) -> Answer {
        self.make(call, self.sequence(call))
    }

    /// How long a call takes that is made so many times in every session.
    pub fn time(&mut self, call: Call, times: u32) -> Duration {
        self.ready(call, self.sequence(call));
        let mut clock = Clock {
            times,
            taken: Duration::ZERO,
        };
        S::each(&mut self.sides, call, &mut clock);
        self.next += u64::from(call.submits());
        clock.taken
    }

    /// Brings back the state in which the call was made.
    pub fn put_back(&mut self, call: Call) {
        let target = self.rows.target;
        match call {
            Call::Submit(_) => {
                let request = self.next - 1;
                self.complete(request, 0);
                self.reclaim(request);
            }
            Call::Poll(Reply::Completed(_) | Reply::Failed) => {
                self.reclaim(self.requests[target]);
                self.requests[target] = self.submitted(Request::read(self.rows.length));
            }
            Call::Reclaim => self.requests[target] = self.completed(),
            Call::Abort | Call::Reset => {
                for place in self.requests.len() - self.rows.stopped..self.requests.len() {
                    self.reclaim(self.requests[place]);
                }
                for place in self.requests.len() - self.rows.stopped..self.requests.len() {
                    self.requests[place] = self.submitted(Request::STOPPED);
                }
            }
            Call::Close => *self = Self::new(self.rows, self.sides.len()),
            _ => {}
        }
    }

    /// The number of the request that a call makes or is about.
    fn sequence(&self, call: Call) -> u64 {
        match call {
            _ if call.submits() => self.next,
            Call::Open | Call::Close | Call::Reports => 0,
            Call::StatusUnknown => u64::MAX / 2,
            _ => self.requests[self.rows.target],
        }
    }

    fn ready(&mut self, call: Call, sequence: u64) {
        let stopped = &self.requests[self.requests.len() - self.stopped(call)..];
        let tokens: Vec<u64> = stopped.iter().map(|it| token(*it)).collect();
        for side in &mut self.sides {
            side.ready(call, sequence, &tokens);
        }
    }

    fn stopped(&self, call: Call) -> usize {
        match call {
            Call::Abort | Call::Reset => self.rows.stopped,
            _ => 0,
        }
    }

    fn make(&mut self, call: Call, sequence: u64) -> Answer {
        self.ready(call, sequence);
        let mut answers = Answers::default();
        S::each(&mut self.sides, call, &mut answers);
        self.next += u64::from(call.submits());
        let answer = answers.0.pop().expect("a session");
        for other in answers.0 {
            assert_eq!(other, answer, "equal sessions answer {call:?} differently");
        }
        answer
    }

    /// A request in the first free row.
    fn submitted(&mut self, request: Request) -> u64 {
        let sequence = self.next;
        self.expect(Call::Submit(request), sequence, State::Pending);
        sequence
    }

    fn completed(&mut self) -> u64 {
        let request = self.submitted(Request::read(self.rows.length));
        self.complete(request, self.rows.length);
        request
    }

    fn complete(&mut self, request: u64, bytes: usize) {
        let length = bytes as u64;
        let call = Call::Poll(Reply::Completed(bytes));
        self.expect(call, request, State::Completed { length });
    }

    fn reclaim(&mut self, request: u64) {
        match self.make(Call::Reclaim, request) {
            Answer::Report(report) => assert_ne!(report.state, State::Pending),
            answer => panic!("{request} is not reclaimed: {answer:?}"),
        }
    }

    fn expect(&mut self, call: Call, request: u64, state: State) {
        match self.make(call, request) {
            Answer::Report(report) => {
                assert_eq!(
                    (report.sequence, report.state),
                    (request, state),
                    "{call:?}"
                );
            }
            answer => panic!("{call:?} of {request} gives {answer:?}"),
        }
    }
}
