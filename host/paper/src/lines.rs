//! A paper's lines, by the calls of its events made one by one on a side.
use std::fmt::{self, Display, Formatter};

use script::{
    AbortResult, Answer, Call, Category, Completion, Data, DeviceId, DeviceState, Direction, Error,
    Open, Outcome, PollReply, PortId, Recovery, RequestId, Row, RowState, Side, Submit,
    TransferType,
};

use crate::event::{BYTES, ERROR, Event, Kind, PRESENT, QUIESCENT};

/// The largest paper.
pub const MOST_BYTES: usize = 65_536;

/// The store: its rows, and the bytes of each.
const ROWS: u64 = 64;
const ROW_BYTES: u64 = 256;

const SESSION: u64 = 1;
/// An opening's ports are of this generation.
const PORT: PortId = PortId {
    session: SESSION,
    generation: 1,
    number: 1,
};
/// Connected, enabled, full speed: what the port's row holds and every reading is.
const READING: u32 = 0x403;
/// The error of a completion has a message number that no line shows.
const MESSAGE: u16 = 100;

/// A paper's size is refused.
pub const WRONG_SIZE: u16 = 56;
/// An event is damaged.
pub const DAMAGED: u16 = 57;

/// What the key program prints for a paper.
#[derive(Debug, Clone, PartialEq, Eq)]
pub enum Key {
    WrongSize,
    Lines(Vec<Line>),
}

#[derive(Debug, Clone, Copy, PartialEq, Eq)]
pub struct Line {
    pub index: usize,
    /// 0 where the call was not refused.
    pub refusal: u16,
    /// P, C, F, A or -.
    pub letter: char,
    pub held: u64,
}

impl Display for Key {
    fn fmt(&self, f: &mut Formatter<'_>) -> fmt::Result {
        match self {
            Self::WrongSize => writeln!(f, "{WRONG_SIZE}"),
            Self::Lines(lines) => lines.iter().try_for_each(|line| writeln!(f, "{line}")),
        }
    }
}

impl Display for Line {
    fn fmt(&self, f: &mut Formatter<'_>) -> fmt::Result {
        let (index, refusal) = (self.index, self.refusal);
        write!(f, "{index} {refusal} {} {}", self.letter, self.held)
    }
}

/// The events of a paper; none where its size is refused.
pub fn events(paper: &[u8]) -> Option<Vec<Event>> {
    let (events, rest) = paper.as_chunks::<BYTES>();
    let good = rest.is_empty() && paper.len() <= MOST_BYTES;
    good.then(|| events.iter().copied().map(Event::decode).collect())
}

/// The key of a paper, by a side made anew.
pub fn key(side: &mut dyn Side, paper: &[u8]) -> Result<Key, String> {
    let Some(events) = events(paper) else {
        return Ok(Key::WrongSize);
    };
    let mut session = PaperSession::open(side)?;
    let mut lines = Vec::new();
    for event in &events {
        let line = session.event(event)?;
        lines.push(line);
        if line.refusal == DAMAGED {
            break;
        }
    }
    Ok(Key::Lines(lines))
}

/// The session in which a paper is sat.
pub struct PaperSession<'a> {
    side: &'a mut dyn Side,
    index: usize,
    /// The next id's sequence number, which is its token too.
    next: u64,
    held: u64,
}

impl<'a> PaperSession<'a> {
    /// Session 1, Initialized, a device in every slot.
    pub fn open(side: &'a mut dyn Side) -> Result<Self, String> {
        for call in setting() {
            let answer = side.apply(&call)?;
            if answer.outcome != Outcome::Done {
                return Err(format!("`{call}` is answered by `{answer}`"));
            }
        }
        Ok(Self {
            side,
            index: 0,
            next: 0,
            held: 0,
        })
    }

    /// Makes the event's calls. After a damaged event none is to follow.
    pub fn event(&mut self, event: &Event) -> Result<Line, String> {
        let (refusal, letter) = match event.good_kind() {
            None => (DAMAGED, '-'),
            Some(Kind::Submit) => self.submit(event)?,
            Some(kind) => self.call_row(kind, event)?,
        };
        let line = Line {
            index: self.index,
            refusal,
            letter,
            held: self.held,
        };
        self.index += 1;
        Ok(line)
    }

    fn submit(&mut self, event: &Event) -> Result<(u16, char), String> {
        let answer = self.apply(&Call::Submit(submission(event, self.next)))?;
        let refusal = refusal(&answer);
        if refusal != 0 {
            return Ok((refusal, '-'));
        }
        let id = request_id(self.next);
        let row = self.row(id)?;
        if !matches!(&answer.outcome, Outcome::Row(told) if told.id == id) || row.is_none() {
            return Err(format!(
                "a submission of number {} gave `{answer}`",
                self.next
            ));
        }
        self.next += 1;
        Ok((0, letter(row.as_ref())))
    }

    fn call_row(&mut self, kind: Kind, event: &Event) -> Result<(u16, char), String> {
        let id = request_id(event.sequence.into());
        let call = match kind {
            Kind::Submit => unreachable!("handled by the caller"),
            Kind::Poll => Call::Poll {
                id,
                reply: poll_reply(event),
            },
            Kind::Cancel => Call::Cancel(id),
            Kind::Timeout => Call::Timeout(id),
            Kind::Reclaim => Call::Reclaim(id),
            Kind::Abort => Call::Recover {
                id,
                kind: Recovery::Abort,
                reply: Ok(AbortResult {
                    completed: Vec::new(),
                    aborted: self.affected(id)?,
                    ready: true,
                    error: None,
                }),
            },
        };
        let refusal = refusal(&self.apply(&call)?);
        Ok((refusal, letter(self.row(id)?.as_ref())))
    }

    /// The tokens of the held rows of the id's device and endpoint, by ascending
    /// id. The side refuses any others (46).
    fn affected(&mut self, id: RequestId) -> Result<Vec<u64>, String> {
        let Some(target) = self.row(id)? else {
            return Ok(Vec::new());
        };
        let rows = match self.apply(&Call::Reports)?.outcome {
            Outcome::Rows(rows) => rows,
            outcome => return Err(format!("`reports` is answered by `{outcome}`")),
        };
        let place = |row: &Row| (row.device, row.endpoint);
        let affected = rows
            .iter()
            .filter(|row| row.state.is_held() && place(row) == place(&target));
        Ok(affected.map(|row| row.id.sequence).collect())
    }

    /// The row of an id, as the side reports it.
    fn row(&mut self, id: RequestId) -> Result<Option<Row>, String> {
        match self.apply(&Call::Report(id))?.outcome {
            Outcome::Row(row) => Ok(Some(*row)),
            Outcome::Refused { number: 40, .. } => Ok(None),
            outcome => Err(format!("the report of {id} is `{outcome}`")),
        }
    }

    fn apply(&mut self, call: &Call) -> Result<Answer, String> {
        let answer = self.side.apply(call)?;
        self.held = answer.held;
        Ok(answer)
    }
}

/// The calls before a paper's first event.
fn setting() -> Vec<Call> {
    let store = Call::Store {
        rows: ROWS,
        bytes: ROW_BYTES,
    };
    let open = Call::Open(Open {
        session: SESSION,
        sequence: 0,
        revision: Some(0),
        ports: Some(1),
    });
    let port = Call::Port {
        number: PORT.number,
        generation: PORT.generation,
        reading: Some(READING),
    };
    let devices = (0..=u8::MAX).flat_map(|slot| {
        let device = Call::Device {
            id: device_id(slot),
            port: PORT,
            state: DeviceState::Configured,
        };
        let list = (0x81..=0x8f).map(|endpoint| (endpoint, TransferType::Bulk));
        let endpoints = Call::Endpoints {
            slot,
            list: list.collect(),
        };
        [device, endpoints]
    });
    [store, open, port]
        .into_iter()
        .chain(devices)
        .chain([Call::Acquire(Ok(())), Call::Initialise(Ok(()))])
        .collect()
}

fn submission(event: &Event, token: u64) -> Submit {
    Submit {
        device: device_id(event.slot),
        endpoint: event.endpoint,
        transfer_type: TransferType::Bulk,
        direction: Direction::In,
        length: event.length.into(),
        setup: None,
        data: Data::Zeros(0),
        packets: None,
        readings: [Ok(READING); 2],
        reply: Ok(token),
    }
}

/// Its length is the event's, its data at most a row.
fn poll_reply(event: &Event) -> PollReply {
    if !event.has(PRESENT) {
        return Ok(None);
    }
    let length = u64::from(event.length);
    let code = Some(event.code.into());
    let error = Error {
        category: Category::RecoveryRequired,
        message: MESSAGE,
        os_code: None,
        completion_code: code,
    };
    Ok(Some(Completion {
        length: Some(length),
        code,
        data: Some(Data::Zeros(length.min(ROW_BYTES) as usize)),
        error: event.has(ERROR).then_some(error),
        quiescent: event.has(QUIESCENT),
    }))
}

fn request_id(sequence: u64) -> RequestId {
    RequestId {
        session: SESSION,
        generation: 0,
        sequence,
    }
}

fn device_id(slot: u8) -> DeviceId {
    DeviceId {
        session: SESSION,
        generation: 0,
        slot,
    }
}

fn refusal(answer: &Answer) -> u16 {
    match answer.outcome {
        Outcome::Refused { number, .. } => number,
        _ => 0,
    }
}

fn letter(row: Option<&Row>) -> char {
    match row.map(|row| &row.state) {
        None => '-',
        Some(RowState::Pending { .. }) => 'P',
        Some(RowState::Completed { .. }) => 'C',
        Some(RowState::Failed { .. }) => 'F',
        Some(RowState::Aborted) => 'A',
    }
}
