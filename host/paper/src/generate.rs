//! Seeded random papers. A side runs in step, so that events aim at rows that
//! are there.
use script::Side;
use seeded::Rng;

use crate::event::{BYTES, ERROR, Event, Kind, LONGEST, PRESENT, QUIESCENT};
use crate::lines::{DAMAGED, Line, MOST_BYTES, PaperSession};

/// The events of the largest paper.
pub const MOST_EVENTS: usize = MOST_BYTES / BYTES;

const GOOD_LENGTHS: [u32; 7] = [0, 1, 2, 64, 255, 256, 256];
const LONG_LENGTHS: [u32; 6] = [257, 300, 65_535, 65_536, 65_537, LONGEST];
/// Each is refused: bits 4 to 6, number 0, direction.
const BAD_ENDPOINTS: [u8; 10] = [0x91, 0xc1, 0xff, 0x10, 0x80, 0x00, 0x01, 0x0f, 0x71, 0xf0];
const CODES: [u8; 6] = [0, 1, 6, 13, 255, 26];

/// What a stretch of a paper has most of.
#[derive(Debug, Clone, Copy)]
enum Stretch {
    Mixed,
    /// Rows are submitted until all are used.
    Fill,
    /// Several rows of one device and endpoint, and aborts.
    Aborts,
}

impl Stretch {
    fn kinds(self) -> [(u32, Kind); 6] {
        let weights = match self {
            Self::Mixed => [27, 31, 7, 7, 23, 5],
            Self::Fill => [70, 14, 3, 3, 8, 2],
            Self::Aborts => [44, 12, 5, 5, 22, 12],
        };
        let mut kinds = weights.into_iter().zip(Kind::ALL);
        std::array::from_fn(|_| kinds.next().expect("as many weights as kinds"))
    }
}

/// Papers by a seed: the same ones everywhere.
pub struct Generator {
    rng: Rng,
}

impl Generator {
    pub fn new(seed: u64) -> Self {
        Self {
            rng: Rng::new(seed),
        }
    }

    /// A paper of any size, now and then of one that is refused.
    pub fn any(&mut self, side: &mut dyn Side) -> Result<Vec<u8>, String> {
        let few = 2 + self.rng.below(14);
        let some = 16 + self.rng.below(200);
        let many = 200 + self.rng.below(1_200);
        let events = self.rng.weighted(&[
            (2, 0),
            (4, 1),
            (25, few),
            (46, some),
            (20, many),
            (1, MOST_EVENTS),
        ]);
        let mut paper = self.paper(side, events)?;
        match self.rng.below(60) {
            0 => paper.truncate(paper.len().saturating_sub(1 + self.rng.below(7))),
            1 => paper.extend(vec![0; 1 + self.rng.below(7)]),
            2..15 if events == MOST_EVENTS => paper.extend([0; BYTES]),
            _ => {}
        }
        Ok(paper)
    }

    /// A paper of so many events; the side's store is that of a paper.
    pub fn paper(&mut self, side: &mut dyn Side, events: usize) -> Result<Vec<u8>, String> {
        let mut writer = Writer::new(&mut self.rng, events);
        let mut session = PaperSession::open(side)?;
        let mut paper = Vec::with_capacity(events * BYTES);
        let mut ended = false;
        for place in 0..events {
            let event = writer.next(place);
            paper.extend(event.encode());
            // What follows a damaged event is never read.
            if !ended {
                let line = session.event(&event)?;
                ended = line.refusal == DAMAGED;
                writer.note(&event, &line);
            }
        }
        Ok(paper)
    }
}

/// A row as the lines tell of it.
#[derive(Debug, Clone, Copy)]
struct Known {
    sequence: u16,
    slot: u8,
    endpoint: u8,
    length: u32,
    pending: bool,
    held: bool,
}

/// Makes a paper's events, one after the other.
struct Writer<'a> {
    rng: &'a mut Rng,
    /// Where marks begin: after one nothing can be submitted or completed.
    marks_from: usize,
    damaged_at: Option<usize>,
    stretch: Stretch,
    slots: [u8; 3],
    endpoints: [u8; 2],
    rows: Vec<Known>,
    gone: Vec<u16>,
    next: u16,
}

impl<'a> Writer<'a> {
    fn new(rng: &'a mut Rng, events: usize) -> Self {
        let [marked, damaged] = [0; 2].map(|_| {
            let late = events - rng.below(events / 8 + 1);
            let anywhere = rng.below(events + 1);
            rng.weighted(&[(3, late), (1, anywhere)])
        });
        let mut writer = Self {
            marks_from: rng.weighted(&[(60, marked), (40, events)]),
            damaged_at: rng.weighted(&[(85, None), (15, Some(damaged))]),
            stretch: Stretch::Mixed,
            slots: [0; 3],
            endpoints: [0; 2],
            rows: Vec::new(),
            gone: Vec::new(),
            next: 0,
            rng,
        };
        writer.turn();
        writer
    }

    /// Another stretch, other devices.
    fn turn(&mut self) {
        let stretches = [
            (5, Stretch::Mixed),
            (2, Stretch::Fill),
            (3, Stretch::Aborts),
        ];
        self.stretch = self.rng.weighted(&stretches);
        self.slots = std::array::from_fn(|_| self.any_byte());
        self.endpoints = std::array::from_fn(|_| self.bulk_endpoint());
        if matches!(self.stretch, Stretch::Aborts) {
            self.slots = [self.slots[0]; 3];
        }
    }

    fn next(&mut self, place: usize) -> Event {
        if self.rng.below(90) == 0 {
            self.turn();
        }
        let kind = self.rng.weighted(&self.stretch.kinds());
        let mut event = match kind {
            Kind::Submit => self.submit(),
            _ => self.of_row(kind, place >= self.marks_from),
        };
        if self.damaged_at == Some(place) {
            self.damage(&mut event);
        }
        event
    }

    fn submit(&mut self) -> Event {
        let slot = match self.rng.chance(85) {
            true => self.rng.pick(&self.slots),
            false => self.any_byte(),
        };
        let any = self.any_byte();
        let usual = self.rng.pick(&self.endpoints);
        let bulk = self.bulk_endpoint();
        let bad = self.rng.pick(&BAD_ENDPOINTS);
        let endpoint = self
            .rng
            .weighted(&[(80, usual), (8, bulk), (8, bad), (4, any)]);
        let good = self.rng.pick(&GOOD_LENGTHS);
        let long = self.rng.pick(&LONG_LENGTHS);
        let any = self.any_length();
        Event {
            kind: Kind::Submit.number(),
            slot,
            endpoint,
            length: self.rng.weighted(&[(88, good), (9, long), (3, any)]),
            ..Event::default()
        }
    }

    /// Mostly with the row's own slot and endpoint, which are not compared.
    fn of_row(&mut self, kind: Kind, may_mark: bool) -> Event {
        let row = self.aim(kind);
        let sequence = row.map_or_else(|| self.other_sequence(), |row| row.sequence);
        let (mut slot, mut endpoint) = (self.any_byte(), self.any_byte());
        if let Some(row) = row.filter(|_| self.rng.chance(70)) {
            (slot, endpoint) = (row.slot, row.endpoint);
        }
        let mut event = Event {
            kind: kind.number(),
            slot,
            endpoint,
            sequence,
            ..Event::default()
        };
        if kind == Kind::Poll {
            let pending = row.filter(|row| row.pending);
            self.set_reply(&mut event, pending, may_mark);
        }
        event
    }

    /// A row that the kind is mostly meant for; any other now and then.
    fn aim(&mut self, kind: Kind) -> Option<Known> {
        let meant = |row: &&Known| match kind {
            Kind::Reclaim => !row.held,
            Kind::Abort => row.held,
            _ => row.pending,
        };
        let fitting: Vec<_> = self.rows.iter().filter(meant).copied().collect();
        match self.rng.below(100) {
            0..=4 => None,
            5..=74 if !fitting.is_empty() => Some(self.rng.pick(&fitting)),
            _ if self.rows.is_empty() => None,
            _ => Some(self.rng.pick(&self.rows)),
        }
    }

    /// One that has just gone, that is next, or that never was.
    fn other_sequence(&mut self) -> u16 {
        let gone = self.gone.len();
        match self.rng.below(4) {
            0 | 1 if gone > 0 => self.gone[gone - 1 - self.rng.below(gone.min(4))],
            2 => self.next,
            3 => self.rng.pick(&[u16::MAX, 256, 8_191]),
            _ => self.rng.next_u64() as u16,
        }
    }

    fn set_reply(&mut self, event: &mut Event, row: Option<Known>, may_mark: bool) {
        // Where nothing is pending the reply is dropped: it may be anything.
        let marks = row.is_none() || may_mark && self.rng.chance(30);
        match (row, self.rng.below(100)) {
            (_, 0..=24) => self.nothing(event),
            (_, 25..) if marks => self.any_completion(event, row),
            (_, 25..=39) => {
                event.flags = PRESENT | ERROR | QUIESCENT;
                event.code = self.code();
                event.length = self.rng.pick(&GOOD_LENGTHS);
            }
            (row, _) => {
                event.flags = PRESENT | QUIESCENT;
                event.code = self.rng.pick(&[1, 13]);
                let requested = row.map_or(0, |row| row.length);
                let less = self.rng.below(requested as usize + 1) as u32;
                let short = self.rng.pick(&[0, less, requested.saturating_sub(1)]);
                event.length = self.rng.weighted(&[(6, requested), (4, short)]);
            }
        }
    }

    /// Without a completion the rest is not read.
    fn nothing(&mut self, event: &mut Event) {
        if self.rng.chance(40) {
            event.code = self.any_byte();
            event.length = self.any_length();
            event.flags = self.rng.below(4) as u8;
        }
    }

    /// Valid or not: of every length, code and flags.
    fn any_completion(&mut self, event: &mut Event, row: Option<Known>) {
        let requested = row.map_or(64, |row| row.length);
        let good = self.rng.pick(&GOOD_LENGTHS);
        let long = self.rng.pick(&LONG_LENGTHS);
        let any = self.any_length();
        event.length = self.rng.weighted(&[
            (4, requested),
            (3, requested + 1),
            (3, good),
            (2, long),
            (1, any),
        ]);
        event.code = self.code();
        event.flags = PRESENT | self.rng.below(4) as u8;
    }

    /// A kind above 5, or a bit of a field that the kind does not use.
    fn damage(&mut self, event: &mut Event) {
        let high = 7 + self.rng.below(9) as u8;
        event.kind = self.rng.weighted(&[
            (4, Kind::Submit.number()),
            (1, Kind::Cancel.number()),
            (1, Kind::Timeout.number()),
            (1, Kind::Reclaim.number()),
            (1, Kind::Abort.number()),
            (1, 6),
            (1, high),
        ]);
        let submit = event.kind == Kind::Submit.number();
        (event.code, event.flags) = (0, 0);
        match submit {
            true => event.sequence = 0,
            false => event.length = 0,
        }
        match self.rng.below(3) {
            0 => event.code = 1 << self.rng.below(8),
            1 => event.flags = 1 << self.rng.below(3),
            _ if submit => event.sequence = 1 << self.rng.below(16),
            _ => event.length = 1 << self.rng.below(17),
        }
    }

    fn any_byte(&mut self) -> u8 {
        let any = self.rng.next_u64() as u8;
        self.rng.weighted(&[(8, any), (1, 0), (1, u8::MAX)])
    }

    fn any_length(&mut self) -> u32 {
        self.rng.next_u64() as u32 & LONGEST
    }

    fn bulk_endpoint(&mut self) -> u8 {
        0x81 + self.rng.below(15) as u8
    }

    fn code(&mut self) -> u8 {
        let (known, any) = (self.rng.pick(&CODES), self.any_byte());
        self.rng.weighted(&[(9, known), (1, any)])
    }

    /// What the line says of the rows.
    fn note(&mut self, event: &Event, line: &Line) {
        let kind = match event.good_kind() {
            Some(kind) if line.refusal == 0 => kind,
            _ => return,
        };
        if kind == Kind::Submit {
            self.rows.push(Known {
                sequence: self.next,
                slot: event.slot,
                endpoint: event.endpoint,
                length: event.length,
                pending: true,
                held: true,
            });
            self.next += 1;
            return;
        }
        let place = self
            .rows
            .iter()
            .position(|it| it.sequence == event.sequence);
        let Some(place) = place else { return };
        match kind {
            Kind::Reclaim => self.gone.push(self.rows.remove(place).sequence),
            Kind::Abort => self.release_all_as(place),
            Kind::Poll if self.rows[place].pending => {
                let row = &mut self.rows[place];
                row.pending = line.letter == 'P';
                let quiet = event.has(ERROR) && event.has(QUIESCENT);
                row.held = row.pending || line.letter == 'F' && !quiet;
            }
            _ => {}
        }
    }

    /// An abort of this row releases those of its device and endpoint.
    fn release_all_as(&mut self, place: usize) {
        let target = self.rows[place];
        for row in &mut self.rows {
            if (row.slot, row.endpoint) == (target.slot, target.endpoint) {
                (row.pending, row.held) = (false, false);
            }
        }
    }
}
