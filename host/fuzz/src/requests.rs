//! The host's submissions, and its backend's replies.
use tapewoad::calls::{Abort, Call, Completion, Plan, Question, Reading, Submit};
use tapewoad::{ControlProfile, Direction, SetupPacket, TransferType};

use crate::host::{ENDPOINTS, Host, Known, SLOTS, Words};

impl Host {
    /// Mostly one that the row takes.
    fn length(&mut self) -> usize {
        match self.rng.below(20) {
            0 => self.row_bytes + 1,
            1 => self.row_bytes,
            2 => 65_536,
            3 => 65_537,
            _ => self.rng.below(self.row_bytes + 1),
        }
    }

    fn slot(&mut self) -> u8 {
        match self.rng.below(30) {
            0 => 9,
            _ => 1 + self.rng.below(usize::from(SLOTS)) as u8,
        }
    }

    fn data(&mut self, length: usize) -> Vec<u8> {
        let length = length.min(self.row_bytes);
        (0..length).map(|_| self.rng.next_u64() as u8).collect()
    }

    fn setup(&mut self, length: usize) -> SetupPacket {
        SetupPacket {
            request_type: self.rng.pick(&[0x80, 0xa1, 0xc0, 0x00, 0x21, 0x40]),
            request: self.rng.pick(&[0, 6, 8]),
            value: self.rng.next_u64() as u16,
            index: 0,
            length: length as u16,
        }
    }

    pub fn submit(&mut self) -> Words {
        let readings = [self.reading(), self.reading()];
        self.submit_of(readings, |submit| {
            Words::from(&Call::SubmitRequestPackets(submit))
        })
    }

    /// With no, one or both readings, as far as they come.
    pub fn submit_wants(&mut self) -> Words {
        let taken = self.rng.below(3);
        let mut readings = [self.reading(), self.reading()];
        readings[taken..].fill_with(|| Err(self.error()));
        self.submit_of(readings, |submit| {
            Words::from(&Question::SubmitWants(submit))
        })
    }

    fn submit_of(&mut self, readings: [Reading; 2], make: impl Fn(Submit<'_>) -> Words) -> Words {
        let length = self.length();
        let control = self.rng.chance(20);
        let bare = self.rng.chance(3);
        let setup = (control && !bare).then(|| self.setup(length));
        let (endpoint, transfer_type) = match control {
            true => (0, TransferType::Control),
            false => self.rng.pick(&ENDPOINTS),
        };
        let direction = direction(setup.map_or(endpoint, |setup| setup.request_type));
        let data = match direction {
            Direction::In => Vec::new(),
            Direction::Out => self.data(length),
        };
        let packets = [length as u64 / 2, length as u64 - length as u64 / 2];
        let given = transfer_type == TransferType::Isochronous && self.rng.chance(60);
        let slot = self.slot();
        make(Submit {
            device: self.device_id(slot),
            endpoint,
            transfer_type,
            direction,
            length: length as u64,
            setup,
            data: &data,
            packets: given.then_some(&packets),
            readings,
        })
    }

    pub fn plan(&mut self) -> Words {
        let reading = self.reading();
        self.plan_of(reading, |plan| Words::from(&Call::SubmitControlPlan(plan)))
    }

    /// With its reading, or without.
    pub fn plan_wants(&mut self) -> Words {
        let reading = match self.rng.chance(50) {
            true => self.reading(),
            false => Err(self.error()),
        };
        self.plan_of(reading, |plan| Words::from(&Question::PlanWants(plan)))
    }

    fn plan_of(&mut self, reading: Reading, make: impl Fn(Plan<'_>) -> Words) -> Words {
        let length = self.length().min(65_535);
        let setup = self.setup(length);
        let direction = direction(setup.request_type);
        let data = match direction {
            Direction::In => Vec::new(),
            Direction::Out => self.data(length),
        };
        let status = match (direction, length) {
            (Direction::In, 1..) => Direction::Out,
            _ => Direction::In,
        };
        let slot = self.slot();
        let plan = Plan {
            device: self.device_id(slot),
            profile: self.rng.pick(&[
                ControlProfile::Compliant,
                ControlProfile::DeviceCompatibility,
            ]),
            setup,
            data_stage: (length > 0).then_some((direction, length as u64)),
            status_direction: self.rng.weighted(&[(9, Some(status)), (1, None)]),
            data: &data,
            reading,
        };
        make(plan)
    }

    pub fn submit_reply(&mut self) -> Words {
        self.next_token += 1;
        let token = match self.rng.chance(10) {
            true => 1,
            false => self.next_token,
        };
        let reply = match self.rng.chance(10) {
            true => Err(self.error()),
            false => Ok(token),
        };
        Words::from(&Call::SubmitReply(reply))
    }

    pub fn poll_reply(&mut self) -> Words {
        let length = match self.known.is_empty() {
            true => 0,
            false => self.rng.pick(&self.known).length,
        };
        let data = self.data(length as usize);
        let reply = match self.rng.below(10) {
            0 => Ok(None),
            1 => Err(self.error()),
            _ => Ok(Some(self.completion(&data))),
        };
        Words::from(&Call::PollReply(reply))
    }

    /// Mostly valid if the data are not too long.
    fn completion<'a>(&mut self, data: &'a [u8]) -> Completion<'a> {
        let mut done = Completion {
            actual_length: Some(data.len() as u64),
            completion_code: Some(self.rng.pick(&[1, 13])),
            data: Some(data),
            error: None,
            quiescent: true,
        };
        match self.rng.below(16) {
            0 => done.actual_length = None,
            1 => done.completion_code = self.rng.pick(&[None, Some(6)]),
            2 => done.data = None,
            3 => done.quiescent = false,
            4 | 5 => {
                done.error = Some(self.error());
                done.completion_code = Some(6);
                done.quiescent = self.rng.chance(50);
            }
            _ => {}
        }
        done
    }

    /// The affected tokens, each completed or aborted; sometimes fewer or more.
    pub fn recovery_reply(&mut self) -> Words {
        if self.rng.chance(8) {
            return Words::from(&Call::RecoveryReply(Err(self.error())));
        }
        let mut tokens = self.affected.clone();
        tokens.sort_unstable();
        tokens.dedup();
        match self.rng.below(10) {
            0 => drop(tokens.pop()),
            1 => tokens.push(self.rng.pick(&[1, 424_242])),
            _ => {}
        }
        let completes = self.rng.pick(&[0, 40, 90]);
        let (done, aborted): (Vec<_>, Vec<_>) =
            tokens.into_iter().partition(|_| self.rng.chance(completes));
        let data: Vec<_> = done.iter().map(|token| self.data_of(*token)).collect();
        let completed: Vec<_> = done
            .iter()
            .zip(&data)
            .map(|(token, data)| (*token, self.completion(data)))
            .collect();
        Words::from(&Call::RecoveryReply(Ok(Abort {
            completed: &completed,
            aborted: &aborted,
            restart_ready: self.rng.chance(85),
            error: match self.rng.chance(10) {
                true => Some(self.error()),
                false => None,
            },
        })))
    }

    fn data_of(&mut self, token: u64) -> Vec<u8> {
        let of = |known: &&Known| known.token == token;
        let length = self.known.iter().find(of).map_or(0, |known| known.length);
        let part = self.rng.below(length as usize + 1);
        self.data(part)
    }
}

fn direction(byte: u8) -> Direction {
    match byte & 0x80 {
        0 => Direction::Out,
        _ => Direction::In,
    }
}
