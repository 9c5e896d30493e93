//! Submissions and plans: right ones, and right ones spoilt in some place.
use oracle::{Oracle, RowView};
use script::{
    Call, Data, DeviceId, Direction, Error, Plan, PortRow, Profile, Setup, Submit, TransferType,
};

use crate::marks::NO_DEVICE;
use crate::phase::Phase;
use crate::values;
use crate::world::{Device, World};

impl World {
    pub fn submit(&mut self, oracle: &Oracle, rows: &[RowView]) -> Call {
        let (device, row) = self.target(oracle);
        let mut submit = self.right_submit(device, row);
        submit.reply = self.token(rows);
        if self.rng.chance(self.phase.wrong()) {
            self.spoil_submit(&mut submit);
            if self.rng.chance(15) {
                self.spoil_submit(&mut submit);
            }
        }
        Call::Submit(submit)
    }

    pub fn plan(&mut self, oracle: &Oracle, rows: &[RowView]) -> Call {
        let (device, row) = self.target(oracle);
        let mut plan = self.right_plan(device, row);
        plan.reply = self.token(rows);
        if self.rng.chance(self.phase.wrong()) {
            self.spoil_plan(&mut plan);
            if self.rng.chance(15) {
                self.spoil_plan(&mut plan);
            }
        }
        Call::Plan(plan)
    }

    /// A device and its port's row.
    fn target(&mut self, oracle: &Oracle) -> (DeviceId, Option<PortRow>) {
        if self.phase == Phase::Marked
            && let Some(device) = self.marked_target()
        {
            return (device, None);
        }
        if self.devices.is_empty() {
            return (NO_DEVICE, None);
        }
        let mut marked = self.marked.iter().copied();
        let bare = marked.find(|slot| !self.is_placed(*slot));
        if let Some(slot) = bare
            && self.rng.chance(40)
        {
            return (DeviceId { slot, ..NO_DEVICE }, None);
        }
        let narrow = self.phase == Phase::Stalls && self.rng.chance(75);
        let count = if narrow { 1 } else { self.devices.len() };
        let device: Device = self.rng.pick(&self.devices[..count]);
        let row = self.port_row(oracle, device.port.number);
        if row.is_none() && self.rng.chance(80) {
            let device: Device = self.rng.pick(&self.devices);
            return (device.id, self.port_row(oracle, device.port.number));
        }
        (device.id, row)
    }

    fn token(&mut self, rows: &[RowView]) -> Result<u64, Error> {
        if self.rng.chance(self.phase.failing()) {
            return Err(values::error(&mut self.rng));
        }
        if !rows.is_empty() && !self.distinct && self.rng.chance(self.phase.equal_tokens()) {
            let last = rows.len().saturating_sub(6);
            return Ok(rows[last + self.rng.below(rows.len() - last)].token);
        }
        if !self.distinct && self.rng.chance(1) {
            return Ok(self.rng.pick(&[0, u64::MAX]));
        }
        self.next_token += 1;
        Ok(self.next_token)
    }

    fn right_submit(&mut self, device: DeviceId, row: Option<PortRow>) -> Submit {
        let mine = self.endpoints.iter().copied();
        let mut mine: Vec<_> = mine.filter(|(slot, _, _)| *slot == device.slot).collect();
        // Few endpoints with many rows each make recoveries worth their name.
        if self.phase == Phase::Stalls && self.rng.chance(85) {
            mine.truncate(2);
        }
        let control = match self.phase {
            _ if self.is_alone() => 0,
            Phase::Stalls => 8,
            _ => 25,
        };
        let choice = match mine.is_empty() || self.rng.chance(control) {
            true => (0, 0, TransferType::Control),
            false => self.rng.pick(&mine),
        };
        let (_, address, transfer_type) = choice;
        let readings = [self.reading(row), self.reading(row)];
        let mut submit = Submit {
            device,
            endpoint: address,
            transfer_type,
            direction: direction_of(address),
            length: self.length(65_536),
            setup: None,
            data: Data::Zeros(0),
            packets: None,
            readings,
            reply: Ok(0),
        };
        if transfer_type == TransferType::Control {
            self.make_control(&mut submit);
        }
        if transfer_type == TransferType::Isochronous && self.rng.chance(60) {
            self.make_packets(&mut submit);
        }
        self.fill(&mut submit);
        submit
    }

    fn make_control(&mut self, submit: &mut Submit) {
        submit.endpoint = 0;
        submit.direction = self.rng.pick(&[Direction::In, Direction::Out]);
        submit.length = submit.length.min(65_535);
        let mut setup = self.setup(submit.length as u16);
        setup.request_type = (setup.request_type & 0x7f) | bit(submit.direction);
        submit.setup = Some(setup);
    }

    fn setup(&mut self, length: u16) -> Setup {
        let kind = self.rng.pick(&[0, 0x20, 0x40]);
        let request = self.rng.pick(&[0, 1, 3, 6, 8, 10, 12, 200]);
        Setup {
            request_type: kind
                | self.rng.below(4) as u8
                | bit(self.rng.pick(&[Direction::In, Direction::Out])),
            request,
            value: self.rng.pick(&[0, 0x0100, 0x0201, 0xffff]),
            index: self.rng.pick(&[0, 1, 0x8100, 0xffff]),
            length,
        }
    }

    /// Packets that sum to the length: a few, or as many as are allowed.
    fn make_packets(&mut self, submit: &mut Submit) {
        let list = match self.rng.below(6) {
            0 => vec![512; 128],
            1 => vec![submit.length],
            2 => {
                let mut list = vec![0; 127];
                list.push(submit.length);
                list
            }
            _ => {
                let first = submit.length / 2;
                vec![first, submit.length - first]
            }
        };
        submit.length = list.iter().sum();
        submit.packets = Some(list);
    }

    /// The data that direction and length want.
    fn fill(&mut self, submit: &mut Submit) {
        submit.data = match submit.direction {
            Direction::In => Data::Zeros(0),
            Direction::Out => values::data(&mut self.rng, submit.length),
        };
    }

    fn spoil_submit(&mut self, submit: &mut Submit) {
        match self.rng.below(4) {
            0 => self.spoil_packets(submit),
            1 => self.spoil_device(&mut submit.device),
            2 => self.spoil_shape(submit),
            _ => self.spoil_control_or_endpoint(submit),
        }
    }

    fn spoil_packets(&mut self, submit: &mut Submit) {
        if self.rng.chance(70) {
            submit.transfer_type = TransferType::Isochronous;
        }
        submit.packets = Some(match self.rng.below(6) {
            0 => {
                submit.length = 0;
                Vec::new()
            }
            1 => vec![u64::MAX, 1],
            2 => {
                submit.length = 129 * 8;
                vec![8; 129]
            }
            3 => vec![submit.length, 1],
            4 => vec![u64::MAX, submit.length.wrapping_add(1)],
            _ => vec![submit.length],
        });
    }

    fn spoil_device(&mut self, device: &mut DeviceId) {
        match self.rng.below(4) {
            0 => device.slot = self.rng.pick(&[0, 9, 77, 255]),
            1 => device.generation = self.rng.pick(&[3, 5, u64::MAX]),
            2 => device.session = device.session.wrapping_add(1),
            _ => device.slot = device.slot.wrapping_add(1),
        }
    }

    fn spoil_shape(&mut self, submit: &mut Submit) {
        match self.rng.below(7) {
            0 => submit.length = self.rng.pick(&[65_537, 65_536, 1 << 32, u64::MAX]),
            1 => submit.endpoint |= self.rng.pick(&[0x10, 0x20, 0x40]),
            2 => submit.direction = other(submit.direction),
            3 => submit.data = Data::Zeros(submit.data.len() + 1),
            4 => submit.length = submit.length.saturating_sub(1),
            5 => {
                submit.length = self.rng.pick(&[65_536, 65_537]);
                self.fill(submit);
            }
            _ => {
                submit.transfer_type = self.rng.pick(&[
                    TransferType::Control,
                    TransferType::Bulk,
                    TransferType::Interrupt,
                    TransferType::Isochronous,
                ])
            }
        }
    }

    fn spoil_control_or_endpoint(&mut self, submit: &mut Submit) {
        let Some(setup) = &mut submit.setup else {
            self.spoil_endpoint(submit);
            return;
        };
        match self.rng.below(8) {
            0 => submit.setup = None,
            1 => setup.length ^= 1,
            2 => setup.request_type ^= 0x80,
            3 => setup.request_type |= 0x60,
            4 => setup.request_type |= self.rng.pick(&[4, 8, 16, 31]),
            5 => submit.endpoint = self.rng.pick(&[1, 0x80, 0x81]),
            _ => {
                setup.request_type &= !0x60;
                setup.request = self.rng.pick(&[5, 9, 11]);
            }
        }
    }

    fn spoil_endpoint(&mut self, submit: &mut Submit) {
        match self.rng.below(5) {
            0 => submit.endpoint &= 0x80,
            1 => submit.setup = Some(self.setup(8)),
            2 => submit.endpoint ^= 0x80,
            3 => {
                submit.endpoint ^= 0x80;
                submit.direction = other(submit.direction);
                self.fill(submit);
            }
            _ => submit.endpoint = (submit.endpoint & 0x80) | 0x0d,
        }
    }

    fn right_plan(&mut self, device: DeviceId, row: Option<PortRow>) -> Plan {
        let length = self.length(65_535);
        let setup = self.setup(length as u16);
        let direction = direction_of(setup.request_type);
        let stage = (length > 0).then_some((direction, length));
        let status = match length > 0 && direction == Direction::In {
            true => Direction::Out,
            false => Direction::In,
        };
        let mut plan = Plan {
            device,
            profile: self
                .rng
                .pick(&[Profile::Compliant, Profile::DeviceCompatibility]),
            setup,
            stage,
            status: Some(status),
            data: Data::Zeros(0),
            reading: self.reading(row),
            reply: Ok(0),
        };
        self.fill_plan(&mut plan);
        plan
    }

    fn fill_plan(&mut self, plan: &mut Plan) {
        plan.data = match plan.stage {
            Some((Direction::Out, length)) => values::data(&mut self.rng, length),
            _ => Data::Zeros(0),
        };
    }

    fn spoil_plan(&mut self, plan: &mut Plan) {
        match self.rng.below(12) {
            0 => plan.status = None,
            1 => plan.status = plan.status.map(other),
            2 => plan.data = Data::Zeros(plan.data.len() + 1),
            3 => self.spoil_device(&mut plan.device),
            4 | 5 => self.spoil_stage(plan),
            6 | 7 => self.spoil_plan_setup(&mut plan.setup),
            8 => plan.profile = Profile::DeviceCompatibility,
            9 => plan.setup.request_type |= self.rng.pick(&[0x60, 4, 0x80, 0x1f]),
            10 => plan.setup.length ^= 1,
            _ => {
                // 65,536 is beyond a SETUP's length but not beyond a stage's.
                plan.stage = Some((self.rng.pick(&[Direction::In, Direction::Out]), 65_536));
                self.fill_plan(plan);
            }
        }
    }

    fn spoil_stage(&mut self, plan: &mut Plan) {
        plan.stage = match self.rng.below(6) {
            0 => None,
            1 => {
                plan.setup.length = 0;
                plan.status = Some(Direction::In);
                Some((direction_of(plan.setup.request_type), 0))
            }
            2 => plan
                .stage
                .map(|(direction, length)| (other(direction), length)),
            3 => Some((Direction::In, self.rng.pick(&[65_537, 1 << 40, u64::MAX]))),
            4 => plan
                .stage
                .map(|(direction, length)| (direction, length.wrapping_add(1))),
            _ => Some((Direction::Out, 65_537)),
        };
        if self.rng.chance(60) && plan.stage.is_none_or(|(_, length)| length <= 65_537) {
            self.fill_plan(plan);
        }
    }

    fn spoil_plan_setup(&mut self, setup: &mut Setup) {
        let (kind, request) = self.rng.pick(&[
            (0x00, 5),
            (0x80, 5),
            (0x20, 5),
            (0x00, 9),
            (0x80, 9),
            (0x01, 11),
            (0x00, 11),
            (0x81, 11),
        ]);
        setup.request_type = kind;
        setup.request = request;
    }
}

fn direction_of(byte: u8) -> Direction {
    match byte & 0x80 {
        0 => Direction::Out,
        _ => Direction::In,
    }
}

fn bit(direction: Direction) -> u8 {
    match direction {
        Direction::In => 0x80,
        Direction::Out => 0,
    }
}

fn other(direction: Direction) -> Direction {
    match direction {
        Direction::In => Direction::Out,
        Direction::Out => Direction::In,
    }
}
