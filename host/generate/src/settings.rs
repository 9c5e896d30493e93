//! Openings, devices, ports, endpoints, and the session's own calls.
use oracle::{Oracle, RowView};
use script::{
    Call, ControllerState, DeviceId, DeviceState, Open, PortId, PortRow, Reading, TransferType,
};

use crate::Mix;
use crate::bounded::StoreSize;
use crate::phase::Phase;
use crate::values;
use crate::world::{Device, World};

/// Port words: connected and enabled at full, low, high and super speed.
pub const WORDS: [u32; 4] = [0x403, 0x803, 0xc03, 0x1003];
/// What may change in a word without a new connection.
const NOISE: [u32; 5] = [0, 0, 1 << 4, 1 << 31, 0x00fe_0000];

/// Each number in both directions, so that the whole endpoint byte counts.
pub const ENDPOINTS: [(u8, TransferType); 8] = [
    (0x81, TransferType::Bulk),
    (0x01, TransferType::Bulk),
    (0x82, TransferType::Interrupt),
    (0x02, TransferType::Interrupt),
    (0x83, TransferType::Isochronous),
    (0x03, TransferType::Isochronous),
    (0x8f, TransferType::Bulk),
    (0x04, TransferType::Control),
];

impl World {
    /// Queues an opening and the settings that make it useful.
    pub fn plan_opening(&mut self) {
        let open = self.opening();
        self.queue.clear();
        let (session, ports) = (open.session, open.ports);
        self.queue_opening(open);
        // One endpoint alone lets a recovery affect all of 128 held rows.
        self.alone = self.phase == Phase::Hold && self.rng.chance(50);
        self.distinct = self.alone && self.rng.chance(50);
        let count = if self.alone {
            1
        } else {
            ports.unwrap_or(1).min(4)
        };
        for number in 1..=count.max(1) {
            let generation = self.port_generation();
            let list = if self.alone {
                &ENDPOINTS[..1]
            } else {
                &ENDPOINTS
            };
            self.plan_device(session, number, generation, list);
        }
        if self.phase != Phase::Lifecycle {
            self.queue.push_back(Call::Acquire(Ok(())));
            self.queue.push_back(Call::Initialise(Ok(())));
        }
    }

    /// Queues an opening and its store, and forgets what was set before.
    pub fn queue_opening(&mut self, open: Open) {
        self.episode.clear();
        self.devices.clear();
        self.endpoints.clear();
        self.marked.clear();
        if self.small_stores {
            self.store = self.small_store();
            let StoreSize { rows, bytes } = self.store;
            self.queue.push_back(Call::Store { rows, bytes });
        }
        self.queue.push_back(Call::Open(open));
    }

    fn opening(&mut self) -> Open {
        let limits = self.phase == Phase::Limits;
        let rng = &mut self.rng;
        let session = rng.weighted(&[(8, 1), (4, 7), (1, 0), (1, u64::MAX)]);
        let few = rng.below(4) as u64;
        let sequence = match limits && rng.chance(40) {
            true => u64::MAX - few,
            false => rng.weighted(&[(9, 0), (1, 300)]),
        };
        let revision = match limits && rng.chance(50) {
            true => rng.weighted(&[(1, None), (4, Some(u64::MAX - few))]),
            false => Some(rng.weighted(&[(9, 0), (1, 41)])),
        };
        let bare = matches!(self.phase, Phase::Ports | Phase::Lifecycle | Phase::Mixed);
        let ports = match bare && rng.chance(14) {
            true => rng.weighted(&[(2, None), (1, Some(0))]),
            false => Some(rng.weighted(&[(4, 3), (4, 4), (1, 1), (1, 10), (1, 255)])),
        };
        Open {
            session,
            sequence,
            revision,
            ports,
        }
    }

    fn port_generation(&mut self) -> u64 {
        let most = if self.phase == Phase::Limits { 4 } else { 0 };
        self.rng
            .weighted(&[(8, 1), (2, 2), (most, u64::MAX), (most, u64::MAX - 1)])
    }

    /// A port, a device on it, and the device's endpoints.
    pub fn plan_device(
        &mut self,
        session: u64,
        number: u8,
        generation: u64,
        list: &[(u8, TransferType)],
    ) {
        let slot = self.rng.weighted(&[(20, number), (1, 255), (1, 0)]);
        let other = u32::from(!self.phase.is_steady());
        let speed = if self.rng.chance(85) {
            0
        } else {
            self.rng.below(4)
        };
        self.queue.push_back(Call::Port {
            number,
            generation,
            reading: Some(WORDS[speed]),
        });
        let device = Device {
            id: DeviceId {
                session,
                generation: self.rng.below(3) as u64,
                slot,
            },
            port: PortId {
                session,
                generation,
                number,
            },
            state: self.rng.weighted(&[
                (16, DeviceState::Configured),
                (other, DeviceState::Addressed),
                (other, DeviceState::DefaultAddress),
            ]),
        };
        let call = self.note_device(device);
        self.queue.push_back(call);
        let call = self.endpoints_of(slot, list.to_vec());
        self.queue.push_back(call);
    }

    pub fn note_device(&mut self, device: Device) -> Call {
        self.devices.retain(|other| other.id.slot != device.id.slot);
        self.devices.push(device);
        Call::Device {
            id: device.id,
            port: device.port,
            state: device.state,
        }
    }

    pub fn endpoints_of(&mut self, slot: u8, list: Vec<(u8, TransferType)>) -> Call {
        self.endpoints.retain(|(other, _, _)| *other != slot);
        let placed = list.iter().map(|(address, kind)| (slot, *address, *kind));
        self.endpoints.extend(placed);
        Call::Endpoints { slot, list }
    }

    pub fn set_endpoints(&mut self) -> Call {
        let slot = match self.devices.is_empty() {
            true => 1,
            false => self.rng.pick(&self.devices).id.slot,
        };
        let list = match self.rng.below(6) {
            0 => Vec::new(),
            1 => ENDPOINTS[..self.rng.below(ENDPOINTS.len())].to_vec(),
            2 => (1..=30).map(|n| (0x80 | n, TransferType::Bulk)).collect(),
            _ => ENDPOINTS.to_vec(),
        };
        self.endpoints_of(slot, list)
    }

    /// A device: mostly one that can be used, else off in one place.
    pub fn set_device(&mut self, oracle: &Oracle) -> Call {
        let number = 1 + self.rng.below(4) as u8;
        let row = self.port_row(oracle, number);
        let mut device = Device {
            id: DeviceId {
                session: self.opening,
                generation: self.rng.below(4) as u64,
                slot: self.rng.weighted(&[(12, number), (1, 9), (1, 255)]),
            },
            port: PortId {
                session: self.opening,
                generation: row.map_or(1, |row| row.generation),
                number,
            },
            state: DeviceState::Configured,
        };
        let states = [
            DeviceState::Observed,
            DeviceState::PortReset,
            DeviceState::SlotEnabled,
            DeviceState::DefaultAddress,
            DeviceState::Addressed,
            DeviceState::Disconnected,
        ];
        match self.rng.below(16) {
            0 => device.port.number = self.rng.pick(&[0, 5, 11, 255]),
            1 => device.port.generation = device.port.generation.wrapping_add(1),
            2 => device.port.session = device.port.session.wrapping_add(1),
            3..7 => device.state = self.rng.pick(&states),
            7 => device.id.session = device.id.session.wrapping_add(1),
            _ => {}
        }
        self.note_device(device)
    }

    /// A call that makes a device usable again whose port has moved on, or
    /// whose slot is marked.
    pub fn repair(&mut self, oracle: &Oracle) -> Option<Call> {
        let stale = self.devices.iter().find_map(|device| {
            let row = self.port_row(oracle, device.port.number)?;
            let same =
                row.generation == device.port.generation && device.port.session == self.opening;
            (!same).then_some((*device, row))
        });
        if let Some((mut device, row)) = stale {
            device.port.generation = row.generation;
            device.port.session = self.opening;
            device.state = DeviceState::Configured;
            return Some(self.note_device(device));
        }
        let slot = self.marked.pop()?;
        Some(Call::Raw { slot, set: false })
    }

    pub fn port_row(&self, oracle: &Oracle, number: u8) -> Option<PortRow> {
        let ports = oracle.ports()?;
        let index = usize::from(number).checked_sub(1)?;
        ports.rows.get(index).copied()
    }

    pub fn set_port(&mut self, oracle: &Oracle) -> Call {
        let number = self
            .rng
            .weighted(&[(8, 1), (8, 2), (6, 3), (6, 4), (1, 0), (1, 5), (1, 255)]);
        let now = self
            .port_row(oracle, number)
            .map_or(1, |row| row.generation);
        let generation = match self.rng.below(8) {
            0 => u64::MAX,
            1 => u64::MAX - 1,
            2 => 1,
            3 => now.wrapping_add(1),
            _ => now,
        };
        let reading = match self.rng.below(8) {
            0 => None,
            1 => Some(0x2a0),
            2 => Some(self.rng.next_u64() as u32),
            _ => Some(self.rng.pick(&WORDS)),
        };
        Call::Port {
            number,
            generation,
            reading,
        }
    }

    pub fn set_raw(&mut self) -> Call {
        if let Some(slot) = self.marked.pop() {
            return Call::Raw { slot, set: false };
        }
        let slot = self
            .rng
            .weighted(&[(4, 1), (3, 2), (2, 3), (2, 9), (2, 200), (1, 0), (1, 255)]);
        let set = self.rng.chance(80);
        if set {
            self.marked.push(slot);
        }
        Call::Raw { slot, set }
    }

    /// A reading of the port as it stands, disturbed as often as the phase says.
    pub fn reading(&mut self, row: Option<PortRow>) -> Reading {
        let word = row.and_then(|row| row.reading).unwrap_or(WORDS[0]);
        if self.rng.chance(self.phase.disturbed()) {
            return match self.rng.below(3) {
                0 => Err(values::error(&mut self.rng)),
                1 => Ok(word ^ 1),
                _ => Ok(self.rng.next_u64() as u32),
            };
        }
        if !self.phase.is_steady() && self.rng.chance(6) {
            return Ok((word & !0x3c00) | (self.rng.below(6) as u32) << 10);
        }
        Ok(word | self.rng.pick(&NOISE))
    }

    pub fn acquire(&mut self) -> Call {
        if !self.rng.chance(self.phase.failing()) {
            return Call::Acquire(Ok(()));
        }
        let error = values::error(&mut self.rng);
        Call::Acquire(Err((error, self.rng.chance(50))))
    }

    pub fn initialise(&mut self) -> Call {
        if !self.rng.chance(self.phase.failing()) {
            return Call::Initialise(Ok(()));
        }
        Call::Initialise(Err(values::error(&mut self.rng)))
    }

    pub fn close(&mut self) -> Call {
        let fresh = match self.rng.below(12) {
            0 | 1 => None,
            2 => Some(self.session),
            3 => Some(u64::MAX),
            _ => Some(self.session.wrapping_add(1)),
        };
        let reply = match self.rng.chance(self.phase.failing().max(10)) {
            true => Err(values::error(&mut self.rng)),
            false => Ok(()),
        };
        Call::Close { fresh, reply }
    }

    /// The next call on the way back to Initialized.
    pub fn towards_initialized(&mut self, rows: &[RowView]) -> Call {
        match self.state {
            ControllerState::Closed => self.acquire(),
            ControllerState::AcquiredUnknown => self.initialise(),
            _ if self.mix == Mix::Default && self.rng.chance(60) => {
                let reset = self.rng.chance(75);
                self.recover(rows, reset)
            }
            _ => self.close(),
        }
    }
}
