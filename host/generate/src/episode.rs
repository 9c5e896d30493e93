//! Short plans of several calls: a stall beside a row that is like its own in
//! part, then recoveries of either. Chance alone meets these too seldom.
use oracle::{Oracle, RowView};
use script::{Call, Data, DeviceId, DeviceState, Direction, Submit, TransferType};

use crate::values;
use crate::world::{Device, World};

/// One call to come. Rows are counted back from the latest, which is 0.
#[derive(Debug, Clone, Copy)]
pub enum Step {
    Device(Device),
    Submit {
        device: Device,
        endpoint: u8,
        equal_token: bool,
    },
    Stall(usize),
    /// A close that fails, which raises the revision.
    Mark,
    Recover {
        back: usize,
        reset: bool,
    },
}

/// How the second row is like the first.
#[derive(Debug, Clone, Copy, PartialEq, Eq)]
enum Likeness {
    Same,
    OtherEndpoint,
    OtherSlot,
    OtherGeneration,
    OtherSession,
}

impl World {
    /// Plans an episode, if there is a device for it.
    pub fn plan_episode(&mut self, oracle: &Oracle) {
        let usable = self.usable_devices(oracle);
        if usable.is_empty() {
            return;
        }
        let first = self.rng.pick(&usable);
        let likeness = self.rng.pick(&[
            Likeness::Same,
            Likeness::OtherEndpoint,
            Likeness::OtherSlot,
            Likeness::OtherGeneration,
            Likeness::OtherSession,
        ]);
        let mut second = first;
        match likeness {
            Likeness::OtherSlot => second = self.rng.pick(&usable),
            Likeness::OtherGeneration => second.id.generation = first.id.generation.wrapping_add(1),
            Likeness::OtherSession => second.id.session = first.id.session.wrapping_add(1),
            Likeness::Same | Likeness::OtherEndpoint => {}
        }
        self.queue_rows(first, second, likeness);
        self.episode.push_back(Step::Stall(self.rng.below(2)));
        if self.rng.chance(15) {
            self.episode.push_back(Step::Mark);
        }
        for _ in 0..1 + self.rng.below(3) {
            let (back, reset) = (self.rng.below(2), self.rng.chance(60));
            self.episode.push_back(Step::Recover { back, reset });
        }
    }

    fn queue_rows(&mut self, first: Device, second: Device, likeness: Likeness) {
        let equal_token = self.rng.chance(30);
        self.episode.push_back(Step::Submit {
            device: first,
            endpoint: 0x81,
            equal_token: false,
        });
        if second.id.slot == first.id.slot && second.id != first.id {
            self.episode.push_back(Step::Device(second));
        }
        let other = likeness == Likeness::OtherEndpoint;
        self.episode.push_back(Step::Submit {
            device: second,
            endpoint: if other { 0x01 } else { 0x81 },
            equal_token,
        });
    }

    pub fn usable_devices(&self, oracle: &Oracle) -> Vec<Device> {
        let devices = self.devices.iter().copied();
        devices.filter(|it| self.is_usable(oracle, it)).collect()
    }

    /// Whether bulk submissions to its endpoints 81h and 01h may pass.
    fn is_usable(&self, oracle: &Oracle, device: &Device) -> bool {
        let placed = |address| {
            let wanted = (device.id.slot, address, TransferType::Bulk);
            self.endpoints.contains(&wanted)
        };
        let row = self.port_row(oracle, device.port.number);
        device.state == DeviceState::Configured
            && device.port.session == self.opening
            && row.is_some_and(|row| row.generation == device.port.generation)
            && !self.marked.contains(&device.id.slot)
            && placed(0x81)
            && placed(0x01)
    }

    /// The step's call; none if the rows are not as planned.
    pub fn episode_call(&mut self, step: Step, oracle: &Oracle, rows: &[RowView]) -> Option<Call> {
        let row = |back: usize| Some(rows[rows.len().checked_sub(back + 1)?]);
        match step {
            Step::Device(device) => Some(self.note_device(device)),
            Step::Submit {
                device,
                endpoint,
                equal_token,
            } => {
                let word = self.port_row(oracle, device.port.number)?.reading?;
                let latest = row(0).map(|row| row.token).filter(|_| equal_token);
                Some(self.plain_submit(device.id, endpoint, word, latest))
            }
            Step::Stall(back) => Some(Call::Poll {
                id: row(back)?.id,
                reply: Ok(Some(values::stall(&mut self.rng))),
            }),
            Step::Mark => Some(Call::Close {
                fresh: Some(self.session.wrapping_add(1)),
                reply: Err(values::error(&mut self.rng)),
            }),
            Step::Recover { back, reset } => Some(self.recover_row(rows, row(back)?.id, reset)),
        }
    }

    pub fn plain_submit(
        &mut self,
        device: DeviceId,
        endpoint: u8,
        word: u32,
        token: Option<u64>,
    ) -> Call {
        self.next_token += 1;
        let (direction, data) = match endpoint & 0x80 {
            0 => (Direction::Out, Data::Zeros(8)),
            _ => (Direction::In, Data::Zeros(0)),
        };
        Call::Submit(Submit {
            device,
            endpoint,
            transfer_type: TransferType::Bulk,
            direction,
            length: 8,
            setup: None,
            data,
            packets: None,
            readings: [Ok(word), Ok(word)],
            reply: Ok(token.unwrap_or(self.next_token)),
        })
    }
}
