//! Marked slots: 26 comes before 27, so the slot's device need not be there.
use script::{Call, DeviceId};

use crate::world::World;

/// The device of every submission in a session that has none set.
pub const NO_DEVICE: DeviceId = DeviceId {
    session: 1,
    generation: 0,
    slot: 1,
};

/// How many slots are marked at once at most.
const MOST: usize = 3;

impl World {
    pub fn is_placed(&self, slot: u8) -> bool {
        self.devices.iter().any(|device| device.id.slot == slot)
    }

    /// Marks a slot, mostly one without a device, or clears one.
    pub fn mark_slot(&mut self) -> Call {
        if self.marked.len() >= MOST || (!self.marked.is_empty() && self.rng.chance(20)) {
            let slot = self.marked.remove(0);
            return Call::Raw { slot, set: false };
        }
        let slot = match self.devices.is_empty() || self.rng.chance(70) {
            true => self.rng.next_u64() as u8,
            false => self.rng.pick(&self.devices).id.slot,
        };
        if !self.marked.contains(&slot) {
            self.marked.push(slot);
        }
        Call::Raw { slot, set: true }
    }

    /// Queues the calls that clear every mark.
    pub fn clear_marks(&mut self) {
        let clears = self.marked.drain(..);
        self.queue
            .extend(clears.map(|slot| Call::Raw { slot, set: false }));
    }

    /// The device of a submission to a marked slot: any id where the slot has
    /// none, else mostly another than the slot's; or one without device and mark.
    pub fn marked_target(&mut self) -> Option<DeviceId> {
        if self.marked.is_empty() || self.rng.chance(10) {
            let slot = self.rng.next_u64() as u8;
            return (!self.is_placed(slot)).then_some(DeviceId { slot, ..NO_DEVICE });
        }
        let slot = self.rng.pick(&self.marked);
        let own = self.devices.iter().find(|device| device.id.slot == slot);
        let mut id = own.map_or(DeviceId { slot, ..NO_DEVICE }, |device| device.id);
        if self.rng.chance(60) {
            id.generation = id.generation.wrapping_add(1);
        }
        Some(id)
    }
}
