//! Edges that chance alone meets too seldom: the last sequence numbers, port
//! ids of other sessions, every speed code, the last of 30 endpoints, the id of
//! zeros, and a reset that leaves the stalled row.
use oracle::{Oracle, RowView};
use script::{Call, ControllerState, Open, RequestId, TransferType};

use crate::Mix;
use crate::episode::Step;
use crate::settings::{ENDPOINTS, WORDS};
use crate::world::{Device, World};

/// As many as a slot may have.
const MOST_ENDPOINTS: usize = 30;
/// The speed code that is low speed's but for its highest bit.
const NEAR_LOW_SPEED: u32 = 10;
const ZEROS: RequestId = RequestId {
    session: 0,
    generation: 0,
    sequence: 0,
};

impl World {
    /// Queues the last sequences, mostly, and an opening for the other edges.
    pub fn plan_edges(&mut self) {
        self.queue.clear();
        if self.rng.chance(60) {
            self.plan_last_sequences();
        }
        self.plan_small_opening(0);
    }

    /// Submissions up to the last sequence number and past it.
    fn plan_last_sequences(&mut self) {
        let sequence = u64::MAX - 1 - self.rng.below(3) as u64;
        self.plan_small_opening(sequence);
        let device = self.devices[0];
        for _ in 0..5 {
            let call = self.plain_submit(device.id, 0x81, WORDS[0], None);
            self.queue.push_back(call);
        }
    }

    fn plan_small_opening(&mut self, sequence: u64) {
        let session = self.rng.pick(&[1, 2, 7, u64::MAX]);
        self.queue_opening(Open {
            session,
            sequence,
            revision: Some(0),
            ports: Some(2),
        });
        self.plan_device(session, 1, 1, &ENDPOINTS);
        self.queue.push_back(Call::Acquire(Ok(())));
        self.queue.push_back(Call::Initialise(Ok(())));
    }

    /// The first call of an edge, if it is time for one; the others are queued.
    pub fn edge(&mut self, oracle: &Oracle, rows: &[RowView]) -> Option<Call> {
        let ready = self.state == ControllerState::Initialized && self.episode.is_empty();
        if !ready || !self.rng.chance(80) {
            return None;
        }
        let usable = self.usable_devices(oracle);
        let device = *usable.first()?;
        match self.rng.below(5) {
            0 => Some(self.other_session(device)),
            1 => Some(self.any_speed(device)),
            2 => Some(self.last_endpoint(device)),
            3 => Some(self.zeros(rows)),
            _ => self.left_row(device, oracle, rows),
        }
    }

    /// A port id of a lower session number, or of a higher one.
    fn other_session(&mut self, device: Device) -> Call {
        let opening = self.opening;
        let mut moved = device;
        moved.port.session = match self.rng.chance(70) {
            true => self.rng.pick(&[opening.saturating_sub(1), opening / 2, 0]),
            false => self.rng.pick(&[opening.saturating_add(1), u64::MAX]),
        };
        let call = self.note_device(moved);
        let submit = self.plain_submit(device.id, 0x81, WORDS[0], None);
        let back = self.note_device(device);
        self.queue.extend([submit, back]);
        call
    }

    fn any_speed(&mut self, device: Device) -> Call {
        let code = match self.rng.chance(60) {
            true => NEAR_LOW_SPEED,
            false => self.rng.below(16) as u32,
        };
        let endpoint = self.rng.pick(&[0x81, 0x01]);
        self.plain_submit(device.id, endpoint, 3 | code << 10, None)
    }

    /// Every endpoint address there is, in an order that ends anywhere.
    fn last_endpoint(&mut self, device: Device) -> Call {
        let addresses = (0x81..=0x8f).chain(0x01..=0x0f);
        let mut list: Vec<_> = addresses.map(|it| (it, TransferType::Bulk)).collect();
        list.rotate_left(self.rng.below(MOST_ENDPOINTS));
        let (last, _) = list[MOST_ENDPOINTS - 1];
        let submit = self.plain_submit(device.id, last, WORDS[0], None);
        self.queue.push_back(submit);
        self.endpoints_of(device.id.slot, list)
    }

    /// A call by the id of zeros, which free rows have.
    fn zeros(&mut self, rows: &[RowView]) -> Call {
        let recoveries = match self.mix {
            Mix::Default => 2,
            Mix::NoRecovery => 0,
        };
        match self.rng.below(5 + recoveries) {
            0 => Call::Report(ZEROS),
            1 => Call::Cancel(ZEROS),
            2 => Call::Timeout(ZEROS),
            3 => Call::Reclaim(ZEROS),
            4 => Call::Poll {
                id: ZEROS,
                reply: Ok(None),
            },
            kind => self.recover_row(rows, ZEROS, kind == 5),
        }
    }

    /// Two rows of one token, a stall of the second and its reset: the token
    /// means the first, so the second stays Failed and not quiescent.
    fn left_row(&mut self, device: Device, oracle: &Oracle, rows: &[RowView]) -> Option<Call> {
        if self.mix == Mix::NoRecovery {
            return None;
        }
        for equal_token in [false, true] {
            self.episode.push_back(Step::Submit {
                device,
                endpoint: 0x81,
                equal_token,
            });
        }
        self.episode.push_back(Step::Stall(0));
        let (back, reset) = (0, true);
        self.episode.push_back(Step::Recover { back, reset });
        let first = self.episode.pop_front()?;
        self.episode_call(first, oracle, rows)
    }
}
