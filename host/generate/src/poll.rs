//! Polls, with every kind of completion.
use oracle::RowView;
use script::{Call, Completion, PollReply};

use crate::phase::Phase;
use crate::values;
use crate::world::World;

impl World {
    pub fn poll(&mut self, rows: &[RowView]) -> Call {
        let id = self.pick_id(rows, |row| row.pending);
        let requested = rows.iter().find(|row| row.id == id);
        let requested = requested.map_or(8, |row| row.length);
        Call::Poll {
            id,
            reply: self.poll_reply(requested),
        }
    }

    fn poll_reply(&mut self, requested: u64) -> PollReply {
        let rng = &mut self.rng;
        let (nothing, valid, quiescent, stall, failed, invalid, error) = match self.phase {
            Phase::Hold => (90, 9, 1, 0, 0, 0, 0),
            Phase::Fill => (1, 94, 5, 0, 0, 0, 0),
            Phase::Stalls => (30, 20, 10, 22, 6, 8, 4),
            _ => (25, 45, 8, 6, 4, 6, 6),
        };
        let kind = rng.weighted(&[
            (nothing, 0),
            (valid, 1),
            (quiescent, 2),
            (stall, 3),
            (failed, 4),
            (invalid, 5),
            (error, 6),
        ]);
        let completion: Completion = match kind {
            0 => return Ok(None),
            1 => values::valid_completion(rng, requested),
            2 => values::failed_completion(rng, true),
            3 => values::stall(rng),
            4 if rng.chance(50) => values::near_stall(rng),
            4 => values::failed_completion(rng, false),
            5 => values::invalid_completion(rng, requested),
            _ => return Err(values::error(rng)),
        };
        Ok(Some(completion))
    }
}
