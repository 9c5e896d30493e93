//! Smaller stores: their sizes, and lengths about their limit.
use seeded::Rng;

use crate::bounded::StoreSize;
use crate::values;
use crate::world::World;

impl World {
    /// 1 to 200 rows of 1 to 4,096 bytes, the smallest more often than chance
    /// would have them.
    pub fn small_store(&mut self) -> StoreSize {
        let rng = &mut self.rng;
        let some = |rng: &mut Rng, most| 1 + rng.below(most) as u64;
        let rows = match rng.below(10) {
            0 | 1 => 1,
            2 => 2,
            3..6 => some(rng, 16),
            6 => rng.pick(&[127, 128, 129, 200]),
            _ => some(rng, 200),
        };
        let bytes = match rng.below(8) {
            0 => 1,
            1 => 8,
            2 => 64,
            3 => 4_096,
            4 => some(rng, 64),
            _ => some(rng, 4_096),
        };
        StoreSize { rows, bytes }
    }

    /// Whether all rows are used, or nearly.
    pub fn is_full(&mut self, rows: usize) -> bool {
        match self.store {
            StoreSize::WHOLE => rows >= 1_000,
            store => rows as u64 >= store.rows && self.rng.chance(50),
        }
    }

    /// A request's length; in a smaller store mostly one that its row takes.
    pub fn length(&mut self, most: u64) -> u64 {
        let length = values::length(&mut self.rng, most);
        if self.store == StoreSize::WHOLE {
            return length;
        }
        match self.rng.below(12) {
            0 => self.store.bytes,
            1 => self.store.bytes + 1,
            2 => length,
            _ => length.min(self.store.bytes),
        }
    }
}
