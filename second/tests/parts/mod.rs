//! The parts of the differential test. Each part runs its share of the work for one of the workers.

pub mod breakers;
pub mod config_reading;
pub mod config_texts;
pub mod configs;
pub mod files;
pub mod generator;
pub mod histories;
pub mod lookups;
pub mod merges;
pub mod messages;
pub mod pair;
pub mod states;
pub mod store_files;
pub mod tally;
pub mod tray_checks;
pub mod trays;
pub mod unsound;

use pair::Pair;
use tally::Tally;

/// How many workers share each part.
pub const WORKERS: u64 = 2;

/// One worker's share of a part: which worker it is, the seed and how much to do.
#[derive(Clone, Copy)]
pub struct Share {
    pub worker: u64,
    pub seed: u64,
    pub scale: u64,
}

impl Share {
    /// This worker's part of an amount that all workers do together.
    pub fn of(&self, amount: u64) -> u64 {
        (amount * self.scale).div_ceil(WORKERS)
    }

    /// A seed of its own for a place in a part.
    pub fn seed_for(&self, place: u64) -> u64 {
        self.seed
            .wrapping_mul(0x0001_0000_01B3)
            .wrapping_add(self.worker << 56)
            .wrapping_add(place.wrapping_mul(0x9E37_79B1))
    }

    /// Runs this many places in one pair, each with its number and a seed of its own.
    pub fn run(&self, places: u64, mut one: impl FnMut(&mut Pair, u64, u64)) -> Tally {
        let mut pair = Pair::new(self.seed_for(0));
        for place in 0..places {
            one(&mut pair, place, self.seed_for(place + 1));
        }
        pair.tally
    }
}
