//! Sound states made directly and not by a history.

use super::generator::{Generator, Profile, KINDS};
use super::tally::Tally;
use super::Share;
use second::harness::{near, random_sound_state};
use second::state::LAST_SWEEP;

const STATES: u64 = 20_000;

/// Each state gets a request of every kind, each from the state itself, and then a few after one another.
pub fn sound(share: Share) -> Tally {
    share.run(share.of(STATES), |pair, _, seed| {
        let mut generator = Generator::new(seed, Profile::Mixed);
        let mut state = random_sound_state(&mut generator.random);
        assert!(state.is_sound(), "a state made sound is sound, seed {seed:#X}");
        generator.clock = near(&mut generator.random, state.control[LAST_SWEEP], 700);
        generator.wild_clocks = true;
        let context = format!("sound state, seed {seed:#X}");
        pair.start(&state, &context);
        for kind in 0..KINDS {
            let step = generator.of_kind(kind, &state);
            pair.step(&step);
            if pair.memory() != &state {
                pair.restart(&state, &context);
            }
        }
        for _ in 0..4 {
            let step = generator.next(pair.memory());
            pair.step(&step);
        }
    })
}
