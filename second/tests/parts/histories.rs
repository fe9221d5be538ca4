//! Long random histories from a fresh state.

use super::generator::{Generator, Profile, PROFILES};
use super::pair::{Pair, Step};
use super::tally::Tally;
use super::Share;
use second::harness::{self, OwnedMemory};
use second::state::{LAST_SWEEP, NEXT_IDENTIFIER};

const REQUESTS: u64 = 220_000;
const HISTORY: u64 = 2_500;

/// Histories of every profile, with clocks from the start, the middle and the end of their range.
pub fn random(share: Share) -> Tally {
    share.run(share.of(REQUESTS).div_ceil(HISTORY), |pair, history, seed| {
        let profile = PROFILES[(history % PROFILES.len() as u64) as usize];
        one(pair, seed, profile, history);
    })
}

fn one(pair: &mut Pair, seed: u64, profile: Profile, history: u64) {
    let mut generator = Generator::new(seed, profile);
    generator.wild_clocks = history % 5 == 4;
    generator.clock = match history % 4 {
        0 | 1 => 0,
        2 => generator.random.word(),
        _ => u32::MAX - generator.random.below(8_000) as u32,
    };
    // Fresh but for the next identifier and the last sweep, which every number fits.
    let mut start = OwnedMemory::fresh();
    if history % 3 == 1 {
        start.control[NEXT_IDENTIFIER] = generator.random.between(65_500, 65_535) as u32;
    }
    if history % 4 >= 2 {
        start.control[LAST_SWEEP] = generator.clock.saturating_sub(generator.random.below(100) as u32);
    }
    pair.start(&start, &format!("history {profile:?}, seed {seed:#X}"));
    for _ in 0..HISTORY {
        // In every third history the next identifier is set back now and then, so that used ones must be skipped.
        if history % 3 == 2 && generator.random.chance(2) {
            set_back_identifier(pair, &mut generator);
        }
        let step = generator.next(pair.memory());
        pair.step(&step);
    }
}

/// Sets the next identifier to a used one, or a few before it.
fn set_back_identifier(pair: &mut Pair, generator: &mut Generator) {
    let memory = pair.memory();
    let rows = memory.used_rows();
    if !rows.is_empty() {
        let used = memory.row(generator.random.pick(&rows)).identifier;
        let next = (used + 65_536 - generator.random.below(3) as u32) % 65_536;
        pair.set_next_identifier(next);
    }
}

/// One true history in which the identifiers go round once: some sessions stay open and must be skipped.
pub fn wrap(share: Share) -> Tally {
    let mut pair = Pair::new(share.seed_for(0));
    if share.worker != 0 {
        return pair.tally;
    }
    pair.start(&OwnedMemory::fresh(), "history that wraps");
    let say = |pair: &mut Pair, bytes: Vec<u8>| pair.step(&Step::Message { bytes, clock: 5 });
    for name in [&b"/scan/p"[..], b"/scan/q", b"/scan/r"] {
        assert_eq!(say(&mut pair, harness::open(3, name)), 0);
    }
    for _ in 0..65_540 {
        let session = pair.memory().control[NEXT_IDENTIFIER] as u16;
        assert_eq!(say(&mut pair, harness::open(2, b"/flash/cleanup")), 0);
        let given = match session {
            0..=2 => 3,
            other => other,
        };
        assert_eq!(say(&mut pair, harness::close(given)), 0);
    }
    assert_eq!(pair.memory().control[NEXT_IDENTIFIER], 10);
    pair.tally
}
