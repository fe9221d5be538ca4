//! Unsound states: each clause broken alone, random damage, and lent lengths.

use super::breakers::BREAKERS;
use super::generator::{Generator, Profile, KINDS, LOAD, OUTCOME, SAVE_PART};
use super::pair::Pair;
use super::tally::Tally;
use super::Share;
use second::harness::{random_sound_state, OwnedMemory, Random};

const BROKEN: u64 = 18_000;
const DAMAGED: u64 = 16_000;
const LENGTH_STATES: u64 = 40;

/// Each clause of soundness broken alone: FF, and nothing changes.
pub fn broken(share: Share) -> Tally {
    share.run(share.of(BROKEN), |pair, place, seed| {
        let (name, breaker) = BREAKERS[(place % BREAKERS.len() as u64) as usize];
        let mut generator = Generator::new(seed, Profile::Mixed);
        let state = loop {
            let mut state = random_sound_state(&mut generator.random);
            if breaker(&mut generator.random, &mut state) {
                break state;
            }
        };
        pair.start(&state, &format!("broken: {name}, seed {seed:#X}"));
        // The same kinds of message come to each breaker in turn, and the other calls always.
        let turn = (place / BREAKERS.len() as u64 % 11) as u8;
        for kind in [turn, (turn + 5) % 11, OUTCOME, SAVE_PART, LOAD] {
            let step = generator.of_kind(kind, &state);
            let code = pair.step(&step);
            assert_eq!(code, 0xFF, "broken: {name}, seed {seed:#X}");
        }
    })
}

/// A few words or bytes of a sound state changed at random: some stay sound, both must agree.
pub fn damaged(share: Share) -> Tally {
    share.run(share.of(DAMAGED), |pair, _, seed| {
        let mut generator = Generator::new(seed, Profile::Mixed);
        let mut state = random_sound_state(&mut generator.random);
        for _ in 0..generator.random.between(1, 3) {
            damage(&mut generator.random, &mut state);
        }
        generator.clock = generator.random.word();
        pair.start(&state, &format!("damaged, seed {seed:#X}"));
        for _ in 0..2 {
            let kind = generator.random.below(u64::from(KINDS)) as u8;
            let step = generator.of_kind(kind, pair.memory());
            pair.step(&step);
        }
    })
}

/// Changes one word or byte.
pub fn damage(random: &mut Random, state: &mut OwnedMemory) {
    match random.below(9) {
        0..=2 => damage_word(random, &mut state.control),
        3..=5 => damage_word(random, &mut state.table),
        6 => damage_byte(random, &mut state.names),
        7 => damage_byte(random, &mut state.committed),
        _ => damage_byte(random, &mut state.staged),
    }
}

fn damage_word(random: &mut Random, words: &mut [u32]) {
    let place = random.below(words.len() as u64) as usize;
    let other = random.below(words.len() as u64) as usize;
    words[place] = match random.below(5) {
        0 => random.word(),
        1 => random.below(24) as u32,
        2 => words[other],
        _ => words[place] ^ 1 << random.below(32),
    };
}

fn damage_byte(random: &mut Random, bytes: &mut [u8]) {
    let place = random.below(bytes.len() as u64) as usize;
    let other = random.below(bytes.len() as u64) as usize;
    bytes[place] = match random.below(3) {
        0 => random.byte(),
        1 => bytes[other],
        _ => bytes[place] ^ 1 << random.below(8),
    };
}

/// Each lent length one short, one long, zero and another: FF, and nothing changes.
pub fn lengths(share: Share) -> Tally {
    share.run(share.of(LENGTH_STATES), |pair, place, seed| {
        let mut generator = Generator::new(seed, Profile::Mixed);
        let state = if place == 0 {
            OwnedMemory::fresh()
        } else {
            random_sound_state(&mut generator.random)
        };
        // Behind the slices of the state comes the answer buffer.
        for slice in 0..=SLICES {
            for how in 0..4 {
                one_length(pair, &mut generator, &state, slice, how, seed);
            }
        }
    })
}

fn one_length(pair: &mut Pair, generator: &mut Generator, state: &OwnedMemory, slice: u64, how: u64, seed: u64) {
    let mut other = state.clone();
    let any = generator.random.below(200) as usize;
    if slice < SLICES {
        resize_slice(&mut other, slice, how, any);
    } else {
        let mut answer = vec![0; 64];
        resize(&mut answer, how, any);
        pair.answer_length = answer.len();
    }
    let exact = &other == state && pair.answer_length == 64;
    pair.start(&other, &format!("length of slice {slice}, way {how}, seed {seed:#X}"));
    for kind in 0..KINDS {
        // The generator looks at the whole state; the request goes to the other.
        let step = generator.of_kind(kind, state);
        let code = pair.step(&step);
        // Only messages have an answer buffer.
        let no_message = slice == SLICES && kind >= OUTCOME;
        assert!(
            exact || no_message || code == 0xFF,
            "length of slice {slice}, way {how}, seed {seed:#X}"
        );
    }
    pair.answer_length = 64;
}

/// The slices that a state is lent in.
const SLICES: u64 = 7;

/// One slice of a state, by its number in the order in which they are lent, becomes one short, one long, empty, or of this length.
pub fn resize_slice(memory: &mut OwnedMemory, slice: u64, how: u64, any: usize) {
    match slice {
        0 => resize(&mut memory.control, how, any),
        1 => resize(&mut memory.table, how, any),
        2 => resize(&mut memory.names, how, any),
        3 => resize(&mut memory.committed, how, any),
        4 => resize(&mut memory.staged, how, any),
        5 => resize(&mut memory.image, how, any),
        _ => resize(&mut memory.hash, how, any),
    }
}

/// One short, one long, empty, or of this length.
pub fn resize<T: Clone + Default>(list: &mut Vec<T>, how: u64, any: usize) {
    let length = match how {
        0 => list.len() - 1,
        1 => list.len() + 1,
        2 => 0,
        _ => any,
    };
    list.resize(length, T::default());
}
