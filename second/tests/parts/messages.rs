//! Messages: every length, every subcommand, each single-bit damage of a good message of each kind.

use super::pair::{Pair, Step};
use super::tally::Tally;
use super::Share;
use second::harness::{self, random_sound_state, OwnedMemory, Random};
use second::names::characters;
use second::state::{LAST_SWEEP, NEXT_IDENTIFIER};

const STATES: u64 = 6;

/// A state that every message is sent to.
struct Trial<'p> {
    pair: &'p mut Pair,
    random: Random,
    state: OwnedMemory,
    context: String,
}

impl Trial<'_> {
    /// Sends a message to the state itself, with a clock that keeps its sessions; a change is taken back.
    fn send(&mut self, bytes: Vec<u8>) -> u8 {
        let code = self.pair.step(&Step::Message {
            bytes,
            clock: self.state.control[LAST_SWEEP],
        });
        if self.pair.memory() != &self.state {
            self.pair.restart(&self.state, &self.context);
        }
        code
    }
}

/// Tries messages on a worker's share of this many lively states.
fn on_lively_states(share: Share, states: u64, what: &str, send_all: fn(&mut Trial)) -> Tally {
    share.run(share.of(states), |pair, _, seed| {
        let mut random = Random::new(seed);
        let state = lively_state(&mut random);
        let context = format!("{what}, seed {seed:#X}");
        pair.start(&state, &context);
        send_all(&mut Trial {
            pair,
            random,
            state,
            context,
        });
    })
}

/// A state with at least one session on a store slot, and the names and identifiers to use.
pub fn lively_state(random: &mut Random) -> OwnedMemory {
    loop {
        let state = random_sound_state(random);
        let rows = state.used_rows();
        if rows.len() < 15 && rows.iter().any(|row| state.row(*row).is_writing_store()) {
            return state;
        }
    }
}

/// Every message length 0 to 255, with right CRC and with random bytes, for every subcommand up to 12.
pub fn every_length(share: Share) -> Tally {
    on_lively_states(share, STATES, "every length", |trial| {
        for length in 0..=255 {
            let rubbish = trial.random.bytes(length);
            trial.send(rubbish);
            for subcommand in 0..=12 {
                let bytes = of_length(&mut trial.random, &trial.state, subcommand, length);
                trial.send(bytes);
            }
        }
    })
}

/// A message of this length whose frame is as good as the length lets it be.
fn of_length(random: &mut Random, state: &OwnedMemory, subcommand: u8, length: usize) -> Vec<u8> {
    let fields_length = length.saturating_sub(6);
    let mut fields = random.bytes(fields_length);
    let front = match subcommand {
        7 | 8 => name_bytes(random, state, fields_length),
        2 => [&[3, 0][..], &name_bytes(random, state, fields_length.saturating_sub(2))].concat(),
        _ => session_bytes(random, state),
    };
    for (place, byte) in fields.iter_mut().zip(front) {
        *place = byte;
    }
    let mut bytes = harness::message(subcommand, &fields);
    bytes.resize(length, 0);
    bytes
}

/// A name that fills this many bytes with its NUL, where it can.
fn name_bytes(random: &mut Random, state: &OwnedMemory, length: usize) -> Vec<u8> {
    let held: Vec<usize> = state
        .used_slots()
        .into_iter()
        .filter(|slot| characters(state.name(*slot)).len() + 1 == length)
        .collect();
    if !held.is_empty() && random.chance(50) {
        return harness::with_nul(characters(state.name(random.pick(&held))));
    }
    let mut name = b"/scan/".to_vec();
    name.resize(length.saturating_sub(1).max(1), b'x');
    harness::with_nul(&name)
}

fn session_bytes(random: &mut Random, state: &OwnedMemory) -> Vec<u8> {
    let row = state.row(random.pick(&state.used_rows()));
    let identifier = (row.identifier as u16).to_le_bytes();
    [identifier[0], identifier[1], 0, 0, 0, 0].to_vec()
}

/// Every subcommand 0 to 255 with the bodies of every kind.
pub fn every_subcommand(share: Share) -> Tally {
    on_lively_states(share, STATES, "every subcommand", |trial| {
        let good = good_messages(&mut trial.random, &trial.state);
        for subcommand in 0..=255 {
            for message in &good {
                let mut bytes = message.clone();
                bytes[3] = subcommand;
                let code = trial.send(bytes);
                assert!(
                    (subcommand <= 10) == (code != 0xC1),
                    "{}: subcommand {subcommand}",
                    trial.context
                );
            }
        }
    })
}

/// A message of each kind that is accepted, or for WriteMeta refused only as not supported.
pub fn good_messages(random: &mut Random, state: &OwnedMemory) -> Vec<Vec<u8>> {
    let rows = state.used_rows();
    let writing: Vec<usize> = rows
        .into_iter()
        .filter(|row| state.row(*row).is_writing_store())
        .collect();
    let session = state.row(random.pick(&writing)).identifier as u16;
    let slot = random.pick(&state.used_slots());
    let name = characters(state.name(slot)).to_vec();
    let data = random.bytes(20);
    vec![
        harness::count(),
        harness::enumerate(2),
        harness::open(3, b"/scan/new"),
        harness::open(2, b"/flash/cleanup"),
        harness::open(1, &name),
        harness::read(session, 0, 58),
        harness::write(session, 0, &data),
        harness::commit(session),
        harness::close(session),
        harness::delete(&name),
        harness::stat(&name),
        harness::session_stat(session),
        harness::write_meta(session, 0, &data),
    ]
}

/// Each single-bit damage of a good message of each kind; behind the CRC it is always CC.
pub fn every_bit(share: Share) -> Tally {
    on_lively_states(share, STATES, "every bit", |trial| {
        for message in good_messages(&mut trial.random, &trial.state) {
            for bit in 0..message.len() * 8 {
                let mut bytes = message.clone();
                bytes[bit / 8] ^= 1 << (bit % 8);
                let code = trial.send(bytes);
                let in_head = bit / 8 == 3;
                assert!(
                    in_head || code == 0xCC,
                    "{}: bit {bit} of {message:02X?}",
                    trial.context
                );
            }
        }
    })
}

/// Every index, and every offset around every length; every identifier near the used ones.
pub fn every_edge(share: Share) -> Tally {
    on_lively_states(share, 10 * STATES, "every edge", |trial| {
        for index in (0..26).chain([255, 256, 65_536, 1 << 31, u32::MAX]) {
            trial.send(harness::enumerate(index));
        }
        let next = trial.state.control[NEXT_IDENTIFIER];
        for step in 0..40 {
            let identifier = (next + 65_516 + step) % 65_536;
            trial.send(harness::session_stat(identifier as u16));
        }
        for row in trial.state.used_rows() {
            edges_of_row(trial, row);
        }
    })
}

fn edges_of_row(trial: &mut Trial, row: usize) {
    let row = trial.state.row(row);
    let session = row.identifier as u16;
    let (length, capacity) = trial.state.view(&row);
    for around in 0..3 {
        let reads = [length, length.saturating_sub(58)].map(|edge| (edge + around).saturating_sub(1));
        for offset in reads {
            let requested = trial.random.pick(&[57, 58, 59, u32::MAX]);
            trial.send(harness::read(session, offset, requested));
        }
        let writes = [length, capacity.saturating_sub(52), capacity].map(|edge| (edge + around).saturating_sub(1));
        for offset in writes {
            let data = trial.random.bytes(trial.random.clone().pick(&[0, 1, 51, 52]));
            trial.send(harness::write(session, offset, &data));
        }
    }
}
