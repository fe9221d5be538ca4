//! The program: records in, lines out (rules 20.1-20.5).

use crate::commands::respond;
use crate::state::{
    Memory, ANSWER_BYTES, CONTROL_WORDS, HASH_CAPACITY, IMAGE_CAPACITY, NAME_BYTES, ROWS, ROW_WORDS, SLOTS,
    SLOT_CAPACITY,
};

/// Does this work on memory of its own, which is fresh (rule 5.11).
pub fn on_fresh_memory<T>(work: impl FnOnce(&mut Memory) -> T) -> T {
    work(&mut Memory {
        control: &mut [0; CONTROL_WORDS],
        table: &mut [0; ROWS.saturating_mul(ROW_WORDS)],
        names: &mut [0; SLOTS.saturating_mul(NAME_BYTES)],
        committed: &mut [0; SLOTS.saturating_mul(SLOT_CAPACITY)],
        staged: &mut [0; SLOTS.saturating_mul(SLOT_CAPACITY)],
        image: &mut [0; IMAGE_CAPACITY],
        hash: &mut [0; HASH_CAPACITY],
    })
}

/// Everything the program writes for these input bytes, beginning with this memory.
pub fn run(mut input: &[u8], memory: &mut Memory) -> String {
    let mut lines = String::new();
    while !input.is_empty() {
        match record(input) {
            Some((clock, message, rest)) => {
                lines.push_str(&line(message, clock, memory));
                input = rest;
            }
            None => {
                lines.push_str("CUT\n");
                break;
            }
        }
    }
    lines
}

/// Takes one record off the front (reading 19): clock, message and what is left. `None` if the record is cut, or if there
/// is none.
pub fn record(input: &[u8]) -> Option<(u32, &[u8], &[u8])> {
    let (clock, rest) = input.split_first_chunk::<4>()?;
    let (length, rest) = rest.split_first()?;
    let (message, rest) = rest.split_at_checked(usize::from(*length))?;
    Some((u32::from_le_bytes(*clock), message, rest))
}

fn line(message: &[u8], clock: u32, memory: &mut Memory) -> String {
    let mut answer = [0; ANSWER_BYTES];
    let [code, length, _, _] = respond(message, clock, memory, &mut answer).to_le_bytes();
    let mut line = format!("{code:02X}");
    if code == 0 {
        line.push(' ');
        for byte in answer.iter().take(usize::from(length)) {
            line.push_str(&format!("{byte:02X}"));
        }
    }
    line.push('\n');
    line
}
