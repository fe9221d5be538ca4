//! Trays: up to 64 of the program's records in one call, each message answered as it would be alone.
//!
//! Document 02, request e, decides; readings 50 to 59 say how its open places were read. The records are read into a
//! list first; then the tray is judged as a whole; only then are the messages answered, one after the other.

use crate::code::Code;
use crate::commands::respond;
use crate::run::record;
use crate::state::{is_sound, Memory, ANSWER_BYTES};

/// A tray has at most so many records, and a result word is lent for each (reading 50).
pub const MOST_RECORDS: usize = 64;

/// A clock and the message that comes at it.
type Stamped<'t> = (u32, &'t [u8]);

/// Answers the messages of a tray in their order. Gives the completion code + 256 × the number of messages done +
/// 65,536 × the bytes of their responses; a refused tray has the code alone (reading 58).
pub fn tray(records: &[u8], memory: &mut Memory, responses: &mut [u8], results: &mut [u32]) -> u32 {
    // Readings 50 and 51: whatever the tray holds, an empty one too.
    if results.len() != MOST_RECORDS || !is_sound(memory) {
        return Code::NOT_SOUND.number();
    }
    let (list, left) = whole_records(records);
    match judge(&list, left) {
        Ok(()) => answer_all(&list, memory, responses, results),
        Err(code) => code.number(),
    }
}

/// All whole records from the front, however many, and the bytes behind the last of them, which are no whole record.
fn whole_records(mut tray: &[u8]) -> (Vec<Stamped<'_>>, &[u8]) {
    let mut list = Vec::new();
    while let Some((clock, message, behind)) = record(tray) {
        list.push((clock, message));
        tray = behind;
    }
    (list, tray)
}

/// Readings 52 and 53: what stands behind a 64th record is refused whether or not it is whole; before that a record may
/// only be cut.
fn judge(list: &[Stamped], left: &[u8]) -> Result<(), Code> {
    let full = list.len() == MOST_RECORDS;
    if list.len() > MOST_RECORDS || (full && !left.is_empty()) {
        Err(Code::CAPACITY)
    } else if !left.is_empty() {
        Err(Code::LENGTH)
    } else {
        Ok(())
    }
}

/// Goes on until the list ends, or until there is no room for the longest response, whatever the next one would be
/// (reading 55).
fn answer_all(list: &[Stamped], memory: &mut Memory, responses: &mut [u8], results: &mut [u32]) -> u32 {
    let mut done = 0usize;
    let mut written = 0usize;
    for ((clock, message), result) in list.iter().zip(results) {
        let free = responses.get_mut(written..).unwrap_or(&mut []);
        let Some(answer) = free.get_mut(..ANSWER_BYTES) else { break };
        // Reading 56: the next 64 bytes serve as answer buffer, so that only those of the response change.
        *result = respond(message, *clock, memory, answer);
        done = done.saturating_add(1);
        written = written.saturating_add(response_length(*result));
    }
    pack(done, written)
}

/// The length that a single result tells; a refusal's is 0.
fn response_length(result: u32) -> usize {
    usize::try_from(result >> 8).unwrap_or(0)
}

/// A tray that was taken, in one number: 64 messages and 4,096 bytes at most.
fn pack(done: usize, written: usize) -> u32 {
    let [done, written] = [done, written].map(|number| u32::try_from(number).unwrap_or(0));
    Code::SUCCESS.number() | (done << 8) | (written << 16)
}
