//! The commands, each in its own order, and the job outcome.
//!
//! Each command tests everything before it changes anything, so a refusal leaves the state as found (only the sweep of
//! an Open stays).

use crate::code::Code;
use crate::message::{self, Request, Response, MOST_FIELD_BYTES};
use crate::names::{self, Flash, Name, Padded};
use crate::state::{
    is_sound, put, Memory, Phase, Row, ANSWER_BYTES, FAILED, FLAGS_FLASH, FLAGS_READ, FLAGS_READ_WRITE, HASH_CAPACITY,
    HASH_LENGTH, IMAGE_CAPACITY, IMAGE_LENGTH, NAME_BYTES, NEXT_IDENTIFIER, RUNNING, SLOTS, SLOT_CAPACITY, SUCCEEDED,
    UNTRIED,
};
use crate::sweep::sweep;

type Outcome = Result<Response, Code>;

/// The verdict on a job.
pub const VERDICT_FAILED: u32 = 0;
pub const VERDICT_GOOD: u32 = 1;

/// Bits of a blob's state.
const BIT_COMMITTING: u32 = 1 << 2;
const BIT_COMMITTED: u32 = 1 << 3;
const BIT_COMMIT_ERROR: u32 = 1 << 4;
const SESSION_FLAG_BITS: u32 = 3;

/// Answers one message. Gives the completion code + 256 × the response length; a refusal has no response.
pub fn respond(request: &[u8], clock: u32, memory: &mut Memory, answer: &mut [u8]) -> u32 {
    // Reading 2: the answer buffer is lent too, so any length but 64 is FF (rule 19.1).
    if answer.len() != ANSWER_BYTES || !is_sound(memory) {
        return Code::NOT_SOUND.number();
    }
    match message::decode(request).and_then(|request| command(request, clock, memory)) {
        Ok(response) => success(&response, answer),
        Err(code) => code.number(),
    }
}

/// The response goes to the front of the answer buffer, and only there (rule 19.2).
fn success(response: &Response, answer: &mut [u8]) -> u32 {
    put(answer, response.bytes());
    let length = u32::try_from(response.bytes().len()).unwrap_or(0);
    Code::SUCCESS.number() | (length << 8)
}

/// The end of a job (rules 17.1-17.3): the status alone changes. A caller in C gives the verdict as a number, so one
/// that is neither failed nor good can come: it is refused once the state is known to be sound (Reading 21).
pub fn job_outcome(verdict: u32, memory: &mut Memory) -> u32 {
    if !is_sound(memory) {
        return Code::NOT_SOUND.number();
    }
    let status = match verdict {
        VERDICT_FAILED => FAILED,
        VERDICT_GOOD => SUCCEEDED,
        _ => return Code::FIELD.number(),
    };
    let running = memory.used_rows().find(|row| memory.row(*row).status == RUNNING);
    match running {
        Some(row) => {
            memory.set_row(row, &Row { status, ..memory.row(row) });
            Code::SUCCESS.number()
        }
        None => Code::NOT_SUPPORTED.number(),
    }
}

fn command(request: Request, clock: u32, memory: &mut Memory) -> Outcome {
    match request {
        Request::Count => count(memory),
        Request::Enumerate { index } => enumerate(index, memory),
        Request::Open { flags, name } => open(flags, name, clock, memory),
        Request::Read { session, offset, requested } => read(session, offset, requested, clock, memory),
        Request::Write { session, offset, data } => write(session, offset, data, clock, memory),
        Request::Commit { session, length, data } => commit(session, length, data, clock, memory),
        Request::Close { session } => close(session, memory),
        Request::Delete { name } => delete(name, memory),
        Request::Stat { name } => stat(name, memory),
        Request::SessionStat { session } => session_stat(session, clock, memory),
        Request::WriteMeta { session } => write_meta(session, memory),
    }
}

// ---- Count and Enumerate ----

/// The listed names, in their order (rules 8.1 and 8.2).
/// Reading 20: the committed mark alone decides.
fn listed<'m>(memory: &'m Memory) -> impl Iterator<Item = &'m [u8]> {
    let slots = (0..SLOTS).filter(|slot| memory.slot_committed(*slot)).map(|slot| names::characters(memory.name(slot)));
    let flash = Flash::ALL.into_iter().filter(|flash| flash_listed(*flash, memory)).map(|flash| flash.name());
    std::iter::once(names::BASE).chain(slots).chain(flash)
}

fn flash_listed(flash: Flash, memory: &Memory) -> bool {
    match flash {
        Flash::Image | Flash::Hash | Flash::Cleanup => true,
        Flash::Verify => memory.phase() != Some(Phase::Idle),
        Flash::Update => memory.phase() == Some(Phase::Verified),
    }
}

fn count(memory: &Memory) -> Outcome {
    let count = u32::try_from(listed(memory).count()).unwrap_or(0);
    Ok(Response::with_fields(message::COUNT, &count.to_le_bytes()))
}

/// The name at an index, with a NUL behind it (rule 8.4).
fn enumerate(index: u32, memory: &Memory) -> Outcome {
    let index = usize::try_from(index).map_err(|_| Code::RANGE)?;
    let name = listed(memory).nth(index).ok_or(Code::RANGE)?;
    let padded = names::pad(name);
    let with_nul = padded.get(..=name.len()).unwrap_or(&padded);
    Ok(Response::with_fields(message::ENUMERATE, with_nul))
}

// ---- Open ----

/// The first checks of an Open and its sweep (rules 9.1 and 9.2); then as the name's kind demands.
///
/// Reading 4: a wrong name form does not sweep; every later refusal keeps the sweep.
fn open(flags: u16, name: &[u8], clock: u32, memory: &mut Memory) -> Outcome {
    let name = names::decode(name).ok_or(Code::FIELD)?;
    sweep(clock, memory);
    match name {
        Name::Unknown | Name::Base => Err(Code::ABSENT),
        Name::Store(name) => open_store(&name, u32::from(flags), clock, memory),
        Name::Flash(flash) => open_flash(flash, u32::from(flags), clock, memory),
    }
}

/// The other checks, for a store name (rules 9.3-9.7).
///
/// Reading 6: a new name that is open is held, so it is busy for any flags. Reading 7: row or slot, the code is one.
fn open_store(name: &Padded, flags: u32, clock: u32, memory: &mut Memory) -> Outcome {
    if flags != FLAGS_READ && flags != FLAGS_READ_WRITE {
        return Err(Code::FIELD);
    }
    let held = memory.slot_of_name(name);
    if held.is_none() && flags == FLAGS_READ {
        return Err(Code::ABSENT);
    }
    if held.is_some_and(|slot| memory.row_of_slot(slot).is_some()) {
        return Err(Code::BUSY);
    }
    let row = memory.lowest_free_row().ok_or(Code::NO_SPACE)?;
    let slot = held.or_else(|| memory.lowest_free_slot()).ok_or(Code::NO_SPACE)?;
    match held {
        Some(_) if flags == FLAGS_READ_WRITE => stage_committed(slot, memory),
        Some(_) => {}
        None => take_slot(slot, name, memory),
    }
    // A held name without a session is committed, so its row may be clean; a new one starts not clean.
    let blob = u32::try_from(slot).unwrap_or(0);
    Ok(start_session(row, blob, flags, held.is_some(), clock, memory))
}

/// A held name that is opened for writing starts from what is committed (rule 9.11).
fn stage_committed(slot: usize, memory: &mut Memory) {
    memory.copy_committed_to_staged(slot);
    memory.set_staged_length(slot, memory.committed_length(slot));
}

/// A new name has no bytes (rule 9.12): an unused slot is zero already (reading 14).
fn take_slot(slot: usize, name: &Padded, memory: &mut Memory) {
    memory.set_slot_used(slot, true);
    memory.set_name(slot, name);
}

/// The other checks, for a flash name (rules 9.3-9.7), and what opening it does (rule 9.13).
///
/// Reading 15: the image and the hash each zero only their own bytes and length.
fn open_flash(flash: Flash, flags: u32, clock: u32, memory: &mut Memory) -> Outcome {
    if flags != FLAGS_FLASH {
        return Err(Code::FIELD);
    }
    if !flash_listed(flash, memory) {
        return Err(Code::ABSENT);
    }
    if memory.flash_row().is_some() {
        return Err(Code::BUSY);
    }
    let row = memory.lowest_free_row().ok_or(Code::NO_SPACE)?;
    match flash {
        Flash::Image => {
            memory.zero_image();
            memory.set_phase(Phase::Uploading);
        }
        Flash::Hash => {
            memory.zero_hash();
            memory.set_phase(Phase::Uploading);
        }
        Flash::Verify | Flash::Update | Flash::Cleanup => {}
    }
    Ok(start_session(row, flash.blob(), flags, false, clock, memory))
}

/// Fills the free row and answers with its identifier (rule 9.9).
fn start_session(row: usize, blob: u32, flags: u32, clean: bool, clock: u32, memory: &mut Memory) -> Response {
    let identifier = first_unused_identifier(memory);
    memory.set_value(NEXT_IDENTIFIER, u32::from(identifier.wrapping_add(1)));
    let identifier_word = u32::from(identifier);
    let new = Row { identifier: identifier_word, blob, flags, status: UNTRIED, clean, remaining: 0, stamp: clock };
    memory.set_row(row, &new);
    memory.set_row_used(row, true);
    Response::with_fields(message::OPEN, &identifier.to_le_bytes())
}

/// The identifier to give out (rule 9.8). At most 16 are used, so one is found.
fn first_unused_identifier(memory: &Memory) -> u16 {
    let next = u16::try_from(memory.value(NEXT_IDENTIFIER)).unwrap_or(0);
    let upward = (0..=u16::MAX).map(|steps| next.wrapping_add(steps));
    let mut unused = upward.filter(|identifier| memory.row_of_identifier(u32::from(*identifier)).is_none());
    unused.next().unwrap_or(next)
}

// ---- Session commands ----

/// The row of the session, or CB (rule 7.14).
fn find_session(session: u16, memory: &Memory) -> Result<usize, Code> {
    memory.row_of_identifier(u32::from(session)).ok_or(Code::ABSENT)
}

/// Raises the session's stamp to the clock (rule 18.1). Reading 8: also by a command that moves no byte or changes no
/// status.
fn lift_stamp(row: usize, clock: u32, memory: &mut Memory) {
    let found = memory.row(row);
    memory.set_row(row, &Row { stamp: found.stamp.max(clock), ..found });
}

fn read(session: u16, offset: u32, requested: u32, clock: u32, memory: &mut Memory) -> Outcome {
    let row = find_session(session, memory)?;
    let found = memory.row(row);
    let slot = found.slot().ok_or(Code::NOT_SUPPORTED)?;
    // What the session sees (rule 10.2).
    let (region, length) = if found.is_writing_store() {
        (memory.staged_region(slot), memory.staged_length(slot))
    } else {
        (memory.committed_region(slot), memory.committed_length(slot))
    };
    let response = Response::with_fields(message::READ, part(region, length, offset, requested));
    lift_stamp(row, clock, memory);
    Ok(response)
}

/// How many bytes a Read sends (rule 10.3).
fn part(region: &[u8], length: u32, offset: u32, requested: u32) -> &[u8] {
    let most = u32::try_from(MOST_FIELD_BYTES).unwrap_or(0);
    let count = requested.min(most).min(length.saturating_sub(offset));
    let start = usize::try_from(offset).unwrap_or(usize::MAX);
    let end = start.saturating_add(usize::try_from(count).unwrap_or(0));
    if count == 0 {
        return &[];
    }
    region.get(start..end).unwrap_or(&[])
}

fn write(session: u16, offset: u32, data: &[u8], clock: u32, memory: &mut Memory) -> Outcome {
    let row = find_session(session, memory)?;
    let found = memory.row(row);
    let target = write_target(&found).ok_or(Code::NOT_SUPPORTED)?;
    let length = target.length(memory);
    if offset > length {
        return Err(Code::RANGE);
    }
    let start = usize::try_from(offset).map_err(|_| Code::RANGE)?;
    let end = start.checked_add(data.len()).ok_or(Code::CAPACITY)?;
    if end > target.capacity() {
        return Err(Code::CAPACITY);
    }
    put(target.region(memory).get_mut(start..end).unwrap_or(&mut []), data);
    target.set_length(length.max(u32::try_from(end).unwrap_or(0)), memory);
    // Any byte written makes the session not clean (rule 11.5).
    let clean = found.clean && data.is_empty();
    memory.set_row(row, &Row { clean, ..found });
    lift_stamp(row, clock, memory);
    Ok(Response::bare(message::WRITE))
}

/// What a session may write into (rule 11.2).
enum Target {
    Staged(usize),
    Image,
    Hash,
}

fn write_target(row: &Row) -> Option<Target> {
    match (row.slot(), row.flash()) {
        (Some(slot), _) if row.is_writing_store() => Some(Target::Staged(slot)),
        (_, Some(Flash::Image)) => Some(Target::Image),
        (_, Some(Flash::Hash)) => Some(Target::Hash),
        _ => None,
    }
}

impl Target {
    fn length(&self, memory: &Memory) -> u32 {
        match self {
            Target::Staged(slot) => memory.staged_length(*slot),
            Target::Image => memory.value(IMAGE_LENGTH),
            Target::Hash => memory.value(HASH_LENGTH),
        }
    }

    fn set_length(&self, length: u32, memory: &mut Memory) {
        match self {
            Target::Staged(slot) => memory.set_staged_length(*slot, length),
            Target::Image => memory.set_value(IMAGE_LENGTH, length),
            Target::Hash => memory.set_value(HASH_LENGTH, length),
        }
    }

    fn capacity(&self) -> usize {
        match self {
            Target::Staged(_) => SLOT_CAPACITY,
            Target::Image => IMAGE_CAPACITY,
            Target::Hash => HASH_CAPACITY,
        }
    }

    fn region<'m>(&self, memory: &'m mut Memory) -> &'m mut [u8] {
        match self {
            Target::Staged(slot) => memory.staged_region_mut(*slot),
            Target::Image => memory.image,
            Target::Hash => memory.hash,
        }
    }
}

/// The checks of a Commit (rules 12.1 and 12.2), then what it does.
fn commit(session: u16, length: u8, data: &[u8], clock: u32, memory: &mut Memory) -> Outcome {
    let row = find_session(session, memory)?;
    if length != 0 || !data.is_empty() {
        return Err(Code::FIELD);
    }
    let found = memory.row(row);
    match (found.slot(), found.flash()) {
        (Some(slot), _) if found.is_writing_store() => commit_store(row, slot, memory),
        (_, Some(Flash::Verify)) => commit_verify(row, memory),
        (_, Some(Flash::Update)) => commit_update(row, memory),
        (_, Some(Flash::Cleanup)) => commit_cleanup(row, memory),
        _ => return Err(Code::NOT_SUPPORTED),
    }
    lift_stamp(row, clock, memory);
    Ok(Response::bare(message::COMMIT))
}

/// Rule 12.3: what is staged is committed.
fn commit_store(row: usize, slot: usize, memory: &mut Memory) {
    memory.copy_staged_to_committed(slot);
    memory.set_committed_length(slot, memory.staged_length(slot));
    memory.set_slot_committed(slot, true);
    memory.set_row(row, &Row { clean: true, ..memory.row(row) });
}

/// Rule 12.4: the verify job starts, unless it runs or has succeeded. Reading 9: then the phase stays too.
fn commit_verify(row: usize, memory: &mut Memory) {
    if start_job(row, memory) {
        memory.set_phase(Phase::Uploading);
    }
}

/// Rule 12.5: the update job starts in the same cases.
fn commit_update(row: usize, memory: &mut Memory) {
    start_job(row, memory);
}

fn start_job(row: usize, memory: &mut Memory) -> bool {
    let found = memory.row(row);
    let starts = found.status == UNTRIED || found.status == FAILED;
    if starts {
        memory.set_row(row, &Row { status: RUNNING, ..found });
    }
    starts
}

/// Rule 12.6: the flash is emptied, also at status 2 (reading 10).
fn commit_cleanup(row: usize, memory: &mut Memory) {
    memory.zero_image();
    memory.zero_hash();
    memory.set_phase(Phase::Idle);
    memory.set_row(row, &Row { status: SUCCEEDED, ..memory.row(row) });
}

/// The checks of a Close (rule 13.1).
fn close(session: u16, memory: &mut Memory) -> Outcome {
    let row = find_session(session, memory)?;
    if memory.row(row).status == RUNNING {
        return Err(Code::BUSY);
    }
    close_row(row, memory);
    Ok(Response::bare(message::CLOSE))
}

/// What Close does, for the sweep too (rules 13.2-13.8): by the session's kind. The job is not running.
///
/// Reading 11: kinds not named change nothing else.
pub fn close_row(row: usize, memory: &mut Memory) {
    let closed = memory.row(row);
    memory.set_row_words(row, [0; 4]);
    memory.set_row_used(row, false);
    match (closed.slot(), closed.flash()) {
        (Some(slot), _) if closed.is_writing_store() => close_writing_store(slot, memory),
        (_, Some(Flash::Verify)) => close_verify(closed.status, memory),
        (_, Some(Flash::Update)) => close_update(closed.status, memory),
        _ => {}
    }
}

/// Rules 13.4 and 13.5: nothing stays staged, and a slot that was never committed is given back.
fn close_writing_store(slot: usize, memory: &mut Memory) {
    if memory.slot_committed(slot) {
        memory.staged_region_mut(slot).fill(0);
        memory.set_staged_length(slot, 0);
    } else {
        memory.free_slot(slot);
    }
}

/// Rule 13.6: the phase by the job's end. Untried, the phase stays.
fn close_verify(status: u32, memory: &mut Memory) {
    match status {
        SUCCEEDED => memory.set_phase(Phase::Verified),
        FAILED => memory.set_phase(Phase::Uploading),
        _ => {}
    }
}

/// Rule 13.7: the same for an update, which empties the flash if it was good. Untried, the phase stays. Reading 12:
/// lengths too.
fn close_update(status: u32, memory: &mut Memory) {
    match status {
        SUCCEEDED => {
            memory.zero_image();
            memory.zero_hash();
            memory.set_phase(Phase::Idle);
        }
        FAILED => memory.set_phase(Phase::Uploading),
        _ => {}
    }
}

// ---- Delete, Stat, SessionStat, WriteMeta ----

/// The checks of a Delete (rule 14.1).
fn delete(name: &[u8], memory: &mut Memory) -> Outcome {
    let name = match names::decode(name).ok_or(Code::FIELD)? {
        Name::Base | Name::Flash(_) => return Err(Code::NOT_SUPPORTED),
        // Reading 5: an unknown name is a name not held.
        Name::Unknown => return Err(Code::ABSENT),
        Name::Store(name) => name,
    };
    let slot = memory.slot_of_name(&name).ok_or(Code::ABSENT)?;
    if memory.row_of_slot(slot).is_some() {
        return Err(Code::BUSY);
    }
    memory.free_slot(slot);
    Ok(Response::bare(message::DELETE))
}

/// The checks of a Stat (rule 15.1).
///
/// Reading 8: Stat names a blob and no session, so it lifts no stamp.
fn stat(name: &[u8], memory: &Memory) -> Outcome {
    let (state, size) = match names::decode(name).ok_or(Code::FIELD)? {
        Name::Unknown => return Err(Code::ABSENT),
        Name::Base => (0, 0),
        Name::Store(name) => {
            let slot = memory.slot_of_name(&name).ok_or(Code::ABSENT)?;
            store_stat(slot, memory)
        }
        Name::Flash(flash) if flash_listed(flash, memory) => flash_stat(flash, memory),
        Name::Flash(_) => return Err(Code::ABSENT),
    };
    Ok(stat_response(message::STAT, state, size))
}

/// Rule 15.7: without a session a store name has bit 3 set, and its size is the committed length.
fn store_stat(slot: usize, memory: &Memory) -> (u32, u32) {
    match memory.row_of_slot(slot) {
        Some(row) => (state_bits(&memory.row(row)), size(&memory.row(row), memory)),
        None => (BIT_COMMITTED, memory.committed_length(slot)),
    }
}

/// Rule 15.8: without a session a flash name has no bit set (reading 16).
fn flash_stat(flash: Flash, memory: &Memory) -> (u32, u32) {
    let state = memory.row_of_blob(flash.blob()).map_or(0, |row| state_bits(&memory.row(row)));
    (state, flash_size(flash, memory))
}

fn session_stat(session: u16, clock: u32, memory: &mut Memory) -> Outcome {
    let row = find_session(session, memory)?;
    let found = memory.row(row);
    let response = stat_response(message::SESSION_STAT, state_bits(&found), size(&found, memory));
    lift_stamp(row, clock, memory);
    Ok(response)
}

/// The state bits of a session (rule 15.4).
fn state_bits(row: &Row) -> u32 {
    let status = match row.status {
        RUNNING => BIT_COMMITTING,
        SUCCEEDED => BIT_COMMITTED,
        FAILED => BIT_COMMIT_ERROR,
        _ => 0,
    };
    let clean = if row.clean { BIT_COMMITTED } else { 0 };
    (row.flags & SESSION_FLAG_BITS) | status | clean
}

/// The size of a session (rule 15.5).
fn size(row: &Row, memory: &Memory) -> u32 {
    match (row.slot(), row.flash()) {
        (Some(slot), _) if row.is_writing_store() => memory.staged_length(slot),
        (Some(slot), _) => memory.committed_length(slot),
        (None, Some(flash)) => flash_size(flash, memory),
        (None, None) => 0,
    }
}

fn flash_size(flash: Flash, memory: &Memory) -> u32 {
    match flash {
        Flash::Image => memory.value(IMAGE_LENGTH),
        Flash::Hash => memory.value(HASH_LENGTH),
        Flash::Verify | Flash::Update | Flash::Cleanup => 0,
    }
}

/// The fields that both send (rule 15.3).
fn stat_response(subcommand: u8, state: u32, size: u32) -> Response {
    let [state_low, state_high, _, _] = state.to_le_bytes();
    let [a, b, c, d] = size.to_le_bytes();
    Response::with_fields(subcommand, &[state_low, state_high, a, b, c, d, 0])
}

/// Never accepted (rule 16.1).
fn write_meta(session: u16, memory: &Memory) -> Outcome {
    find_session(session, memory)?;
    Err(Code::NOT_SUPPORTED)
}

// The regions and names are cut by these numbers; they must agree.
const _: () = assert!(NAME_BYTES == 32 && ANSWER_BYTES == message::MOST_BYTES);
