//! What the tests and the benchmark share: owned memory, the two implementations behind one trait, a small random
//! generator, messages, and sound states made directly.
//!
//! The harness is no part of the implementation: it may index and panic.

use crate::crc::crc;
use crate::message::{self, OEM};
use crate::names::{characters, pad, Flash};
use crate::state::{
    Memory, Row, COMMITTED_LENGTHS, CONTROL_WORDS, FLAGS_FLASH, FLAGS_READ, FLAGS_READ_WRITE, HASH_CAPACITY,
    HASH_LENGTH, IMAGE_CAPACITY, IMAGE_LENGTH, LAST_SWEEP, NAME_BYTES, NEXT_IDENTIFIER, PHASE, ROWS, ROWS_USED,
    ROW_WORDS, SLOTS, SLOTS_COMMITTED, SLOTS_USED, SLOT_CAPACITY, STAGED_LENGTHS,
};

// ---- Memory ----

/// The lent memory, owned, of any length.
#[derive(Clone, Debug, PartialEq, Eq)]
pub struct OwnedMemory {
    pub control: Vec<u32>,
    pub table: Vec<u32>,
    pub names: Vec<u8>,
    pub committed: Vec<u8>,
    pub staged: Vec<u8>,
    pub image: Vec<u8>,
    pub hash: Vec<u8>,
}

impl OwnedMemory {
    /// The fresh state (rule 5.11).
    pub fn fresh() -> OwnedMemory {
        OwnedMemory {
            control: vec![0; CONTROL_WORDS],
            table: vec![0; ROWS * ROW_WORDS],
            names: vec![0; SLOTS * NAME_BYTES],
            committed: vec![0; SLOTS * SLOT_CAPACITY],
            staged: vec![0; SLOTS * SLOT_CAPACITY],
            image: vec![0; IMAGE_CAPACITY],
            hash: vec![0; HASH_CAPACITY],
        }
    }

    pub fn lend(&mut self) -> Memory<'_> {
        Memory {
            control: &mut self.control,
            table: &mut self.table,
            names: &mut self.names,
            committed: &mut self.committed,
            staged: &mut self.staged,
            image: &mut self.image,
            hash: &mut self.hash,
        }
    }

    pub fn is_sound(&mut self) -> bool {
        crate::is_sound(&self.lend())
    }

    /// Copies the other memory into this one without new allocations.
    pub fn set(&mut self, other: &OwnedMemory) {
        self.control.clone_from(&other.control);
        self.table.clone_from(&other.table);
        self.names.clone_from(&other.names);
        self.committed.clone_from(&other.committed);
        self.staged.clone_from(&other.staged);
        self.image.clone_from(&other.image);
        self.hash.clone_from(&other.hash);
    }

    pub fn row(&self, row: usize) -> Row {
        let start = row * ROW_WORDS;
        Row::of_words(self.table[start..start + ROW_WORDS].try_into().expect("four words"))
    }

    pub fn set_row(&mut self, row: usize, new: &Row) {
        let start = row * ROW_WORDS;
        self.table[start..start + ROW_WORDS].copy_from_slice(&new.words());
    }

    /// The places of the used rows.
    pub fn used_rows(&self) -> Vec<usize> {
        (0..ROWS).filter(|row| self.row_used(*row)).collect()
    }

    pub fn free_rows(&self) -> Vec<usize> {
        (0..ROWS).filter(|row| !self.row_used(*row)).collect()
    }

    pub fn row_used(&self, row: usize) -> bool {
        self.control[ROWS_USED] >> row & 1 == 1
    }

    /// What the used rows hold.
    pub fn sessions(&self) -> impl Iterator<Item = Row> + '_ {
        self.used_rows().into_iter().map(|row| self.row(row))
    }

    pub fn session(&self, identifier: u32) -> Option<Row> {
        self.sessions().find(|row| row.identifier == identifier)
    }

    pub fn used_slots(&self) -> Vec<usize> {
        (0..SLOTS).filter(|slot| self.slot_used(*slot)).collect()
    }

    pub fn free_slots(&self) -> Vec<usize> {
        (0..SLOTS).filter(|slot| !self.slot_used(*slot)).collect()
    }

    pub fn slot_used(&self, slot: usize) -> bool {
        self.control[SLOTS_USED] >> slot & 1 == 1
    }

    pub fn slot_committed(&self, slot: usize) -> bool {
        self.control[SLOTS_COMMITTED] >> slot & 1 == 1
    }

    pub fn name(&self, slot: usize) -> &[u8] {
        &self.names[slot * NAME_BYTES..(slot + 1) * NAME_BYTES]
    }

    pub fn name_mut(&mut self, slot: usize) -> &mut [u8] {
        &mut self.names[slot * NAME_BYTES..(slot + 1) * NAME_BYTES]
    }

    /// The names and scans of the committed slots, ascending.
    pub fn committed_scans(&self) -> Vec<(Vec<u8>, Vec<u8>)> {
        let committed = (0..SLOTS).filter(|slot| self.slot_committed(*slot));
        committed
            .map(|slot| (characters(self.name(slot)).to_vec(), self.scan(slot).to_vec()))
            .collect()
    }

    fn scan(&self, slot: usize) -> &[u8] {
        let length = self.control[COMMITTED_LENGTHS + slot] as usize;
        &self.committed[region(slot)][..length]
    }

    pub fn row_of_slot(&self, slot: usize) -> Option<usize> {
        self.used_rows()
            .into_iter()
            .find(|row| self.row(*row).slot() == Some(slot))
    }

    pub fn flash_row(&self) -> Option<usize> {
        self.used_rows()
            .into_iter()
            .find(|row| self.row(*row).flash().is_some())
    }

    /// The length and capacity that a session of this row reads or writes.
    pub fn view(&self, row: &Row) -> (u32, u32) {
        match (row.slot(), row.flash()) {
            (Some(slot), _) if row.is_writing_store() => (self.control[STAGED_LENGTHS + slot], SLOT_CAPACITY as u32),
            (Some(slot), _) => (self.control[COMMITTED_LENGTHS + slot], SLOT_CAPACITY as u32),
            (_, Some(Flash::Image)) => (self.control[IMAGE_LENGTH], IMAGE_CAPACITY as u32),
            (_, Some(Flash::Hash)) => (self.control[HASH_LENGTH], HASH_CAPACITY as u32),
            _ => (0, 0),
        }
    }

    /// Names the first difference, for a report.
    pub fn difference(&self, other: &OwnedMemory) -> Option<String> {
        difference("control", &self.control, &other.control)
            .or_else(|| difference("table", &self.table, &other.table))
            .or_else(|| difference("names", &self.names, &other.names))
            .or_else(|| difference("committed", &self.committed, &other.committed))
            .or_else(|| difference("staged", &self.staged, &other.staged))
            .or_else(|| difference("image", &self.image, &other.image))
            .or_else(|| difference("hash", &self.hash, &other.hash))
    }
}

fn difference<T: PartialEq + std::fmt::Debug>(what: &str, one: &[T], other: &[T]) -> Option<String> {
    if one == other {
        return None;
    }
    if one.len() != other.len() {
        return Some(format!("{what}: lengths {} and {}", one.len(), other.len()));
    }
    let place = (0..one.len()).find(|place| one[*place] != other[*place])?;
    Some(format!("{what}[{place}]: {:?} and {:?}", one[place], other[place]))
}

// ---- Implementations ----

pub trait Implementation {
    /// Completion code + 256 × response length.
    fn respond(&mut self, request: &[u8], clock: u32, memory: &mut OwnedMemory, answer: &mut Vec<u8>) -> u32;
    /// Completion code. The verdict is 1 for good, 0 for failed; any other is refused.
    fn job_outcome(&mut self, verdict: u32, memory: &mut OwnedMemory) -> u32;
    /// Completion code + 256 × the part's length.
    fn save_part(&mut self, part: u32, memory: &mut OwnedMemory, buffer: &mut Vec<u8>) -> u32;
    /// Completion code.
    fn load(&mut self, file: &[u8], memory: &mut OwnedMemory) -> u32;
    /// Completion code + 256 × the row + 65,536 × the number of rows visited.
    fn find_session(&mut self, identifier: u32, rows: u32, table: &[u32]) -> u32;
    /// Completion code + 256 × the number of entries or the place of the fault.
    fn read_config(&mut self, text: &[u8], fields: &mut [usize]) -> u64;
    /// Completion code + 256 × the number of messages done + 65,536 × the bytes of responses.
    fn tray(&mut self, records: &[u8], memory: &mut OwnedMemory, responses: &mut [u8], results: &mut [u32]) -> u32;
}

/// This package's implementation.
pub struct Second;

impl Implementation for Second {
    fn respond(&mut self, request: &[u8], clock: u32, memory: &mut OwnedMemory, answer: &mut Vec<u8>) -> u32 {
        crate::respond(request, clock, &mut memory.lend(), answer)
    }

    fn job_outcome(&mut self, verdict: u32, memory: &mut OwnedMemory) -> u32 {
        crate::job_outcome(verdict, &mut memory.lend())
    }

    fn save_part(&mut self, part: u32, memory: &mut OwnedMemory, buffer: &mut Vec<u8>) -> u32 {
        crate::save_part(part, &memory.lend(), buffer)
    }

    fn load(&mut self, file: &[u8], memory: &mut OwnedMemory) -> u32 {
        crate::load(file, &mut memory.lend())
    }

    fn find_session(&mut self, identifier: u32, rows: u32, table: &[u32]) -> u32 {
        crate::find_session(identifier, rows, table)
    }

    fn read_config(&mut self, text: &[u8], fields: &mut [usize]) -> u64 {
        crate::read_config(text, fields)
    }

    fn tray(&mut self, records: &[u8], memory: &mut OwnedMemory, responses: &mut [u8], results: &mut [u32]) -> u32 {
        crate::tray(records, &mut memory.lend(), responses, results)
    }
}

/// The implementation to compare with: the library, or without the feature this one again.
#[cfg(feature = "library")]
pub type Other = crate::library::Library;
#[cfg(feature = "library")]
pub const OTHER: Other = crate::library::Library;
#[cfg(not(feature = "library"))]
pub type Other = Second;
#[cfg(not(feature = "library"))]
pub const OTHER: Other = Second;

// ---- Random numbers ----

/// Splitmix64.
#[derive(Clone)]
pub struct Random(u64);

impl Random {
    pub fn new(seed: u64) -> Random {
        Random(seed)
    }

    pub fn number(&mut self) -> u64 {
        self.0 = self.0.wrapping_add(0x9E37_79B9_7F4A_7C15);
        let mut mixed = self.0;
        mixed = (mixed ^ (mixed >> 30)).wrapping_mul(0xBF58_476D_1CE4_E5B9);
        mixed = (mixed ^ (mixed >> 27)).wrapping_mul(0x94D0_49BB_1331_11EB);
        mixed ^ (mixed >> 31)
    }

    /// A number below the limit.
    pub fn below(&mut self, limit: u64) -> u64 {
        self.number() % limit.max(1)
    }

    /// A number from `low` to `high`, both included.
    pub fn between(&mut self, low: u64, high: u64) -> u64 {
        low + self.below(high - low + 1)
    }

    pub fn word(&mut self) -> u32 {
        self.number() as u32
    }

    pub fn byte(&mut self) -> u8 {
        self.number() as u8
    }

    pub fn chance(&mut self, percent: u64) -> bool {
        self.below(100) < percent
    }

    pub fn pick<T: Clone>(&mut self, list: &[T]) -> T {
        list[self.below(list.len() as u64) as usize].clone()
    }

    pub fn pick_if_any<T: Clone>(&mut self, list: &[T]) -> Option<T> {
        (!list.is_empty()).then(|| self.pick(list))
    }

    pub fn pick_or<T: Clone>(&mut self, list: &[T], otherwise: T) -> T {
        self.pick_if_any(list).unwrap_or(otherwise)
    }

    pub fn shuffle<T>(&mut self, list: &mut [T]) {
        for place in (1..list.len()).rev() {
            list.swap(place, self.below(place as u64 + 1) as usize);
        }
    }

    pub fn fill(&mut self, bytes: &mut [u8]) {
        for chunk in bytes.chunks_mut(8) {
            let number = self.number().to_le_bytes();
            chunk.copy_from_slice(&number[..chunk.len()]);
        }
    }

    pub fn bytes(&mut self, length: usize) -> Vec<u8> {
        let mut bytes = vec![0; length];
        self.fill(&mut bytes);
        bytes
    }
}

// ---- Messages ----

/// A message with these fields and, if there are any or it is asked for, a right CRC.
pub fn message(subcommand: u8, fields: &[u8]) -> Vec<u8> {
    let mut bytes = OEM.to_vec();
    bytes.push(subcommand);
    if !fields.is_empty() {
        bytes.extend(crc(fields).to_le_bytes());
        bytes.extend(fields);
    }
    bytes
}

/// The name with its NUL.
pub fn with_nul(name: &[u8]) -> Vec<u8> {
    [name, &[0]].concat()
}

pub fn count() -> Vec<u8> {
    message(message::COUNT, &[])
}

pub fn enumerate(index: u32) -> Vec<u8> {
    message(message::ENUMERATE, &index.to_le_bytes())
}

pub fn open(flags: u16, name: &[u8]) -> Vec<u8> {
    message(message::OPEN, &[&flags.to_le_bytes()[..], &with_nul(name)].concat())
}

pub fn read(session: u16, offset: u32, requested: u32) -> Vec<u8> {
    let fields = [
        &session.to_le_bytes()[..],
        &offset.to_le_bytes(),
        &requested.to_le_bytes(),
    ]
    .concat();
    message(message::READ, &fields)
}

pub fn write(session: u16, offset: u32, data: &[u8]) -> Vec<u8> {
    with_data(message::WRITE, session, offset, data)
}

pub fn commit(session: u16) -> Vec<u8> {
    commit_with(session, 0, &[])
}

pub fn commit_with(session: u16, length: u8, data: &[u8]) -> Vec<u8> {
    message(message::COMMIT, &[&session.to_le_bytes()[..], &[length], data].concat())
}

pub fn close(session: u16) -> Vec<u8> {
    message(message::CLOSE, &session.to_le_bytes())
}

pub fn delete(name: &[u8]) -> Vec<u8> {
    message(message::DELETE, &with_nul(name))
}

pub fn stat(name: &[u8]) -> Vec<u8> {
    message(message::STAT, &with_nul(name))
}

pub fn session_stat(session: u16) -> Vec<u8> {
    message(message::SESSION_STAT, &session.to_le_bytes())
}

pub fn write_meta(session: u16, offset: u32, data: &[u8]) -> Vec<u8> {
    with_data(message::WRITE_META, session, offset, data)
}

fn with_data(subcommand: u8, session: u16, offset: u32, data: &[u8]) -> Vec<u8> {
    message(
        subcommand,
        &[&session.to_le_bytes()[..], &offset.to_le_bytes(), data].concat(),
    )
}

// ---- Sound states made directly ----

const LETTERS: &[u8] = b"ABCDEFGHIJKLMNOPQRSTUVWXYZabcdefghijklmnopqrstuvwxyz0123456789";

/// A store name; short ones are likely, so that names are often alike.
pub fn random_store_name(random: &mut Random) -> Vec<u8> {
    let length = match random.below(4) {
        0 => 1,
        1 => 25,
        2 => random.between(1, 3),
        _ => random.between(1, 25),
    };
    let mut name = b"/scan/".to_vec();
    name.extend((0..length).map(|_| random.pick(LETTERS)));
    name
}

/// A length from 0 to the capacity, the edges being likely.
pub fn random_length(random: &mut Random, capacity: u32) -> u32 {
    let near_end = capacity.saturating_sub(random.below(60) as u32);
    let near_start = (random.below(120) as u32).min(capacity);
    match random.below(5) {
        0 => 0,
        1 => capacity,
        2 => near_end,
        3 => near_start,
        _ => random.below(u64::from(capacity) + 1) as u32,
    }
}

/// A sound state not made by a history: bytes behind lengths, and in regions that soundness leaves free, are rubbish.
pub fn random_sound_state(random: &mut Random) -> OwnedMemory {
    sound_state(random, &[20, 60, 100])
}

/// The same, but no slot has a session; the flash may have one.
pub fn random_state_without_store_sessions(random: &mut Random) -> OwnedMemory {
    sound_state(random, &[0])
}

/// The chance of a session on a used slot, in percent, is one of these.
fn sound_state(random: &mut Random, session_percents: &[u64]) -> OwnedMemory {
    let mut memory = OwnedMemory::fresh();
    let clock = random_clock(random);
    let mut rows = Vec::new();
    fill_slots(random, session_percents, &mut memory, &mut rows);
    fill_flash(random, &mut memory, &mut rows);
    random.shuffle(&mut rows);
    // Sixteen slots may have a session each; with the flash row that is one too many. The flash row goes.
    if rows.len() > ROWS {
        rows.retain(|row| row.flash().is_none());
    }
    place_rows(random, &mut memory, rows, clock);
    memory.control[LAST_SWEEP] = near(random, clock, 130);
    memory
}

/// A clock, often near the ends of its range.
pub fn random_clock(random: &mut Random) -> u32 {
    match random.below(4) {
        0 => random.below(2000) as u32,
        1 => u32::MAX - random.below(2000) as u32,
        _ => random.word(),
    }
}

/// A clock at most `most` seconds away, held in its range.
pub fn near(random: &mut Random, clock: u32, most: u32) -> u32 {
    let distance = random.below(u64::from(most) + 1) as u32;
    if random.chance(70) {
        clock.saturating_sub(distance)
    } else {
        clock.saturating_add(distance)
    }
}

fn fill_slots(random: &mut Random, session_percents: &[u64], memory: &mut OwnedMemory, rows: &mut Vec<Row>) {
    let percent = random.pick(&[0, 15, 50, 90, 100]);
    let session_percent = random.pick(session_percents);
    for slot in 0..SLOTS {
        if random.chance(percent) {
            let session = random.chance(session_percent);
            fill_slot(random, memory, slot, session, rows);
        }
    }
}

fn fill_slot(random: &mut Random, memory: &mut OwnedMemory, slot: usize, session: bool, rows: &mut Vec<Row>) {
    let name = loop {
        let name = random_store_name(random);
        if (0..SLOTS).all(|other| memory.name(other) != pad(&name)) {
            break name;
        }
    };
    let writing = session && random.chance(65);
    let committed = !writing || random.chance(60);
    memory.name_mut(slot).copy_from_slice(&pad(&name));
    memory.control[SLOTS_USED] |= 1 << slot;
    random.fill(&mut memory.committed[region(slot)]);
    random.fill(&mut memory.staged[region(slot)]);
    if committed {
        memory.control[SLOTS_COMMITTED] |= 1 << slot;
        memory.control[COMMITTED_LENGTHS + slot] = random_length(random, SLOT_CAPACITY as u32);
    }
    if writing {
        memory.control[STAGED_LENGTHS + slot] = random_length(random, SLOT_CAPACITY as u32);
    }
    if session {
        let flags = if writing { FLAGS_READ_WRITE } else { FLAGS_READ };
        let clean = !writing || (committed && random.chance(50));
        rows.push(new_row(slot as u32, flags, 0, clean));
    }
}

/// The places of a slot's bytes, committed or staged.
pub fn region(slot: usize) -> std::ops::Range<usize> {
    slot * SLOT_CAPACITY..(slot + 1) * SLOT_CAPACITY
}

/// A row whose identifier and stamp are still to be set.
pub fn new_row(blob: u32, flags: u32, status: u32, clean: bool) -> Row {
    Row {
        identifier: 0,
        blob,
        flags,
        status,
        clean,
        remaining: 0,
        stamp: 0,
    }
}

/// Every flash row with every phase and status it may have.
pub fn flash_cases() -> Vec<(u32, Option<(Flash, u32)>)> {
    let mut cases = vec![
        (0, None),
        (1, None),
        (2, None),
        (0, Some((Flash::Cleanup, 0))),
        (0, Some((Flash::Cleanup, 2))),
    ];
    cases.extend([
        (1, Some((Flash::Image, 0))),
        (1, Some((Flash::Hash, 0))),
        (1, Some((Flash::Cleanup, 0))),
    ]);
    cases.extend([(2, Some((Flash::Verify, 0))), (2, Some((Flash::Cleanup, 0)))]);
    cases.extend((0..4).map(|status| (1, Some((Flash::Verify, status)))));
    cases.extend((0..4).map(|status| (2, Some((Flash::Update, status)))));
    cases
}

fn fill_flash(random: &mut Random, memory: &mut OwnedMemory, rows: &mut Vec<Row>) {
    let (phase, session) = random.pick(&flash_cases());
    memory.control[PHASE] = phase;
    if phase != 0 {
        memory.control[IMAGE_LENGTH] = random_length(random, IMAGE_CAPACITY as u32);
        memory.control[HASH_LENGTH] = random_length(random, HASH_CAPACITY as u32);
    }
    // Soundness says nothing of the bytes, not even in Idle.
    if random.chance(80) {
        random.fill(&mut memory.image);
        random.fill(&mut memory.hash);
    }
    if let Some((flash, status)) = session {
        rows.push(new_row(flash.blob(), FLAGS_FLASH, status, false));
    }
}

fn place_rows(random: &mut Random, memory: &mut OwnedMemory, rows: Vec<Row>, clock: u32) {
    let mut places: Vec<usize> = (0..ROWS).collect();
    random.shuffle(&mut places);
    let anywhere = random.below(65_536);
    let first = random.pick(&[0, 65_520, anywhere]);
    let mut identifiers: Vec<u32> = (0..24).map(|step| ((first + step) % 65_536) as u32).collect();
    random.shuffle(&mut identifiers);
    for (row, (place, identifier)) in rows.into_iter().zip(places.into_iter().zip(identifiers.iter())) {
        let most = random.pick(&[10, 700, 100_000]);
        let stamp = near(random, clock, most);
        memory.set_row(
            place,
            &Row {
                identifier: *identifier,
                stamp,
                ..row
            },
        );
        memory.control[ROWS_USED] |= 1 << place;
    }
    memory.control[NEXT_IDENTIFIER] = random.pick(&identifiers);
}
