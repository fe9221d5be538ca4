//! The memory lent, its rows and slots, and when a state is sound.
//!
//! Every access goes through `get`, so that no length or content of the memory can make anything fail. After the
//! soundness test each access meets what it asks for.

use crate::names::{is_padded_store_name, Flash, Padded};

pub const ROWS: usize = 16;
pub const SLOTS: usize = 16;
pub const ROW_WORDS: usize = 4;
pub const NAME_BYTES: usize = 32;
pub const SLOT_CAPACITY: usize = 4096;
pub const IMAGE_CAPACITY: usize = 16_384;
pub const HASH_CAPACITY: usize = 64;
pub const ANSWER_BYTES: usize = 64;

/// The places in the control block.
pub const CONTROL_WORDS: usize = 40;
pub const ROWS_USED: usize = 0;
pub const SLOTS_USED: usize = 1;
pub const SLOTS_COMMITTED: usize = 2;
pub const COMMITTED_LENGTHS: usize = 3;
pub const STAGED_LENGTHS: usize = 19;
pub const PHASE: usize = 35;
pub const IMAGE_LENGTH: usize = 36;
pub const HASH_LENGTH: usize = 37;
pub const NEXT_IDENTIFIER: usize = 38;
pub const LAST_SWEEP: usize = 39;

/// The limit of rule 6.2.
pub const LIMIT: u32 = 65_536;

/// Flags of a session.
pub const FLAGS_READ: u32 = 0x0001;
pub const FLAGS_READ_WRITE: u32 = 0x0003;
pub const FLAGS_FLASH: u32 = 0x0002;

/// Job status: 0 untried, 1 running, 2 succeeded, 3 failed.
pub const UNTRIED: u32 = 0;
pub const RUNNING: u32 = 1;
pub const SUCCEEDED: u32 = 2;
pub const FAILED: u32 = 3;

/// The control block, 40 words: rows used (mask), slots used (mask), slots committed (mask), 16 committed lengths,
/// 16 staged lengths, phase (0 Idle, 1 Uploading, 2 Verified), image length, hash length, next identifier, last sweep.
pub struct Memory<'a> {
    pub control: &'a mut [u32],
    pub table: &'a mut [u32],
    pub names: &'a mut [u8],
    pub committed: &'a mut [u8],
    pub staged: &'a mut [u8],
    pub image: &'a mut [u8],
    pub hash: &'a mut [u8],
}

#[derive(Clone, Copy, Debug, PartialEq, Eq)]
pub enum Phase {
    Idle,
    Uploading,
    Verified,
}

impl Phase {
    pub fn of_number(number: u32) -> Option<Phase> {
        match number {
            0 => Some(Phase::Idle),
            1 => Some(Phase::Uploading),
            2 => Some(Phase::Verified),
            _ => None,
        }
    }

    pub fn number(self) -> u32 {
        match self {
            Phase::Idle => 0,
            Phase::Uploading => 1,
            Phase::Verified => 2,
        }
    }
}

/// A row of the session table (rules 5.4 and 5.5).
#[derive(Clone, Copy, Debug, PartialEq, Eq)]
pub struct Row {
    pub identifier: u32,
    pub blob: u32,
    pub flags: u32,
    pub status: u32,
    pub clean: bool,
    /// Bits 19 to 31 of the third word, shifted down; zero in a sound state.
    pub remaining: u32,
    pub stamp: u32,
}

impl Row {
    pub fn of_words(words: [u32; ROW_WORDS]) -> Row {
        let [identifier, blob, bits, stamp] = words;
        Row {
            identifier,
            blob,
            flags: bits & 0xFFFF,
            status: (bits >> 16) & 3,
            clean: (bits >> 18) & 1 == 1,
            remaining: bits >> 19,
            stamp,
        }
    }

    pub fn words(&self) -> [u32; ROW_WORDS] {
        let clean = u32::from(self.clean);
        let bits = self.flags | (self.status << 16) | (clean << 18) | (self.remaining << 19);
        [self.identifier, self.blob, bits, self.stamp]
    }

    /// The store slot of a store row.
    pub fn slot(&self) -> Option<usize> {
        usize::try_from(self.blob).ok().filter(|slot| *slot < SLOTS)
    }

    pub fn flash(&self) -> Option<Flash> {
        Flash::of_blob(self.blob)
    }

    pub fn is_writing_store(&self) -> bool {
        self.slot().is_some() && self.flags == FLAGS_READ_WRITE
    }

    fn is_read_only_store(&self) -> bool {
        self.slot().is_some() && self.flags == FLAGS_READ
    }
}

/// Whether the mask has this place.
pub fn bit(mask: u32, place: usize) -> bool {
    u32::try_from(place).ok().and_then(|place| mask.checked_shr(place)).is_some_and(|shifted| shifted & 1 == 1)
}

fn with_bit(mask: u32, place: usize, value: bool) -> u32 {
    let one = u32::try_from(place).ok().and_then(|place| 1u32.checked_shl(place)).unwrap_or(0);
    if value {
        mask | one
    } else {
        mask & !one
    }
}

/// Overwrites the front of the target with the source.
pub fn put(target: &mut [u8], source: &[u8]) {
    for (place, byte) in target.iter_mut().zip(source) {
        *place = *byte;
    }
}

/// Whether all bytes are zero (by blocks, which is fast).
fn all_zero(bytes: &[u8]) -> bool {
    bytes.chunks(256).all(|block| block.iter().fold(0, |gathered, byte| gathered | byte) == 0)
}

// Reading and changing the values.
impl Memory<'_> {
    pub fn value(&self, place: usize) -> u32 {
        self.control.get(place).copied().unwrap_or(0)
    }

    pub fn set_value(&mut self, place: usize, value: u32) {
        if let Some(word) = self.control.get_mut(place) {
            *word = value;
        }
    }

    pub fn phase(&self) -> Option<Phase> {
        Phase::of_number(self.value(PHASE))
    }

    pub fn set_phase(&mut self, phase: Phase) {
        self.set_value(PHASE, phase.number());
    }

    pub fn row_used(&self, row: usize) -> bool {
        bit(self.value(ROWS_USED), row)
    }

    pub fn slot_used(&self, slot: usize) -> bool {
        bit(self.value(SLOTS_USED), slot)
    }

    pub fn slot_committed(&self, slot: usize) -> bool {
        bit(self.value(SLOTS_COMMITTED), slot)
    }

    pub fn set_row_used(&mut self, row: usize, used: bool) {
        self.set_value(ROWS_USED, with_bit(self.value(ROWS_USED), row, used));
    }

    pub fn set_slot_used(&mut self, slot: usize, used: bool) {
        self.set_value(SLOTS_USED, with_bit(self.value(SLOTS_USED), slot, used));
    }

    pub fn set_slot_committed(&mut self, slot: usize, committed: bool) {
        self.set_value(SLOTS_COMMITTED, with_bit(self.value(SLOTS_COMMITTED), slot, committed));
    }

    pub fn committed_length(&self, slot: usize) -> u32 {
        self.value(COMMITTED_LENGTHS.saturating_add(slot))
    }

    pub fn set_committed_length(&mut self, slot: usize, length: u32) {
        self.set_value(COMMITTED_LENGTHS.saturating_add(slot), length);
    }

    pub fn staged_length(&self, slot: usize) -> u32 {
        self.value(STAGED_LENGTHS.saturating_add(slot))
    }

    pub fn set_staged_length(&mut self, slot: usize, length: u32) {
        self.set_value(STAGED_LENGTHS.saturating_add(slot), length);
    }
}

// Reading and changing rows and regions.
impl Memory<'_> {
    pub fn row(&self, row: usize) -> Row {
        let words = self.table.chunks_exact(ROW_WORDS).nth(row).and_then(|words| words.try_into().ok());
        Row::of_words(words.unwrap_or([0; ROW_WORDS]))
    }

    pub fn set_row(&mut self, row: usize, new: &Row) {
        self.set_row_words(row, new.words());
    }

    pub fn set_row_words(&mut self, row: usize, new: [u32; ROW_WORDS]) {
        if let Some(words) = self.table.chunks_exact_mut(ROW_WORDS).nth(row) {
            for (word, value) in words.iter_mut().zip(new) {
                *word = value;
            }
        }
    }

    pub fn name(&self, slot: usize) -> &[u8] {
        self.names.chunks_exact(NAME_BYTES).nth(slot).unwrap_or(&[])
    }

    pub fn set_name(&mut self, slot: usize, name: &Padded) {
        if let Some(bytes) = self.names.chunks_exact_mut(NAME_BYTES).nth(slot) {
            put(bytes, name);
        }
    }

    pub fn committed_region(&self, slot: usize) -> &[u8] {
        self.committed.chunks_exact(SLOT_CAPACITY).nth(slot).unwrap_or(&[])
    }

    pub fn committed_region_mut(&mut self, slot: usize) -> &mut [u8] {
        self.committed.chunks_exact_mut(SLOT_CAPACITY).nth(slot).unwrap_or(&mut [])
    }

    pub fn staged_region(&self, slot: usize) -> &[u8] {
        self.staged.chunks_exact(SLOT_CAPACITY).nth(slot).unwrap_or(&[])
    }

    pub fn staged_region_mut(&mut self, slot: usize) -> &mut [u8] {
        self.staged.chunks_exact_mut(SLOT_CAPACITY).nth(slot).unwrap_or(&mut [])
    }

    /// The committed region of the slot becomes its staged one.
    pub fn copy_committed_to_staged(&mut self, slot: usize) {
        let source = self.committed.chunks_exact(SLOT_CAPACITY).nth(slot).unwrap_or(&[]);
        let target = self.staged.chunks_exact_mut(SLOT_CAPACITY).nth(slot).unwrap_or(&mut []);
        put(target, source);
    }

    /// The staged region of the slot becomes its committed one.
    pub fn copy_staged_to_committed(&mut self, slot: usize) {
        let source = self.staged.chunks_exact(SLOT_CAPACITY).nth(slot).unwrap_or(&[]);
        let target = self.committed.chunks_exact_mut(SLOT_CAPACITY).nth(slot).unwrap_or(&mut []);
        put(target, source);
    }

    /// An unused slot (rule 6.10): mark, committed mark, lengths, name and both regions are zero.
    pub fn free_slot(&mut self, slot: usize) {
        self.set_slot_used(slot, false);
        self.set_slot_committed(slot, false);
        self.set_committed_length(slot, 0);
        self.set_staged_length(slot, 0);
        self.set_name(slot, &[0; NAME_BYTES]);
        self.committed_region_mut(slot).fill(0);
        self.staged_region_mut(slot).fill(0);
    }

    /// Image bytes and length go to zero.
    pub fn zero_image(&mut self) {
        self.image.fill(0);
        self.set_value(IMAGE_LENGTH, 0);
    }

    /// Hash bytes and length go to zero.
    pub fn zero_hash(&mut self) {
        self.hash.fill(0);
        self.set_value(HASH_LENGTH, 0);
    }
}

// Finding.
impl Memory<'_> {
    /// The places of the used rows, ascending.
    pub fn used_rows(&self) -> impl Iterator<Item = usize> + '_ {
        (0..ROWS).filter(|row| self.row_used(*row))
    }

    pub fn row_of_identifier(&self, identifier: u32) -> Option<usize> {
        self.used_rows().find(|row| self.row(*row).identifier == identifier)
    }

    pub fn row_of_blob(&self, blob: u32) -> Option<usize> {
        self.used_rows().find(|row| self.row(*row).blob == blob)
    }

    pub fn flash_row(&self) -> Option<usize> {
        self.used_rows().find(|row| self.row(*row).flash().is_some())
    }

    pub fn row_of_slot(&self, slot: usize) -> Option<usize> {
        self.used_rows().find(|row| self.row(*row).slot() == Some(slot))
    }

    /// The used slot that holds the name: the whole name is compared.
    pub fn slot_of_name(&self, name: &Padded) -> Option<usize> {
        (0..SLOTS).find(|slot| self.slot_used(*slot) && self.name(*slot) == name)
    }

    pub fn lowest_free_row(&self) -> Option<usize> {
        (0..ROWS).find(|row| !self.row_used(*row))
    }

    pub fn lowest_free_slot(&self) -> Option<usize> {
        (0..SLOTS).find(|slot| !self.slot_used(*slot))
    }

    fn has_writing_row(&self, slot: usize) -> bool {
        self.row_of_slot(slot).is_some_and(|row| self.row(row).is_writing_store())
    }
}

/// Whether the state is sound (rules 6.1-6.13). (The answer buffer is no part of the memory; its length is tested where
/// it is lent.)
///
/// Reading 13: regions of used slots, image and hash bytes are free. Reading 18: so are stamps and the last sweep.
pub fn is_sound(memory: &Memory) -> bool {
    lent_lengths_exact(memory)
        && values_small(memory)
        && lengths_fit(memory)
        && unused_rows_zero(memory)
        && unused_slots_zero(memory)
        && used_slots_named(memory)
        && used_rows_different(memory)
        && memory.used_rows().all(|row| row_allowed(memory, &memory.row(row)))
        && at_most_one_flash_row(memory)
        && (0..SLOTS).all(|slot| used_slot_fits_its_row(memory, slot))
        && idle_lengths_zero(memory)
}

fn lent_lengths_exact(memory: &Memory) -> bool {
    memory.control.len() == CONTROL_WORDS
        && memory.table.len() == 64
        && memory.names.len() == 512
        && memory.committed.len() == 65_536
        && memory.staged.len() == 65_536
        && memory.image.len() == IMAGE_CAPACITY
        && memory.hash.len() == HASH_CAPACITY
}

/// Rule 6.2; and the phase is one of three (reading 1).
fn values_small(memory: &Memory) -> bool {
    memory.value(ROWS_USED) < LIMIT
        && memory.value(SLOTS_USED) < LIMIT
        && memory.value(SLOTS_COMMITTED) < LIMIT
        && memory.value(NEXT_IDENTIFIER) < LIMIT
        && memory.phase().is_some()
}

/// No length is above its capacity (rules 6.3 and 6.11).
fn lengths_fit(memory: &Memory) -> bool {
    let slot_fits = |slot| fits(memory.committed_length(slot), SLOT_CAPACITY) && fits(memory.staged_length(slot), SLOT_CAPACITY);
    (0..SLOTS).all(slot_fits)
        && fits(memory.value(IMAGE_LENGTH), IMAGE_CAPACITY)
        && fits(memory.value(HASH_LENGTH), HASH_CAPACITY)
}

fn fits(length: u32, capacity: usize) -> bool {
    usize::try_from(length).is_ok_and(|length| length <= capacity)
}

fn unused_rows_zero(memory: &Memory) -> bool {
    (0..ROWS).all(|row| memory.row_used(row) || memory.row(row).words() == [0; ROW_WORDS])
}

/// Rule 6.10: nothing is left in an unused slot.
fn unused_slots_zero(memory: &Memory) -> bool {
    (0..SLOTS).all(|slot| memory.slot_used(slot) || slot_zero(memory, slot))
}

fn slot_zero(memory: &Memory, slot: usize) -> bool {
    !memory.slot_committed(slot)
        && memory.committed_length(slot) == 0
        && memory.staged_length(slot) == 0
        && all_zero(memory.name(slot))
        && all_zero(memory.committed_region(slot))
        && all_zero(memory.staged_region(slot))
}

/// Rules 6.11 and 6.13: the names of used slots.
fn used_slots_named(memory: &Memory) -> bool {
    let used = || (0..SLOTS).filter(|slot| memory.slot_used(*slot));
    used().all(|slot| is_padded_store_name(memory.name(slot)))
        && used().all(|slot| used().all(|other| other == slot || memory.name(other) != memory.name(slot)))
}

/// Rule 6.9: no identifier and no blob twice.
fn used_rows_different(memory: &Memory) -> bool {
    let differ = |one: &Row, other: &Row| one.identifier != other.identifier && one.blob != other.blob;
    memory
        .used_rows()
        .all(|row| memory.used_rows().all(|other| other == row || differ(&memory.row(row), &memory.row(other))))
}

/// Rule 6.9: one flash row at most.
fn at_most_one_flash_row(memory: &Memory) -> bool {
    memory.used_rows().filter(|row| memory.row(*row).flash().is_some()).count() <= 1
}

/// What each used row must be by itself: a store row or a flash row with allowed values.
fn row_allowed(memory: &Memory, row: &Row) -> bool {
    let numbers = row.identifier < LIMIT && row.remaining == 0;
    numbers
        && match (row.slot(), row.flash()) {
            (Some(slot), _) => store_row_allowed(memory, row, slot),
            (None, Some(flash)) => flash_row_allowed(memory, row, flash),
            (None, None) => false,
        }
}

/// A store row (rule 6.6).
fn store_row_allowed(memory: &Memory, row: &Row, slot: usize) -> bool {
    memory.slot_used(slot)
        && (row.flags == FLAGS_READ || row.flags == FLAGS_READ_WRITE)
        && row.status == UNTRIED
        && (!row.clean || memory.slot_committed(slot))
        && (!row.is_read_only_store() || row.clean)
}

/// A flash row (rule 6.7), with status and phase as the kind demands.
fn flash_row_allowed(memory: &Memory, row: &Row, flash: Flash) -> bool {
    row.flags == FLAGS_FLASH
        && !row.clean
        && memory.phase().is_some_and(|phase| status_and_phase_allowed(flash, row.status, phase))
}

/// Which status goes with which phase (rule 6.8).
fn status_and_phase_allowed(flash: Flash, status: u32, phase: Phase) -> bool {
    match flash {
        Flash::Image | Flash::Hash => status == UNTRIED && phase == Phase::Uploading,
        Flash::Verify => phase == Phase::Uploading || (phase == Phase::Verified && status == UNTRIED),
        Flash::Update => phase == Phase::Verified,
        Flash::Cleanup => status == UNTRIED || (status == SUCCEEDED && phase == Phase::Idle),
    }
}

/// Rule 6.12: what a slot has by its writer.
fn used_slot_fits_its_row(memory: &Memory, slot: usize) -> bool {
    if !memory.slot_used(slot) {
        return true;
    }
    let writing = memory.has_writing_row(slot);
    let committed_part = memory.slot_committed(slot) || (memory.committed_length(slot) == 0 && writing);
    committed_part && (writing || memory.staged_length(slot) == 0)
}

/// Rule 6.3: in Idle the flash is empty.
fn idle_lengths_zero(memory: &Memory) -> bool {
    memory.phase() != Some(Phase::Idle) || (memory.value(IMAGE_LENGTH) == 0 && memory.value(HASH_LENGTH) == 0)
}
