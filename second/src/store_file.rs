//! The committed store as a file: a BinaryBlobStore message (source document 003), written in parts and read back.
//!
//! Document 02, request b, decides; readings 22 to 31 say how its open places were read.

use crate::code::Code;
use crate::names::{self, Padded, BASE};
use crate::state::{is_sound, put, Memory, SLOTS, SLOT_CAPACITY};
use crate::wire::{push_counted, Fields, Kind, Value};
use std::collections::HashSet;

/// The length of the lent buffer; the longest part has 4,135 bytes.
pub const PART_BYTES: usize = 4200;

/// The known fields of the store, and below them those of a blob.
const STORE_BASE: u64 = 1;
const STORE_BLOB: u64 = 2;
const BLOB_NAME: u64 = 1;
const BLOB_DATA: u64 = 2;

// ---- Writing ----

/// Writes one part of the file to the front of the buffer: the base is part 0, each committed slot one more. Gives the
/// completion code + 256 × the part's length.
pub fn save_part(part: u32, memory: &Memory, buffer: &mut [u8]) -> u32 {
    // Reading 22: the buffer is lent too.
    if buffer.len() != PART_BYTES || !is_sound(memory) {
        return Code::NOT_SOUND.number();
    }
    match part_bytes(part, memory) {
        Some(bytes) => {
            put(buffer, &bytes);
            let length = u32::try_from(bytes.len()).unwrap_or(0);
            Code::SUCCESS.number() | (length << 8)
        }
        None => Code::RANGE.number(),
    }
}

fn part_bytes(part: u32, memory: &Memory) -> Option<Vec<u8>> {
    let Some(blobs_before) = part.checked_sub(1) else {
        return Some(base_part());
    };
    let mut committed = (0..SLOTS).filter(|slot| memory.slot_committed(*slot));
    let slot = committed.nth(usize::try_from(blobs_before).ok()?)?;
    Some(blob_part(slot, memory))
}

fn base_part() -> Vec<u8> {
    let mut part = Vec::new();
    push_counted(&mut part, STORE_BASE, BASE);
    part
}

/// Reading 23: both fields are written, also for an empty scan.
fn blob_part(slot: usize, memory: &Memory) -> Vec<u8> {
    let length = usize::try_from(memory.committed_length(slot)).unwrap_or(0);
    let scan = memory.committed_region(slot).get(..length).unwrap_or(&[]);
    let mut blob = Vec::new();
    push_counted(&mut blob, BLOB_NAME, names::characters(memory.name(slot)));
    push_counted(&mut blob, BLOB_DATA, scan);
    let mut part = Vec::new();
    push_counted(&mut part, STORE_BLOB, &blob);
    part
}

/// All parts end to end. `None` if the state is not sound.
pub fn save(memory: &Memory) -> Option<Vec<u8>> {
    is_sound(memory).then(|| (0..).map_while(|part| part_bytes(part, memory)).flatten().collect())
}

// ---- Reading ----

/// Replaces the store by what the file holds. Gives the completion code; a refusal changes nothing.
pub fn load(file: &[u8], memory: &mut Memory) -> u32 {
    if !is_sound(memory) {
        return Code::NOT_SOUND.number();
    }
    // Reading 24: sessions of the flash may stay open.
    if memory.used_rows().any(|row| memory.row(row).slot().is_some()) {
        return Code::STORE_OPEN.number();
    }
    match read_store(file).and_then(|store| scans(&store)) {
        Ok(scans) => {
            replace(&scans, memory);
            Code::SUCCESS.number()
        }
        Err(code) => code.number(),
    }
}

/// What the file says, before its contents are tested. Of each single field it has what came last (reading 28).
struct Store<'f> {
    base: Option<&'f [u8]>,
    blobs: Vec<Blob<'f>>,
}

struct Blob<'f> {
    name: Option<&'f [u8]>,
    data: &'f [u8],
}

/// Reading 27: in the store and in a blob alike, fields 1 and 2 are counted bytes, and every other is skipped.
fn kind_of_known(field: u64) -> Option<Kind> {
    (field == 1 || field == 2).then_some(Kind::Counted)
}

/// A blob is walked as soon as it is met, so that the fault nearest to the front is the one found.
fn read_store(file: &[u8]) -> Result<Store<'_>, Code> {
    let mut store = Store { base: None, blobs: Vec::new() };
    for field in Fields::new(file, kind_of_known) {
        let field = field?;
        match (field.number, field.value) {
            (STORE_BASE, Value::Counted(base)) => store.base = Some(base),
            (STORE_BLOB, Value::Counted(blob)) => store.blobs.push(read_blob(blob)?),
            _ => {}
        }
    }
    Ok(store)
}

fn read_blob(message: &[u8]) -> Result<Blob<'_>, Code> {
    let mut blob = Blob { name: None, data: &[] };
    for field in Fields::new(message, kind_of_known) {
        let field = field?;
        match (field.number, field.value) {
            (BLOB_NAME, Value::Counted(name)) => blob.name = Some(name),
            (BLOB_DATA, Value::Counted(data)) => blob.data = data,
            _ => {}
        }
    }
    Ok(blob)
}

/// A blob that has a store name.
struct Scan<'f> {
    name: Padded,
    data: &'f [u8],
}

/// The tests over the whole file: each is made of all blobs before the next begins (reading 29).
fn scans<'f>(store: &Store<'f>) -> Result<Vec<Scan<'f>>, Code> {
    if store.base != Some(BASE) {
        return Err(Code::STORE_BASE);
    }
    let scans: Option<Vec<Scan>> = store.blobs.iter().map(named).collect();
    let scans = scans.ok_or(Code::STORE_NAME)?;
    if has_repeated_name(&scans) {
        return Err(Code::STORE_REPEAT);
    }
    if scans.iter().any(|scan| scan.data.len() > SLOT_CAPACITY) {
        return Err(Code::STORE_DATA);
    }
    if scans.len() > SLOTS {
        return Err(Code::STORE_BLOBS);
    }
    Ok(scans)
}

/// Reading 30: the name in the file has no NUL.
fn named<'f>(blob: &Blob<'f>) -> Option<Scan<'f>> {
    let name = blob.name.filter(|name| names::is_store_name(name))?;
    Some(Scan { name: names::pad(name), data: blob.data })
}

/// A file may have very many blobs, so no name is compared with all others.
fn has_repeated_name(scans: &[Scan]) -> bool {
    let mut seen = HashSet::new();
    !scans.iter().all(|scan| seen.insert(scan.name))
}

/// Reading 31: slots from 0 on in the file's order; nothing of the old store is left.
fn replace(scans: &[Scan], memory: &mut Memory) {
    (0..SLOTS).for_each(|slot| memory.free_slot(slot));
    for (slot, scan) in scans.iter().enumerate() {
        memory.set_slot_used(slot, true);
        memory.set_slot_committed(slot, true);
        memory.set_name(slot, &scan.name);
        memory.set_committed_length(slot, u32::try_from(scan.data.len()).unwrap_or(0));
        put(memory.committed_region_mut(slot), scan.data);
    }
}
