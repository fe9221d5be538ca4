//! Store files: valid ones in every form that the reader takes, and others with faults put in. The encoding is written
//! here a second time, so that the tests do not rest on the implementation's.

use super::tally::FAULTS;
use second::harness::{random_length, random_store_name, Random};

/// Names and scans, in order.
pub type Scans = Vec<(Vec<u8>, Vec<u8>)>;

/// The wire types that are read, and the others.
pub const READ_TYPES: [u64; 4] = [0, 1, 2, 5];
pub const OTHER_TYPES: [u64; 4] = [3, 4, 6, 7];
const COUNTED: u64 = 2;
/// A key is a number of 64 bits, three of which are the wire type.
pub const LARGEST_FIELD: u64 = u64::MAX >> 3;
const BASE: &[u8] = b"/scan/";

// ---- The one form that is written ----

/// A number in at least so many bytes, more than it needs if so wanted.
pub fn number_in(length: usize, mut value: u64) -> Vec<u8> {
    let mut bytes = Vec::new();
    loop {
        let group = (value % 128) as u8;
        value /= 128;
        if value == 0 && bytes.len() + 1 >= length {
            bytes.push(group);
            return bytes;
        }
        bytes.push(group + 128);
    }
}

pub fn number(value: u64) -> Vec<u8> {
    number_in(1, value)
}

pub fn key(field: u64, wire_type: u64) -> Vec<u8> {
    number(field * 8 + wire_type)
}

pub fn counted(field: u64, value: &[u8]) -> Vec<u8> {
    [&key(field, COUNTED)[..], &number(value.len() as u64), value].concat()
}

pub fn base_part() -> Vec<u8> {
    counted(1, BASE)
}

pub fn blob_part(name: &[u8], data: &[u8]) -> Vec<u8> {
    counted(2, &[counted(1, name), counted(2, data)].concat())
}

/// The file that a store with these scans saves.
pub fn saved(scans: &Scans) -> Vec<u8> {
    let blobs = scans.iter().map(|(name, data)| blob_part(name, data));
    std::iter::once(base_part()).chain(blobs).flatten().collect()
}

// ---- Lists of scans ----

/// So many different store names.
pub fn names(random: &mut Random, count: usize) -> Vec<Vec<u8>> {
    let mut names: Vec<Vec<u8>> = Vec::new();
    while names.len() < count {
        let name = random_store_name(random);
        if !names.contains(&name) {
            names.push(name);
        }
    }
    names
}

/// Up to 16 scans; long ones are rare, so that most files are small.
pub fn scans(random: &mut Random) -> Scans {
    let any = random.between(0, 16) as usize;
    let count = random.pick(&[0, 1, 2, 3, 4, 15, 16, any]);
    let capacity = random.pick(&[3, 20, 200, 4096]);
    names(random, count)
        .into_iter()
        .map(|name| {
            let length = random_length(random, capacity);
            (name, random.bytes(length as usize))
        })
        .collect()
}

// ---- Other forms that are read ----

/// Writes fields in forms that are not the writer's own.
pub struct Loose<'r> {
    pub random: &'r mut Random,
}

impl Loose<'_> {
    pub fn number(&mut self, value: u64) -> Vec<u8> {
        let length = if self.random.chance(30) {
            self.random.between(1, 10) as usize
        } else {
            1
        };
        number_in(length, value)
    }

    pub fn key(&mut self, field: u64, wire_type: u64) -> Vec<u8> {
        self.number(field * 8 + wire_type)
    }

    pub fn counted(&mut self, field: u64, value: &[u8]) -> Vec<u8> {
        [
            self.key(field, COUNTED),
            self.number(value.len() as u64),
            value.to_vec(),
        ]
        .concat()
    }

    /// The number of a field that is not known: the settings, or any other.
    pub fn unknown_number(&mut self) -> u64 {
        let any = self.random.number();
        let shift = self.random.below(60);
        // Cut to fewer bits, such a number would be a known one or 0.
        let cut_is_known = (1 << self.random.between(2, 60)) + self.random.below(3);
        let chosen = [3, 4, 5, 16, LARGEST_FIELD, any >> shift, cut_is_known];
        self.random.pick(&chosen).clamp(3, LARGEST_FIELD)
    }

    fn value(&mut self, wire_type: u64) -> Vec<u8> {
        match wire_type {
            0 => {
                let any = self.random.number() >> self.random.below(64);
                let value = self.random.pick(&[0, 1, 127, 128, 150, u64::MAX, any]);
                self.number(value)
            }
            1 => self.random.bytes(8),
            5 => self.random.bytes(4),
            _ => {
                let length = self.random.below(40) as usize;
                let value = self.random.bytes(length);
                [self.number(length as u64), value].concat()
            }
        }
    }

    /// A field that the reader skips.
    pub fn skipped(&mut self) -> Vec<u8> {
        let field = self.unknown_number();
        let wire_type = self.random.pick(&READ_TYPES);
        [self.key(field, wire_type), self.value(wire_type)].concat()
    }

    fn some_skipped(&mut self) -> Vec<Vec<u8>> {
        let count = self.random.pick(&[0, 0, 1, 3]);
        (0..count).map(|_| self.skipped()).collect()
    }

    /// The fields of a single field: the right one last, before it others that do not count.
    fn repeated(&mut self, field: u64, value: &[u8]) -> Vec<Vec<u8>> {
        let mut fields = Vec::new();
        while self.random.chance(20) {
            let length = self.random.pick(&[0, 1, 7, 4097]);
            let other = self.random.bytes(length);
            let other = self.random.pick(&[other, BASE.to_vec(), b"/scan/a".to_vec()]);
            fields.push(self.counted(field, &other));
        }
        fields.push(self.counted(field, value));
        fields
    }

    pub fn blob(&mut self, name: &[u8], data: &[u8]) -> Vec<u8> {
        let names = self.repeated(1, name);
        // No data says the same as empty data.
        let data = if data.is_empty() && self.random.chance(50) {
            Vec::new()
        } else {
            self.repeated(2, data)
        };
        let skipped = self.some_skipped();
        let message = merged(self.random, vec![names, data, skipped]);
        self.counted(2, &message)
    }

    /// A file that gives these scans.
    pub fn file(&mut self, scans: &Scans) -> Vec<u8> {
        let bases = self.repeated(1, BASE);
        let blobs = scans.iter().map(|(name, data)| self.blob(name, data)).collect();
        let skipped = self.some_skipped();
        merged(self.random, vec![bases, blobs, skipped])
    }
}

/// Lays the fields of all lists end to end in any order that keeps the order within each list.
pub fn merged(random: &mut Random, lists: Vec<Vec<Vec<u8>>>) -> Vec<u8> {
    let mut order: Vec<usize> = Vec::new();
    for (place, list) in lists.iter().enumerate() {
        order.extend(vec![place; list.len()]);
    }
    random.shuffle(&mut order);
    let mut lists: Vec<_> = lists.into_iter().map(Vec::into_iter).collect();
    order
        .into_iter()
        .flat_map(|place| lists[place].next().expect("a field for each turn"))
        .collect()
}

// ---- Faults ----

/// A fault of a file: bytes to put between its top-level fields, or other bytes that show the fault only as the last of
/// the file. A fault that is something missing has no bytes.
#[derive(Clone)]
pub struct Fault {
    pub code: u8,
    between: Vec<u8>,
    last: Option<Vec<u8>>,
}

impl Fault {
    pub fn is_of_wire(&self) -> bool {
        self.code <= 0xE5
    }
}

/// The code that a file with these faults gives, which stand in it in this order.
pub fn expected(faults: &[&Fault]) -> u8 {
    let of_wire = faults.iter().find(|fault| fault.is_of_wire());
    let lowest = faults.iter().map(|fault| fault.code).min();
    of_wire.map(|fault| fault.code).or(lowest).unwrap_or(0)
}

/// The names that the sound blobs of a faulty file have; none of them is the name of a faulty blob.
fn filler_name(place: usize) -> Vec<u8> {
    format!("/scan/filler{place}").into_bytes()
}

/// A file with just these faults, in this order where they have a place.
pub fn faulty(random: &mut Random, faults: &[&Fault]) -> Vec<u8> {
    let has = |code| faults.iter().any(|fault| fault.code == code);
    let any = random.between(1, 12) as usize;
    let fillers = if has(0xEA) { random.pick(&[17, 18, 40]) } else { any };
    let mut loose = Loose { random };
    let mut fields: Vec<Vec<u8>> = Vec::new();
    for place in 0..fillers {
        fields.push(loose.blob(&filler_name(place), b"scan"));
    }
    if !has(0xE6) {
        fields.push(loose.counted(1, BASE));
    }
    fields.push(loose.skipped());
    random.shuffle(&mut fields);
    let mut places: Vec<u64> = faults.iter().map(|_| random.below(fields.len() as u64 + 1)).collect();
    places.sort_unstable();
    let mut file = Vec::new();
    for place in 0..=fields.len() {
        let here = faults.iter().zip(&places).filter(|(_, at)| **at == place as u64);
        here.for_each(|(fault, _)| file.extend(&fault.between));
        file.extend(fields.get(place).unwrap_or(&Vec::new()));
    }
    file
}

/// The same, but the last fault stands at the end of the file in the form that only shows there.
pub fn faulty_at_end(random: &mut Random, faults: &[&Fault]) -> Option<Vec<u8>> {
    let (end, before) = faults.split_last()?;
    let bytes = end.last.clone()?;
    let mut file = faulty(random, before);
    file.extend(bytes);
    Some(file)
}

pub fn fault(random: &mut Random, code: u8) -> Fault {
    let mut loose = Loose { random };
    let (between, last) = match code {
        0xE1..=0xE5 => wire_fault(&mut loose, code),
        0xE6 => (wrong_base(&mut loose), None),
        0xE7 => (wrong_name(&mut loose), None),
        0xE8 => (loose.blob(&filler_name(0), b"again"), None),
        0xE9 => {
            let length = loose.random.pick(&[4097, 4098, 9000]);
            (loose.blob(b"/scan/long", &vec![7; length]), None)
        }
        // More sound blobs than there are slots: see `faulty`.
        _ => (Vec::new(), None),
    };
    Fault { code, between, last }
}

/// Bases that a file may not have.
pub const WRONG_BASES: [&[u8]; 9] = [
    b"",
    b"/scan",
    b"/scan/\0",
    b"\0/scan/",
    b"/Scan/",
    b"scan/",
    b"/scan//",
    b"/flash/",
    b"/scan/a",
];

/// A base that is none; or none at all.
fn wrong_base(loose: &mut Loose) -> Vec<u8> {
    let wrong = loose.random.pick(&WRONG_BASES);
    match loose.random.below(3) {
        0 => Vec::new(),
        1 => loose.counted(1, wrong),
        _ => [loose.counted(1, BASE), loose.counted(1, wrong)].concat(),
    }
}

/// Names that no blob of a file may have.
pub const WRONG_NAMES: [&[u8]; 20] = [
    b"",
    b"/scan/",
    b"/scan",
    b"moreau",
    b"scan/moreau",
    b"/Scan/moreau",
    b"/scan/a\0",
    b"/scan/\0",
    b"/scan/a/b",
    b"/scan/a/",
    b"/scan/a-b",
    b"/scan/a_b",
    b"/scan/a b",
    b"/scan/@",
    b"/scan/[",
    b"/scan/`",
    b"/scan/{",
    b"/scan/\xC3\xA4",
    b"/flash/image",
    b"/scan/abcdefghijklmnopqrstuvwxyz",
];

fn wrong_name(loose: &mut Loose) -> Vec<u8> {
    let wrong = loose.random.pick(&WRONG_NAMES);
    match loose.random.below(5) {
        0 => loose.counted(2, b""),
        1 => {
            let data = loose.counted(2, b"scan");
            loose.counted(2, &data)
        }
        _ => loose.blob(wrong, b"scan"),
    }
}

/// A fault of the wire at the top level, or within a blob that is whole but for it.
fn wire_fault(loose: &mut Loose, code: u8) -> (Vec<u8>, Option<Vec<u8>>) {
    let last = wire_fault_at_end(loose, code);
    let between = if loose.random.chance(50) {
        wire_fault_anywhere(loose, code)
    } else {
        let before = loose.counted(1, b"/scan/faulty");
        let anywhere = wire_fault_anywhere(loose, code);
        let fault = loose.random.pick(&[anywhere, last.clone()]);
        loose.counted(2, &[before, fault].concat())
    };
    (between, Some(last))
}

/// A number that is longer than ten bytes, or larger than 64 bits.
fn wrong_number(random: &mut Random) -> Vec<u8> {
    let mut bytes = vec![0x80; 9];
    random.fill(&mut bytes);
    bytes.iter_mut().for_each(|byte| *byte |= 0x80);
    let end: [&[u8]; 6] = [
        &[2],
        &[3],
        &[0x7F],
        &[0x80, 0],
        &[0x81, 0],
        &[0xFF, 0xFF, 0xFF, 0xFF, 1],
    ];
    bytes.extend(random.pick(&end));
    bytes
}

/// Bytes that give this code whatever follows them.
fn wire_fault_anywhere(loose: &mut Loose, code: u8) -> Vec<u8> {
    let other_type = loose.random.pick(&OTHER_TYPES);
    let read_type = loose.random.pick(&READ_TYPES);
    let fixed_or_number = loose.random.pick(&[0, 1, 5]);
    let known = loose.random.pick(&[1, 2]);
    let unknown = loose.unknown_number();
    match code {
        0xE1 => {
            let field = loose.random.pick(&[0, known, unknown]);
            loose.key(field, other_type)
        }
        0xE2 => [loose.key(0, read_type), loose.value(read_type)].concat(),
        0xE3 => [loose.key(known, fixed_or_number), loose.value(fixed_or_number)].concat(),
        0xE4 => {
            let before = match loose.random.below(3) {
                0 => Vec::new(),
                1 => loose.key(unknown, 0),
                _ => loose.key(known, COUNTED),
            };
            [before, wrong_number(loose.random)].concat()
        }
        _ => {
            let field = loose.random.pick(&[known, unknown]);
            let any = loose.random.number() >> 20;
            let far = loose
                .random
                .pick(&[1 << 24, 1 << 31, 1 << 32, 1 << 63, u64::MAX, any.max(1 << 24)]);
            [loose.key(field, COUNTED), loose.number(far)].concat()
        }
    }
}

/// Bytes that give this code if their message ends behind them.
fn wire_fault_at_end(loose: &mut Loose, code: u8) -> Vec<u8> {
    let unknown = loose.unknown_number();
    let known = loose.random.pick(&[1, 2]);
    let field = loose.random.pick(&[known, unknown]);
    match code {
        0xE2 => {
            let read_type = loose.random.pick(&READ_TYPES);
            loose.key(0, read_type)
        }
        0xE3 => {
            let wire_type = loose.random.pick(&[0, 1, 5]);
            loose.key(known, wire_type)
        }
        0xE4 => match loose.random.below(3) {
            0 => cut_number(loose.random),
            1 => [loose.key(unknown, 0), cut_number(loose.random)].concat(),
            _ => [loose.key(field, COUNTED), cut_number(loose.random)].concat(),
        },
        0xE5 => value_past_end(loose, field, unknown),
        _ => wire_fault_anywhere(loose, code),
    }
}

/// A number without its last byte; but as a key it has at least one byte, or it would be no field at all.
fn cut_number(random: &mut Random) -> Vec<u8> {
    let length = random.between(1, 9) as usize;
    random.bytes(length).iter().map(|byte| byte | 0x80).collect()
}

fn value_past_end(loose: &mut Loose, field: u64, unknown: u64) -> Vec<u8> {
    let wire_type = loose.random.pick(&[1, 2, 5]);
    let whole = match wire_type {
        1 => 8,
        5 => 4,
        _ => loose.random.between(1, 20),
    };
    let there = loose.random.below(whole) as usize;
    let bytes = loose.random.bytes(there);
    if wire_type == COUNTED {
        [loose.key(field, COUNTED), loose.number(whole), bytes].concat()
    } else {
        [loose.key(unknown, wire_type), bytes].concat()
    }
}

// ---- Two faults at one place ----

/// Bytes with two faults at one key, as the last of a message: the code they give, and the other fault's.
pub fn at_one_key(random: &mut Random) -> Vec<(u8, u8, Vec<u8>)> {
    let other_type = random.pick(&OTHER_TYPES);
    let known = random.pick(&[1, 2]);
    let wrong = wrong_number(random);
    // Its lowest bits would be those of a key with another fault.
    let with_low_bits = |bits: u64| {
        let mut bytes = wrong.clone();
        bytes[0] = 0x80 | bits as u8;
        bytes
    };
    let past_end = [key(9, COUNTED), number(1)].concat();
    vec![
        (0xE1, 0xE2, key(0, other_type)),
        (0xE1, 0xE3, key(known, other_type)),
        (0xE1, 0xE4, [key(9, other_type), wrong.clone()].concat()),
        (0xE1, 0xE5, [key(9, other_type), past_end].concat()),
        (0xE2, 0xE4, [key(0, 0), wrong.clone()].concat()),
        (0xE2, 0xE4, key(0, 0)),
        (0xE2, 0xE4, key(0, COUNTED)),
        (0xE2, 0xE5, [key(0, 1), vec![0; 7]].concat()),
        (0xE2, 0xE5, [key(0, 5), vec![0; 3]].concat()),
        (0xE2, 0xE5, [key(0, COUNTED), number(1)].concat()),
        (0xE3, 0xE4, [key(known, 0), wrong.clone()].concat()),
        (0xE3, 0xE4, key(known, 0)),
        (0xE3, 0xE5, [key(known, 1), vec![0; 7]].concat()),
        (0xE3, 0xE5, key(known, 5)),
        (0xE4, 0xE1, with_low_bits(other_type)),
        (0xE4, 0xE2, with_low_bits(0)),
        (0xE4, 0xE3, with_low_bits(known * 8)),
        (0xE4, 0xE5, [key(9, COUNTED), wrong.clone()].concat()),
        (0xE4, 0xE5, [key(known, COUNTED), vec![0x80]].concat()),
    ]
}

/// A blob whose length goes one byte past the end, with a fault inside: the outer fault is met first.
pub fn fault_in_blob_past_end(random: &mut Random, code: u8) -> Vec<u8> {
    let mut loose = Loose { random };
    let inside = wire_fault_anywhere(&mut loose, code);
    [loose.key(2, COUNTED), loose.number(inside.len() as u64 + 1), inside].concat()
}

// ---- Files with no plan ----

/// Bytes of which many are keys, short lengths and letters of names.
pub fn rubbish(random: &mut Random) -> Vec<u8> {
    let length = random.below(60);
    let likely = [
        0x0A, 0x12, 0x0A, 0x12, 1, 2, 3, 6, 7, 0x18, 0x21, 0x2D, 0x80, 0xFF, b'/', b'a',
    ];
    let mut file = Vec::new();
    if random.chance(50) {
        file.extend(base_part());
    }
    for _ in 0..length {
        let any = random.byte();
        let byte = random.pick(&likely);
        file.push(if random.chance(85) { byte } else { any });
    }
    file
}

/// Small changes at any place.
pub fn damage(random: &mut Random, file: &mut Vec<u8>) {
    for _ in 0..random.between(1, 3) {
        let place = random.below(file.len() as u64 + 1) as usize;
        let other = random.below(file.len() as u64 + 1) as usize;
        let range = place.min(other)..place.max(other);
        match random.below(7) {
            0 => file.insert(place, random.byte()),
            1 => file.truncate(place),
            2 => drop(file.drain(place..(place + 1).min(file.len()))),
            3 => file.splice(place..place, random.bytes(3)).for_each(drop),
            4 => {
                let copy = file[range].to_vec();
                file.splice(place..place, copy).for_each(drop);
            }
            5 => change(file, place, |byte| byte.wrapping_add(1)),
            _ => change(file, place, |byte| byte ^ 1 << random.below(8)),
        }
    }
}

fn change(file: &mut [u8], place: usize, new: impl FnOnce(u8) -> u8) {
    if let Some(byte) = file.get_mut(place) {
        *byte = new(*byte);
    }
}

/// Any file: for histories, and for states of all kinds.
pub fn any(random: &mut Random) -> Vec<u8> {
    let scans = scans(random);
    match random.below(10) {
        0..=2 => saved(&scans),
        3..=5 => Loose { random }.file(&scans),
        6 => {
            let mut file = saved(&scans);
            damage(random, &mut file);
            file
        }
        7 => rubbish(random),
        _ => {
            let code = random.pick(&FAULTS);
            let fault = fault(random, code);
            faulty(random, &[&fault])
        }
    }
}
