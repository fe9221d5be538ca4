//! Store files: what is saved loads back, files in every form that is read, files with faults, and damaged ones.

use super::files::{
    self, counted, key, number, number_in, Loose, Scans, LARGEST_FIELD, OTHER_TYPES, READ_TYPES, WRONG_NAMES,
};
use super::pair::{Pair, Step};
use super::tally::{beside, Tally, FAULTS};
use super::Share;
use second::harness::{random_sound_state, random_state_without_store_sessions, OwnedMemory, Random};
use second::store_file::PART_BYTES;

const SAVED: u64 = 1_500;
const VALID: u64 = 5_000;
const LIMIT_ROUNDS: u64 = 2;
const FAULTY: u64 = 400;
const PAIR_ROUNDS: u64 = 80;
const CUT: u64 = 200;
const CHANGED: u64 = 12;
const DAMAGED: u64 = 45_000;

// ---- Loading with a known end ----

/// What a file must give: its scans, or the code that refuses it.
type Wanted<'s> = Result<&'s Scans, u8>;

/// Starts from the state and loads the file.
fn load(pair: &mut Pair, state: &OwnedMemory, file: &[u8], wanted: Wanted, context: &str) {
    pair.restart(state, context);
    load_again(pair, file, wanted, context);
}

/// The same, from the state that is there.
fn load_again(pair: &mut Pair, file: &[u8], wanted: Wanted, context: &str) {
    let code = pair.step(&Step::Load(file.to_vec()));
    let shown = &file[..file.len().min(300)];
    let right = wanted.err().unwrap_or(0);
    assert_eq!(code, right, "{context}: code {code:02X} of {shown:02X?}");
    if let Ok(scans) = wanted {
        let found = pair.memory().committed_scans();
        assert!(found == *scans, "{context}: other scans from {shown:02X?}");
    }
}

/// A state with at least one store session.
fn state_with_store_session(random: &mut Random) -> OwnedMemory {
    loop {
        let state = random_sound_state(random);
        if state.sessions().any(|row| row.slot().is_some()) {
            return state;
        }
    }
}

// ---- Saving ----

/// What a state saves is one certain file; other states take it and then hold the same names and scans.
pub fn saved(share: Share) -> Tally {
    share.run(share.of(SAVED), |pair, place, seed| {
        let mut random = Random::new(seed);
        let state = match place {
            0 => OwnedMemory::fresh(),
            _ => random_sound_state(&mut random),
        };
        let context = format!("saved store, seed {seed:#X}");
        pair.start(&state, &context);
        let file = pair.save();
        let scans = state.committed_scans();
        assert!(file == files::saved(&scans), "{context}: another file");
        parts_past_the_last(pair, &mut random, scans.len() as u32);
        other_buffers(pair, &mut random);
        let empty = random_state_without_store_sessions(&mut random);
        load(pair, &empty, &file, Ok(&scans), &context);
        assert!(pair.save() == file, "{context}: saved again it is another file");
        let busy = state_with_store_session(&mut random);
        load(pair, &busy, &file, Err(0xE0), &context);
    })
}

fn parts_past_the_last(pair: &mut Pair, random: &mut Random, last: u32) {
    for part in [last + 1, last + 2, 17, 256, 65_536, random.word().max(17), u32::MAX] {
        let buffer = PART_BYTES;
        assert_eq!(pair.step(&Step::SavePart { part, buffer }), 0xC9);
    }
}

fn other_buffers(pair: &mut Pair, random: &mut Random) {
    for buffer in [0, 8, 64, PART_BYTES - 1, PART_BYTES + 1, random.below(9000) as usize] {
        let part = random.below(18) as u32;
        let code = pair.step(&Step::SavePart { part, buffer });
        assert_eq!(code == 0xFF, buffer != PART_BYTES);
    }
}

// ---- Valid files ----

/// Files in any form, into states of all kinds; then into the state that the first file left.
pub fn valid(share: Share) -> Tally {
    share.run(share.of(VALID), |pair, place, seed| {
        let mut random = Random::new(seed);
        let state = match place % 8 {
            0 => OwnedMemory::fresh(),
            _ => random_state_without_store_sessions(&mut random),
        };
        let context = format!("valid file, seed {seed:#X}");
        pair.start(&state, &context);
        for _ in 0..2 {
            let scans = files::scans(&mut random);
            let file = Loose { random: &mut random }.file(&scans);
            load_again(pair, &file, Ok(&scans), &context);
            if random.chance(10) {
                assert!(pair.save() == files::saved(&scans), "{context}: another file");
            }
        }
    })
}

// ---- Limits ----

/// A file at a limit: what it is, its bytes, and what it must give.
struct Case {
    what: String,
    file: Vec<u8>,
    wanted: Result<Scans, u8>,
}

/// Every file at a limit into the fresh state and others; beside a store session it is E0 all the same.
pub fn limits(share: Share) -> Tally {
    share.run(share.of(LIMIT_ROUNDS), |pair, _, seed| {
        let mut random = Random::new(seed);
        let mut cases = Vec::new();
        base_cases(&mut cases);
        name_cases(&mut cases);
        data_cases(&mut cases);
        count_cases(&mut cases, &mut random);
        repeat_cases(&mut cases);
        wire_cases(&mut cases);
        for Case { what, file, wanted } in cases {
            let context = format!("limit: {what}, seed {seed:#X}");
            let wanted = wanted.as_ref().map_err(|code| *code);
            let other = random_state_without_store_sessions(&mut random);
            pair.start(&other, &context);
            load_again(pair, &file, wanted, &context);
            load(pair, &OwnedMemory::fresh(), &file, wanted, &context);
            let busy = state_with_store_session(&mut random);
            load(pair, &busy, &file, Err(0xE0), &context);
        }
    })
}

fn add(cases: &mut Vec<Case>, what: &str, fields: &[Vec<u8>], wanted: Result<Scans, u8>) {
    let (what, file) = (what.to_string(), fields.concat());
    cases.push(Case { what, file, wanted });
}

fn one_scan(name: &[u8], data: &[u8]) -> Result<Scans, u8> {
    Ok(vec![(name.to_vec(), data.to_vec())])
}

fn no_scan() -> Result<Scans, u8> {
    Ok(Scans::new())
}

fn base_cases(cases: &mut Vec<Case>) {
    let right = files::base_part;
    let blob = || files::blob_part(b"/scan/a", b"1");
    add(cases, "empty file", &[], Err(0xE6));
    add(cases, "base alone", &[right()], no_scan());
    add(cases, "blob without base", &[blob()], Err(0xE6));
    add(
        cases,
        "base behind the blob",
        &[blob(), right()],
        one_scan(b"/scan/a", b"1"),
    );
    for base in files::WRONG_BASES {
        let wrong = || counted(1, base);
        add(cases, "another base", &[wrong()], Err(0xE6));
        add(cases, "another base last", &[right(), wrong()], Err(0xE6));
        add(cases, "another base first", &[wrong(), right()], no_scan());
    }
}

fn name_cases(cases: &mut Vec<Case>) {
    let base = files::base_part;
    let blob = |fields: &[Vec<u8>]| counted(2, &fields.concat());
    add(cases, "no name", &[base(), blob(&[counted(2, b"1")])], Err(0xE7));
    add(cases, "empty blob", &[base(), blob(&[])], Err(0xE7));
    for name in WRONG_NAMES {
        let (wrong, right) = (|| counted(1, name), || counted(1, b"/scan/a"));
        add(cases, "wrong name", &[base(), blob(&[wrong()])], Err(0xE7));
        add(
            cases,
            "wrong name last",
            &[base(), blob(&[right(), wrong()])],
            Err(0xE7),
        );
        let first = blob(&[wrong(), right()]);
        add(cases, "wrong name first", &[base(), first], one_scan(b"/scan/a", b""));
    }
    for length in [1, 24, 25, 26, 27, 58, 100] {
        let name = [&b"/scan/"[..], &vec![b'z'; length]].concat();
        let wanted = if length <= 25 { one_scan(&name, b"1") } else { Err(0xE7) };
        add(cases, "letters", &[base(), files::blob_part(&name, b"1")], wanted);
    }
    for letter in 0..=255u8 {
        let name = [&b"/scan/a"[..], &[letter], b"b"].concat();
        let wanted = match letter {
            b'0'..=b'9' | b'A'..=b'Z' | b'a'..=b'z' => one_scan(&name, b"1"),
            _ => Err(0xE7),
        };
        add(cases, "letter", &[base(), files::blob_part(&name, b"1")], wanted);
    }
}

fn data_cases(cases: &mut Vec<Case>) {
    let base = files::base_part;
    let blob = |fields: &[Vec<u8>]| counted(2, &fields.concat());
    let name = || counted(1, b"/scan/a");
    add(cases, "no data", &[base(), blob(&[name()])], one_scan(b"/scan/a", b""));
    for length in [0, 1, 127, 128, 4095, 4096, 4097, 4098, 70_000] {
        let data = vec![0xA5; length];
        let wanted = if length <= 4096 {
            one_scan(b"/scan/a", &data)
        } else {
            Err(0xE9)
        };
        add(cases, "data", &[base(), files::blob_part(b"/scan/a", &data)], wanted);
    }
    let (long, short) = (|| counted(2, &[1; 4097]), || counted(2, b"1"));
    let last = blob(&[name(), short(), long()]);
    add(cases, "too much data last", &[base(), last], Err(0xE9));
    let first = blob(&[long(), name(), short()]);
    add(
        cases,
        "too much data first",
        &[base(), first],
        one_scan(b"/scan/a", b"1"),
    );
}

/// As many blobs, each with its number in its name.
fn numbered(count: usize) -> Scans {
    let name = |number| format!("/scan/{number}").into_bytes();
    (0..count).map(|number| (name(number), b"1".to_vec())).collect()
}

fn count_cases(cases: &mut Vec<Case>, random: &mut Random) {
    for count in [0, 1, 2, 15, 16, 17, 18, 40, 5_000, 90_000] {
        let mut scans = numbered(count);
        random.shuffle(&mut scans);
        let file = files::saved(&scans);
        let wanted = if count <= 16 { Ok(scans) } else { Err(0xEA) };
        add(cases, "count of blobs", &[file], wanted);
    }
}

fn repeat_cases(cases: &mut Vec<Case>) {
    for count in [1, 2, 15, 16, 17, 40, 5_000, 90_000] {
        let mut scans = numbered(count);
        scans.push((b"/scan/0".to_vec(), b"2".to_vec()));
        add(cases, "first name again at the end", &[files::saved(&scans)], Err(0xE8));
        scans.push((b"/scan/-".to_vec(), b"2".to_vec()));
        add(cases, "and then a wrong name", &[files::saved(&scans)], Err(0xE7));
    }
    let alike = [&b"/scan/moreau"[..], b"/scan/moreau2", b"/scan/Moreau", b"/scan/morea"];
    let scans: Scans = alike.map(|name| (name.to_vec(), b"1".to_vec())).to_vec();
    add(cases, "names that are alike", &[files::saved(&scans)], Ok(scans));
    let blob = |names: &[&[u8]]| counted(2, &names.iter().flat_map(|name| counted(1, name)).collect::<Vec<u8>>());
    let (a, b) = (&b"/scan/a"[..], &b"/scan/b"[..]);
    let scans = vec![(a.to_vec(), Vec::new()), (b.to_vec(), Vec::new())];
    let fields = [files::base_part(), blob(&[a]), blob(&[a, b])];
    add(cases, "a name that does not count", &fields, Ok(scans));
    let fields = [files::base_part(), blob(&[a]), blob(&[b, a])];
    add(cases, "a name that counts", &fields, Err(0xE8));
}

/// Numbers, keys and lengths at their limits: at the end of the file, at the end of a blob, and at the end of a blob
/// with more behind it, which the blob's end must keep apart.
fn wire_cases(cases: &mut Vec<Case>) {
    let base = files::base_part;
    let blob = |fields: &[u8]| counted(2, &[&counted(1, b"/scan/a")[..], fields].concat());
    for (what, fields, code) in wire_limits() {
        let wanted = |accepted| if code == 0 { accepted } else { Err(code) };
        let one = || one_scan(b"/scan/a", b"");
        let followed = [base(), blob(&fields), counted(9, &[0; 40])];
        add(cases, what, &[base(), blob(&fields)], wanted(one()));
        add(cases, what, &followed, wanted(one()));
        add(cases, what, &[base(), fields], wanted(no_scan()));
    }
}

/// Fields that are not known, whole or not, as the last of their message.
fn wire_limits() -> Vec<(&'static str, Vec<u8>, u8)> {
    let mut limits = Vec::new();
    let fields = [3, 4, 5, 15, 16, 1 << 29, (1 << 29) + 1, (1 << 32) + 2, LARGEST_FIELD];
    fields.into_iter().for_each(|field| field_limits(&mut limits, field));
    for wire_type in 0..8 {
        let code = if READ_TYPES.contains(&wire_type) { 0xE2 } else { 0xE1 };
        limits.push(("field 0", key(0, wire_type), code));
    }
    for length in 1..=12 {
        let code = if length <= 10 { 0 } else { 0xE4 };
        limits.push(("long key", [number_in(length, 3 << 3), number(1)].concat(), code));
        limits.push(("long number", [key(3, 0), number_in(length, 1)].concat(), code));
        limits.push(("long length", [key(3, 2), number_in(length, 1), vec![7]].concat(), code));
    }
    // Cut to fewer bits, or added to a place, most of these lengths would fit.
    for length in [3, 4, (1 << 32) + 3, (1 << 63) + 3, u64::MAX - 9, u64::MAX] {
        let code = if length == 3 { 0 } else { 0xE5 };
        limits.push(("far length", [key(3, 2), number(length), vec![7; 3]].concat(), code));
    }
    for tenth in 0..=255u8 {
        let code = if tenth <= 1 { 0 } else { 0xE4 };
        let value = [vec![0xFF; 9], vec![tenth]].concat();
        limits.push(("tenth byte", [key(3, 0), value].concat(), code));
    }
    limits
}

/// A field of every type, whole and without its last byte.
fn field_limits(limits: &mut Vec<(&'static str, Vec<u8>, u8)>, field: u64) {
    for wire_type in READ_TYPES {
        let value = match wire_type {
            0 => number(150),
            1 => vec![1; 8],
            5 => vec![1; 4],
            _ => [number(3), vec![1; 3]].concat(),
        };
        let whole = [key(field, wire_type), value].concat();
        let cut = if wire_type == 0 { 0xE4 } else { 0xE5 };
        limits.push(("cut field", whole[..whole.len() - 1].to_vec(), cut));
        limits.push(("field", whole, 0));
    }
    for wire_type in OTHER_TYPES {
        limits.push(("other type", key(field, wire_type), 0xE1));
    }
}

// ---- Faults ----

/// One fault in a file that is otherwise valid, every fault in turn.
pub fn faults(share: Share) -> Tally {
    share.run(share.of(FAULTY), |pair, _, seed| {
        let mut random = Random::new(seed);
        let state = random_state_without_store_sessions(&mut random);
        pair.start(&state, &format!("faulty file, seed {seed:#X}"));
        for code in FAULTS {
            let fault = files::fault(&mut random, code);
            check_faulty(pair, &mut random, &[&fault], seed);
        }
    })
}

/// Loads a file with these faults in this order, and one in which the last is at the file's end.
fn check_faulty(pair: &mut Pair, random: &mut Random, faults: &[&files::Fault], seed: u64) {
    let wanted = Err(files::expected(faults));
    let codes: Vec<u8> = faults.iter().map(|fault| fault.code).collect();
    let context = format!("faults {codes:02X?}, seed {seed:#X}");
    let file = files::faulty(random, faults);
    load_again(pair, &file, wanted, &context);
    if let Some(file) = files::faulty_at_end(random, faults) {
        load_again(pair, &file, wanted, &context);
    }
}

/// Every two faults in one file, in both orders; each of the two alone gives its own code.
pub fn two_faults(share: Share) -> Tally {
    share.run(share.of(PAIR_ROUNDS), |pair, _, seed| {
        let mut random = Random::new(seed);
        let state = random_state_without_store_sessions(&mut random);
        pair.start(&state, &format!("two faults, seed {seed:#X}"));
        for one in FAULTS {
            for other in FAULTS.into_iter().filter(|other| *other > one) {
                let (first, second) = (files::fault(&mut random, one), files::fault(&mut random, other));
                for faults in [&[&first][..], &[&second], &[&first, &second], &[&second, &first]] {
                    check_faulty(pair, &mut random, faults, seed);
                }
                pair.tally.situation(&beside(one, other));
            }
        }
        faults_at_one_key(pair, &mut random, seed);
    })
}

/// At the end of the file, and at the end of a blob with more behind it.
fn faults_at_one_key(pair: &mut Pair, random: &mut Random, seed: u64) {
    for (code, other, bytes) in files::at_one_key(random) {
        let context = format!("{code:02X} and {other:02X} at one key, seed {seed:#X}");
        let top = [files::base_part(), bytes.clone()].concat();
        load_again(pair, &top, Err(code), &context);
        let inner = [counted(2, &bytes), files::base_part(), counted(9, &[0; 40])].concat();
        load_again(pair, &inner, Err(code), &context);
        pair.tally.situation(&beside(code, other));
    }
    for inside in [0xE1, 0xE2, 0xE3, 0xE4] {
        let context = format!("{inside:02X} in a blob past the end, seed {seed:#X}");
        let blob = files::fault_in_blob_past_end(random, inside);
        let file = [files::base_part(), blob].concat();
        load_again(pair, &file, Err(0xE5), &context);
    }
}

// ---- Damage ----

/// A valid file that is not long.
fn small_file(random: &mut Random, loose: bool) -> Vec<u8> {
    let count = random.between(1, 3) as usize;
    let names = files::names(random, count);
    let scans: Scans = names.into_iter().map(|name| (name, random.bytes(3))).collect();
    if loose {
        Loose { random }.file(&scans)
    } else {
        files::saved(&scans)
    }
}

/// Loads the file; if it is accepted, the state is set back.
fn try_file(pair: &mut Pair, state: &OwnedMemory, file: Vec<u8>, context: &str) {
    if pair.step(&Step::Load(file)) == 0 {
        pair.restart(state, context);
    }
}

/// Files cut at every byte.
pub fn cut(share: Share) -> Tally {
    share.run(share.of(CUT), |pair, _, seed| {
        let mut random = Random::new(seed);
        let state = random_state_without_store_sessions(&mut random);
        let context = format!("cut file, seed {seed:#X}");
        pair.start(&state, &context);
        let file = small_file(&mut random, true);
        for length in 0..file.len().min(400) {
            try_file(pair, &state, file[..length].to_vec(), &context);
        }
    })
}

/// Small files with every byte changed to every other.
pub fn every_byte(share: Share) -> Tally {
    share.run(share.of(CHANGED), |pair, place, seed| {
        let mut random = Random::new(seed);
        let state = match place {
            0 => OwnedMemory::fresh(),
            _ => random_state_without_store_sessions(&mut random),
        };
        let context = format!("changed byte, seed {seed:#X}");
        pair.start(&state, &context);
        let file = short_file(&mut random, place % 2 == 1);
        for place in 0..file.len() {
            for change in 1..=255 {
                let mut changed = file.clone();
                changed[place] ^= change;
                try_file(pair, &state, changed, &context);
            }
        }
    })
}

/// At most 40 bytes, so that all changes of them can be tried.
fn short_file(random: &mut Random, loose: bool) -> Vec<u8> {
    loop {
        let file = small_file(random, loose);
        if file.len() <= 40 {
            return file;
        }
    }
}

/// Valid files with small changes, and bytes at random.
pub fn damaged(share: Share) -> Tally {
    let mut state = OwnedMemory::fresh();
    share.run(share.of(DAMAGED), |pair, place, seed| {
        let mut random = Random::new(seed);
        let context = format!("damaged file, seed {seed:#X}");
        if place % 50 == 0 {
            state = random_state_without_store_sessions(&mut random);
            pair.start(&state, &context);
        } else {
            pair.note(&context);
        }
        let file = match place % 3 {
            0 => files::rubbish(&mut random),
            _ => {
                let mut file = small_file(&mut random, place % 3 == 1);
                files::damage(&mut random, &mut file);
                file
            }
        };
        try_file(pair, &state, file, &context);
    })
}
