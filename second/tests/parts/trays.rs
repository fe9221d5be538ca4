//! Trays: buffers of every length, every place where a tray may stop, every cut, messages of every length, sweeps and
//! clocks that run backward, flash updates, what is refused, any messages, trays cut in two, and calls that go on where
//! the one before stopped. `tray_checks` says what must hold of each.

use super::breakers::BREAKERS;
use super::generator::{Generator, Profile, PROFILES};
use super::messages::{good_messages, lively_state};
use super::pair::{run, Pair, Step};
use super::tally::Tally;
use super::tray_checks::{call, check, check_whole, Alone, Left, Lent, Record, Tray, MOST, ROOM, WHOLE_BUFFER};
use super::unsound::{damage, resize_slice};
use super::Share;
use second::harness::{self, near, random_sound_state, Implementation, OwnedMemory, Random, Second, OTHER};
use second::message;
use second::names::{characters, Flash};
use second::state::{LAST_SWEEP, NEXT_IDENTIFIER, PHASE};

const BUFFER_STATES: u64 = 2;
const STOP_STATES: u64 = 2;
const CUT_ROUNDS: u64 = 4;
const MANY_ROUNDS: u64 = 4;
const MESSAGE_ROUNDS: u64 = 6;
const RUBBISH: u64 = 200;
const SWEEPS: u64 = 1_000;
const UPDATES: u64 = 100;
const BROKEN_ROUNDS: u64 = 8;
const DAMAGED: u64 = 1_000;
const LENT_STATES: u64 = 20;
const HISTORIES: u64 = 96;
const TRAYS_OF_HISTORY: u64 = 50;
const IN_TWO: u64 = 120;
const GOING_ON: u64 = 600;

// ---- States and records ----

/// A state with a store session that reads at least 200 bytes, and the session.
fn state_to_read(random: &mut Random) -> (OwnedMemory, u16) {
    loop {
        let state = random_sound_state(random);
        let long = |row: &second::state::Row| row.slot().is_some() && state.view(row).0 >= 200;
        let session = state.sessions().find(|row| long(row)).map(|row| row.identifier as u16);
        if let Some(session) = session {
            return (state, session);
        }
    }
}

/// The same clock for each: no sweep is due.
fn at_last_sweep(state: &OwnedMemory, messages: Vec<Vec<u8>>) -> Vec<Record> {
    let clock = state.control[LAST_SWEEP];
    messages.into_iter().map(|message| (clock, message)).collect()
}

/// So many messages, each made by its place.
fn messages(number: usize, one: impl FnMut(usize) -> Vec<u8>) -> Vec<Vec<u8>> {
    (0..number).map(one).collect()
}

/// A message that no state accepts.
fn refused(random: &mut Random) -> Vec<u8> {
    let mut wrong_crc = harness::session_stat(random.word() as u16);
    wrong_crc[4] ^= 1;
    let length = random.pick(&[0, 1, 3, 4, 64, 65, 66, 255]);
    let rubbish = random.bytes(length);
    random.pick(&[
        wrong_crc,
        rubbish,
        harness::message(11, &[]),
        vec![0xCF, 0xC2, 0x01, 0x00],
    ])
}

/// Trays of 64 records, with what they are about: responses of 64 bytes, of other lengths, of none.
fn full_trays(random: &mut Random, state: &OwnedMemory, session: u16) -> Vec<(&'static str, Vec<Record>)> {
    let shorter = |requested: u64| harness::read(session, 3, requested as u32);
    let within = random.between(1, 62) as usize;
    let trays = vec![
        (LONGEST_READS, longest_reads(session)),
        ("shorter reads", messages(MOST, |_| shorter(random.between(50, 59)))),
        ("reads of every length", messages(MOST, |place| shorter(place as u64))),
        ("a refusal first", longest_reads_but_one(random, session, 0)),
        ("a refusal within", longest_reads_but_one(random, session, within)),
        ("a refusal last", longest_reads_but_one(random, session, 63)),
        ("refusals", messages(MOST, |_| refused(random))),
        ("mixed messages", messages(MOST, |_| mixed(random, state, session))),
    ];
    let stamped = |(what, messages)| (what, at_last_sweep(state, messages));
    trays.into_iter().map(stamped).collect()
}

const LONGEST_READS: &str = "longest reads";

/// Each is answered by 64 bytes.
fn longest_reads(session: u16) -> Vec<Vec<u8>> {
    messages(MOST, |_| harness::read(session, 7, 58))
}

fn longest_reads_but_one(random: &mut Random, session: u16, place: usize) -> Vec<Vec<u8>> {
    let mut messages = longest_reads(session);
    messages[place] = refused(random);
    messages
}

fn mixed(random: &mut Random, state: &OwnedMemory, session: u16) -> Vec<u8> {
    let name = harness::random_store_name(random);
    let next = state.control[NEXT_IDENTIFIER] as u16;
    let near_next = next.wrapping_add(random.below(8) as u16);
    let data = random.bytes(20);
    match random.below(10) {
        0 => harness::open(3, &name),
        1 => harness::open(1, &name),
        2 => harness::close(near_next),
        3 => harness::write(near_next, 0, &data),
        4 => harness::enumerate(random.below(8) as u32),
        5 => harness::count(),
        6 => refused(random),
        7 => harness::session_stat(session),
        _ => harness::read(session, random.below(100) as u32, 58),
    }
}

// ---- Buffers ----

/// Buffers of every length near no byte, and near what 64 responses can have.
pub fn buffers(share: Share) -> Tally {
    share.run(share.of(BUFFER_STATES), |pair, _, seed| {
        let mut random = Random::new(seed);
        let (state, session) = state_to_read(&mut random);
        pair.tally.states += 1;
        for (what, records) in full_trays(&mut random, &state, session) {
            let tray = Tray::whole(&records);
            for length in (0..=200).chain(WHOLE_BUFFER - 70..=WHOLE_BUFFER + 70) {
                pair.note(&format!("tray of {what}, buffer of {length}, seed {seed:#X}"));
                let lent = Lent::new(&mut random, &state, length);
                let left = check(pair, &tray, &lent);
                if what == LONGEST_READS {
                    assert_eq!(left.done(), (length / 64).min(64), "{}", pair.place());
                }
            }
        }
    })
}

/// Each place where a tray may stop, with 63, 64 and 65 bytes free before it.
pub fn stops(share: Share) -> Tally {
    share.run(share.of(STOP_STATES), |pair, _, seed| {
        let mut random = Random::new(seed);
        let (state, session) = state_to_read(&mut random);
        pair.tally.states += 1;
        for (what, records) in full_trays(&mut random, &state, session) {
            pair.note(&format!("tray of {what}, seed {seed:#X}"));
            let whole = check_whole(pair, &mut random, &state, &records);
            let mut used = 0;
            for (place, result) in whole.lent.results.iter().enumerate() {
                for free in [63, 64, 65] {
                    pair.note(&format!("tray of {what}, {free} free at {place}, seed {seed:#X}"));
                    let lent = Lent::new(&mut random, &state, used + free);
                    let left = check(pair, &Tray::whole(&records), &lent);
                    assert_eq!(left.done() > place, free >= 64, "{}", pair.place());
                }
                used += (result >> 8) as usize;
            }
        }
    })
}

// ---- Records ----

/// Trays of so many short records that the 64th is met from both sides, each cut at every byte.
pub fn cuts(share: Share) -> Tally {
    share.run(share.of(CUT_ROUNDS), |pair, _, seed| {
        let mut random = Random::new(seed);
        let (state, session) = state_to_read(&mut random);
        pair.tally.states += 1;
        for number in [0, 1, 2, 63, 64, 65, 66] {
            let records = at_last_sweep(&state, messages(number, |_| short(&mut random, session)));
            pair.note(&format!("tray of {number} records, cut, seed {seed:#X}"));
            cut_from(pair, &mut random, &state, &records, 0);
        }
        // The last record is long; only that is cut.
        for number in [0, 1, 62, 63, 64, 65] {
            for length in [63, 64, 65, 255] {
                let mut records = at_last_sweep(&state, messages(number, |_| short(&mut random, session)));
                let before = Tray::whole(&records).bytes().len();
                records.push((random.word(), of_length(&mut random, message::WRITE, session, length)));
                pair.note(&format!("tray of {number} and {length} bytes, cut, seed {seed:#X}"));
                cut_from(pair, &mut random, &state, &records, before);
            }
        }
    })
}

/// The tray of these records cut at every byte from this place on, and whole.
fn cut_from(pair: &mut Pair, random: &mut Random, state: &OwnedMemory, records: &[Record], first: usize) {
    let whole = Tray::whole(records).bytes().len();
    for bytes in first..=whole {
        let buffer = random.pick(&[0, 63, 64, 200, WHOLE_BUFFER]);
        let lent = Lent::new(random, state, buffer);
        check(pair, &Tray::cut(records, bytes), &lent);
    }
}

fn short(random: &mut Random, session: u16) -> Vec<u8> {
    let length = random.below(5) as usize;
    let rubbish = random.bytes(length);
    random.pick(&[
        Vec::new(),
        rubbish,
        harness::count(),
        harness::message(11, &[]),
        harness::session_stat(session),
    ])
}

/// More records than fit, around numbers at which a count could begin anew.
pub fn many(share: Share) -> Tally {
    share.run(share.of(MANY_ROUNDS), |pair, _, seed| {
        let mut random = Random::new(seed);
        let (state, session) = state_to_read(&mut random);
        pair.tally.states += 1;
        for number in (65..330).chain([511, 512, 513, 575, 576, 577, 65_535, 65_536, 65_600]) {
            pair.note(&format!("tray of {number} records, seed {seed:#X}"));
            let records = at_last_sweep(&state, messages(number, |_| short(&mut random, session)));
            let buffer = random.pick(&[0, 63, 64, 200, WHOLE_BUFFER]);
            let lent = Lent::new(&mut random, &state, buffer);
            let left = check(pair, &Tray::whole(&records), &lent);
            assert_eq!(left.code(), 0xC8, "{}", pair.place());
        }
    })
}

// ---- Messages ----

/// Messages of every length that a record can have, those at the limits at several places, and good messages with each
/// of their bits changed.
pub fn every_message(share: Share) -> Tally {
    share.run(share.of(MESSAGE_ROUNDS), |pair, _, seed| {
        let mut random = Random::new(seed);
        let state = lively_state(&mut random);
        let session = random.pick(&state.sessions().collect::<Vec<_>>()).identifier as u16;
        pair.tally.states += 1;
        let mut trial = Trial {
            pair,
            random,
            state,
            session,
            seed,
        };
        trial.every_length();
        trial.lengths_at_places();
        trial.every_bit();
    })
}

/// A state that trays of messages are sent to, with one of its sessions.
struct Trial<'p> {
    pair: &'p mut Pair,
    random: Random,
    state: OwnedMemory,
    session: u16,
    seed: u64,
}

impl Trial<'_> {
    /// Sends the messages, with room for all responses.
    fn send(&mut self, what: &str, messages: Vec<Vec<u8>>) {
        self.pair.note(&format!("tray of {what}, seed {:#X}", self.seed));
        let records = at_last_sweep(&self.state, messages);
        check_whole(self.pair, &mut self.random, &self.state, &records);
    }

    /// The frame is as good as the length lets it be.
    fn every_length(&mut self) {
        for subcommand in 0..=11 {
            for first in (0..256).step_by(MOST) {
                let one = |place| of_length(&mut self.random, subcommand, self.session, first + place);
                let messages = messages(MOST, one);
                self.send(
                    &format!("subcommand {subcommand} with {first} bytes and more"),
                    messages,
                );
            }
        }
    }

    /// One message of a length at a limit, among others that are answered.
    fn lengths_at_places(&mut self) {
        for length in [0, 3, 4, 63, 64, 65, 66, 255] {
            for special in [0, 1, 31, 62, 63] {
                let mut messages = messages(MOST, |_| harness::session_stat(self.session));
                messages[special] = of_length(&mut self.random, message::WRITE, self.session, length);
                self.send(&format!("{length} bytes at place {special}"), messages);
            }
        }
    }

    /// The good messages themselves come first.
    fn every_bit(&mut self) {
        let mut all = good_messages(&mut self.random, &self.state);
        for message in all.clone() {
            for bit in 0..message.len() * 8 {
                let mut bytes = message.clone();
                bytes[bit / 8] ^= 1 << (bit % 8);
                all.push(bytes);
            }
        }
        for messages in all.chunks(MOST) {
            self.send("messages with a bit changed", messages.to_vec());
        }
    }
}

/// A message of this length; where there is room, its fields begin with the session.
fn of_length(random: &mut Random, subcommand: u8, session: u16, length: usize) -> Vec<u8> {
    let mut fields = random.bytes(length.saturating_sub(6));
    let front = [&session.to_le_bytes()[..], &[0; 4]].concat();
    for (place, byte) in fields.iter_mut().zip(front) {
        *place = byte;
    }
    let mut bytes = harness::message(subcommand, &fields);
    bytes.resize(length, 0);
    bytes
}

/// Records of any bytes, at any clock, cut anywhere.
pub fn rubbish(share: Share) -> Tally {
    share.run(share.of(RUBBISH), |pair, _, seed| {
        let mut random = Random::new(seed);
        let state = random_sound_state(&mut random);
        pair.tally.states += 1;
        pair.note(&format!("tray of rubbish, seed {seed:#X}"));
        for _ in 0..4 {
            let number = random.below(70) as usize;
            let records: Vec<Record> = (0..number).map(|_| any_record(&mut random)).collect();
            let bytes = random.below(Tray::whole(&records).bytes().len() as u64 + 1) as usize;
            let buffer = random.below(200) as usize;
            let lent = Lent::new(&mut random, &state, buffer);
            check(pair, &Tray::whole(&records), &lent);
            check(pair, &Tray::cut(&records, bytes), &lent);
        }
    })
}

fn any_record(random: &mut Random) -> Record {
    let length = usize::from(random.byte());
    (random.word(), random.bytes(length))
}

// ---- Clocks ----

/// Opens, good and refused, and uses of sessions, at the edges of sweeps; the clock jumps on and back.
pub fn sweeps(share: Share) -> Tally {
    share.run(share.of(SWEEPS), |pair, _, seed| {
        let mut random = Random::new(seed);
        let state = random_sound_state(&mut random);
        pair.tally.states += 1;
        pair.note(&format!("tray of sweeps, seed {seed:#X}"));
        let number = random.between(1, 64) as usize;
        let records = records_that_sweep(&mut random, &state, number);
        check_whole(pair, &mut random, &state, &records);
    })
}

fn records_that_sweep(random: &mut Random, state: &OwnedMemory, number: usize) -> Vec<Record> {
    let mut clock = state.control[LAST_SWEEP];
    let mut records = Vec::new();
    for _ in 0..number {
        let jump = random.pick(&[0, 1, 59, 60, 61, 599, 600, 601, 660, 661]);
        clock = match random.below(8) {
            0 => clock.saturating_sub(jump),
            1 => near(random, clock, 5_000),
            2 | 3 => clock,
            _ => clock.saturating_add(jump),
        };
        records.push((clock, opening_or_using(random, state)));
    }
    records
}

fn opening_or_using(random: &mut Random, state: &OwnedMemory) -> Vec<u8> {
    let held = state
        .used_slots()
        .into_iter()
        .map(|slot| characters(state.name(slot)).to_vec());
    let held = random.pick_or(&held.collect::<Vec<_>>(), b"/scan/none".to_vec());
    let next = (state.control[NEXT_IDENTIFIER] as u16).wrapping_add(random.below(6) as u16);
    let sessions: Vec<u16> = state.sessions().map(|row| row.identifier as u16).collect();
    let session = random.pick_or(&sessions, next);
    let flash = random.pick(&Flash::ALL).name();
    let new = harness::random_store_name(random);
    random.pick(&[
        harness::open(1, &held),
        harness::open(3, &held),
        harness::open(3, &new),
        harness::open(2, flash),
        // Refused, but the sweep is kept.
        harness::open(1, b"/scan/"),
        harness::open(7, &held),
        harness::open(1, &new),
        harness::session_stat(session),
        harness::session_stat(next),
        harness::close(next),
        harness::commit(session),
    ])
}

// ---- Flash updates ----

/// The messages between two job outcomes of a firmware update, as a tray each; now and then an outcome is bad.
pub fn updates(share: Share) -> Tally {
    share.run(share.of(UPDATES), |pair, _, seed| {
        let mut random = Random::new(seed);
        let mut update = Update {
            state: OwnedMemory::fresh(),
            clock: random.word(),
            context: format!("tray of an update, seed {seed:#X}"),
        };
        update.state.control[NEXT_IDENTIFIER] = random.below(65_536) as u32;
        pair.tally.states += 1;
        update.upload(pair, &mut random);
        update.job(pair, &mut random, b"/flash/verify");
        assert_eq!(update.state.control[PHASE], 2, "{}: verified", update.context);
        update.job(pair, &mut random, b"/flash/update");
        assert_eq!(update.state.control[PHASE], 0, "{}: updated", update.context);
        assert!(update.state.image.iter().all(|byte| *byte == 0), "{}", update.context);
        update.upload(pair, &mut random);
        let session = update.next();
        let cleanup = vec![
            harness::open(2, b"/flash/cleanup"),
            harness::commit(session),
            harness::close(session),
        ];
        update.tray(pair, &mut random, cleanup);
        assert_eq!(update.state.control[PHASE], 0, "{}: cleaned up", update.context);
    })
}

/// An update on its way.
struct Update {
    state: OwnedMemory,
    clock: u32,
    context: String,
}

impl Update {
    /// The identifier that the next Open gives: no session stays open, so that none is skipped.
    fn next(&self) -> u16 {
        self.state.control[NEXT_IDENTIFIER] as u16
    }

    /// Sends the messages, with others put in between that are refused.
    fn tray(&mut self, pair: &mut Pair, random: &mut Random, messages: Vec<Vec<u8>>) {
        pair.note(&self.context);
        let mut records = Vec::new();
        for message in messages {
            if random.chance(10) && records.len() < 20 {
                records.push((self.clock, refused(random)));
            }
            self.clock = self.clock.saturating_add(random.below(3) as u32);
            records.push((self.clock, message));
        }
        let left = check_whole(pair, random, &self.state, &records);
        self.state = left.lent.memory;
    }

    /// Image and hash, with the sessions opened and closed in the tray.
    fn upload(&mut self, pair: &mut Pair, random: &mut Random) {
        let (image, hash) = (self.next(), self.next().wrapping_add(1));
        let pieces = random.between(1, 30) as usize;
        let data = random.bytes(52 * pieces);
        let writes = data.chunks(52).zip((0..).step_by(52));
        let mut messages = vec![harness::open(2, b"/flash/image")];
        messages.extend(writes.map(|(piece, offset)| harness::write(image, offset, piece)));
        messages.extend([
            harness::session_stat(image),
            harness::close(image),
            harness::open(2, b"/flash/hash"),
            harness::write(hash, 0, &random.bytes(32)),
            harness::close(hash),
            harness::open(2, b"/flash/update"),
            harness::count(),
        ]);
        self.tray(pair, random, messages);
        assert_eq!(self.state.image[..data.len()], data, "{}: image", self.context);
    }

    /// Verify or update: a tray that starts the job and meets it running, the outcome, and so on until it is good.
    fn job(&mut self, pair: &mut Pair, random: &mut Random, name: &[u8]) {
        let session = self.next();
        self.tray(pair, random, vec![harness::open(2, name)]);
        loop {
            let started = vec![
                harness::commit(session),
                harness::close(session),
                harness::session_stat(session),
            ];
            self.tray(pair, random, started);
            let good = random.chance(60);
            assert_eq!(
                Second.job_outcome(u32::from(good), &mut self.state),
                0,
                "{}",
                self.context
            );
            if good {
                break;
            }
        }
        self.tray(
            pair,
            random,
            vec![harness::session_stat(session), harness::close(session)],
        );
    }
}

// ---- Refused trays ----

/// Trays of each kind: empty, good, cut, and past the 64th record.
fn trays_of_each_kind(random: &mut Random, state: &OwnedMemory) -> Vec<Tray> {
    let records = |number| at_last_sweep(state, messages(number, |_| harness::count()));
    let (few, many) = (records(random.between(1, 64) as usize), records(66));
    let bytes = |records: &[Record]| Tray::whole(records).bytes().len();
    let cut = random.below(bytes(&few) as u64) as usize;
    let past = random.between(bytes(&many[..64]) as u64 + 1, bytes(&many) as u64) as usize;
    vec![
        Tray::whole(&[]),
        Tray::whole(&few),
        Tray::cut(&few, cut),
        Tray::cut(&many, past),
    ]
}

/// Each clause of soundness broken alone: FF before all else, for an empty tray too.
pub fn broken(share: Share) -> Tally {
    let all = BREAKERS.len() as u64;
    share.run(share.of(BROKEN_ROUNDS * all), |pair, place, seed| {
        let (name, breaker) = BREAKERS[(place % all) as usize];
        let mut random = Random::new(seed);
        let state = loop {
            let mut state = random_sound_state(&mut random);
            if breaker(&mut random, &mut state) {
                break state;
            }
        };
        pair.tally.states += 1;
        pair.note(&format!("tray on a broken state: {name}, seed {seed:#X}"));
        let codes = codes_of_each_kind(pair, &mut random, &state);
        assert_eq!(codes, [0xFF; 4], "{}", pair.place());
    })
}

fn codes_of_each_kind(pair: &mut Pair, random: &mut Random, state: &OwnedMemory) -> Vec<u8> {
    let mut codes = Vec::new();
    for tray in trays_of_each_kind(random, state) {
        let buffer = random.pick(&[0, 64, WHOLE_BUFFER]);
        let lent = Lent::new(random, state, buffer);
        codes.push(check(pair, &tray, &lent).code());
    }
    codes
}

/// A few words or bytes of a sound state changed at random: some stay sound, both must agree.
pub fn damaged(share: Share) -> Tally {
    share.run(share.of(DAMAGED), |pair, _, seed| {
        let mut random = Random::new(seed);
        let mut state = random_sound_state(&mut random);
        for _ in 0..random.between(1, 3) {
            damage(&mut random, &mut state);
        }
        pair.tally.states += 1;
        pair.note(&format!("tray on a damaged state, seed {seed:#X}"));
        codes_of_each_kind(pair, &mut random, &state);
    })
}

/// Each lent length but that of the responses wrong: FF, and nothing changes.
pub fn lengths(share: Share) -> Tally {
    share.run(share.of(LENT_STATES), |pair, place, seed| {
        let mut random = Random::new(seed);
        let state = match place {
            0 => OwnedMemory::fresh(),
            _ => random_sound_state(&mut random),
        };
        pair.tally.states += 1;
        for slice in 0..7 {
            for how in 0..4 {
                pair.note(&format!("tray, length of slice {slice}, way {how}, seed {seed:#X}"));
                let other = with_other_length(&mut random, &state, slice, how);
                refused_for_a_length(pair, &mut random, &state, &other, MOST);
            }
        }
        let any = random.between(66, 300) as usize;
        for words in [0, 1, 63, 65, 128, any] {
            pair.note(&format!("tray, {words} result words, seed {seed:#X}"));
            refused_for_a_length(pair, &mut random, &state, &state, words);
        }
    })
}

/// The trays are made for the state, and go to the other.
fn refused_for_a_length(
    pair: &mut Pair,
    random: &mut Random,
    state: &OwnedMemory,
    other: &OwnedMemory,
    result_words: usize,
) {
    let exact = other == state && result_words == MOST;
    for tray in trays_of_each_kind(random, state) {
        let buffer = random.pick(&[0, 64, WHOLE_BUFFER]);
        let lent = Lent::with_results(random, other, buffer, result_words);
        let code = check(pair, &tray, &lent).code();
        assert!(exact || code == 0xFF, "{}: code {code:02X}", pair.place());
    }
}

fn with_other_length(random: &mut Random, state: &OwnedMemory, slice: u64, how: u64) -> OwnedMemory {
    let mut other = state.clone();
    let any = random.below(200) as usize;
    resize_slice(&mut other, slice, how, any);
    other
}

// ---- Any messages ----

/// Histories in trays: each is made for the state that the one before left.
pub fn random(share: Share) -> Tally {
    share.run(share.of(HISTORIES), |pair, place, seed| {
        let profile = PROFILES[(place % PROFILES.len() as u64) as usize];
        let mut maker = Maker::new(seed, profile);
        pair.tally.states += 1;
        for step in 0..TRAYS_OF_HISTORY {
            pair.note(&format!("random tray {step}, {profile:?}, seed {seed:#X}"));
            let (records, behind) = maker.records();
            let tray = maker.cut_sometimes(records);
            let buffer = maker.buffer(&tray.records);
            let lent = Lent::new(&mut maker.generator.random, &maker.state, buffer);
            maker.state = check(pair, &tray, &lent).lent.memory;
            if let Some(step) = behind {
                run(&mut Second, &step, &mut maker.state, &mut vec![0; ROOM]);
            }
        }
    })
}

/// Makes trays whose messages fit the state at their places.
struct Maker {
    generator: Generator,
    state: OwnedMemory,
}

impl Maker {
    fn new(seed: u64, profile: Profile) -> Maker {
        let mut generator = Generator::new(seed, profile);
        let state = match generator.random.chance(50) {
            true => OwnedMemory::fresh(),
            false => random_sound_state(&mut generator.random),
        };
        generator.clock = state.control[LAST_SWEEP];
        generator.wild_clocks = generator.random.chance(20);
        Maker { generator, state }
    }

    /// Up to 66 records, and the step behind them, if they ended because that is no message.
    fn records(&mut self) -> (Vec<Record>, Option<Step>) {
        let number = self.generator.random.pick(&[1, 5, 20, 40, 63, 64, 64, 64, 64, 66]);
        let mut ahead = self.state.clone();
        let mut records = Vec::new();
        while records.len() < number {
            match self.generator.next(&ahead) {
                Step::Message { bytes, clock } if bytes.len() < 256 => {
                    Second.respond(&bytes, clock, &mut ahead, &mut vec![0; ROOM]);
                    records.push((clock, bytes));
                }
                // Others are mostly left out, so that trays get long.
                other if self.generator.random.chance(15) => return (records, Some(other)),
                _ => {}
            }
        }
        (records, None)
    }

    fn cut_sometimes(&mut self, records: Vec<Record>) -> Tray {
        let whole = Tray::whole(&records);
        if !self.generator.random.chance(6) {
            return whole;
        }
        let bytes = self.generator.random.below(whole.bytes().len() as u64 + 1);
        Tray::cut(&records, bytes as usize)
    }

    /// The length of a buffer: mostly one that all responses fit, else one that stops the tray at some place.
    fn buffer(&mut self, records: &[Record]) -> usize {
        let random = &mut self.generator.random;
        let mut second = Second;
        let mut alone = Alone::new(&mut second, &self.state);
        for (clock, message) in &records[..random.below(records.len() as u64 + 1) as usize] {
            alone.answer(message, *clock, 0);
        }
        let exactly = alone.responses.len() + random.pick(&[63, 64, 65]);
        match random.below(8) {
            0 => exactly,
            1 => random.below(200) as usize,
            2 => random.below(5_000) as usize,
            _ => WHOLE_BUFFER,
        }
    }
}

/// A state with its maker, and records for it that a tray can hold.
fn taken_records(pair: &mut Pair, place: u64, seed: u64) -> (Maker, Vec<Record>) {
    let mut maker = Maker::new(seed, PROFILES[(place % PROFILES.len() as u64) as usize]);
    pair.tally.states += 1;
    let mut records = maker.records().0;
    records.truncate(MOST);
    (maker, records)
}

// ---- Trays cut in two ----

/// A tray, and the same records in two, the second lent what the first left: they leave the same.
pub fn in_two(share: Share) -> Tally {
    share.run(share.of(IN_TWO), |pair, place, seed| {
        let (mut maker, records) = taken_records(pair, place, seed);
        let buffer = maker.buffer(&records);
        let lent = Lent::new(&mut maker.generator.random, &maker.state, buffer);
        let context = format!("tray in two, seed {seed:#X}");
        pair.note(&context);
        let whole = check(pair, &Tray::whole(&records), &lent);
        for boundary in 0..=records.len() {
            pair.note(&format!("{context}, cut behind record {boundary}"));
            let halves = records.split_at(boundary);
            same_in_two(pair, &mut Second, halves, &lent, &whole);
            same_in_two(pair, &mut { OTHER }, halves, &lent, &whole);
        }
    })
}

fn same_in_two(
    pair: &mut Pair,
    one: &mut dyn Implementation,
    (first, second): (&[Record], &[Record]),
    lent: &Lent,
    whole: &Left,
) {
    let place = pair.place();
    let first = call(one, &Tray::whole(first).bytes(), lent.clone());
    let (sent, free) = first.lent.responses.split_at(first.written());
    let rest = Lent {
        memory: first.lent.memory.clone(),
        responses: free.to_vec(),
        results: lent.results.clone(),
    };
    let second = call(one, &Tray::whole(second).bytes(), rest);
    assert_eq!([first.result & 0xFF, second.result & 0xFF], [0, 0], "{place}: taken");
    assert_eq!(first.done() + second.done(), whole.done(), "{place}: done");
    assert_eq!(first.written() + second.written(), whole.written(), "{place}: written");
    assert!(
        [sent, &second.lent.responses].concat() == whole.lent.responses,
        "{place}: responses"
    );
    let (done_first, done_second) = (first.done(), second.done());
    let words = [&first.lent.results[..done_first], &second.lent.results[..done_second]].concat();
    assert_eq!(words, whole.lent.results[..whole.done()], "{place}: results");
    let difference = second.lent.memory.difference(&whole.lent.memory);
    assert_eq!(difference, None, "{place}: states");
    pair.tally.requests += 2;
    pair.tally.situation("Tray: cut in two like the whole");
    if done_first < whole.done() && whole.done() > 0 && done_first > 0 {
        pair.tally.situation("Tray: cut in two, both with messages done");
    }
}

// ---- Going on where a call stopped ----

/// A tray in as many calls as its buffers ask for, each with the records that the one before did not do and a buffer of
/// its own: together they do what one call with room for everything does.
pub fn going_on(share: Share) -> Tally {
    share.run(share.of(GOING_ON), |pair, place, seed| {
        let (mut maker, records) = taken_records(pair, place, seed);
        let random = &mut maker.generator.random;
        pair.note(&format!("going on, seed {seed:#X}"));
        let whole = check_whole(pair, random, &maker.state, &records);
        let largest = random.pick(&[64, 70, 200, 1_000]);
        same_going_on(pair, random, &maker.state, &records, largest, &whole);
    })
}

/// Buffers from 1 byte short of a longest response up to the largest.
fn same_going_on(
    pair: &mut Pair,
    random: &mut Random,
    state: &OwnedMemory,
    records: &[Record],
    largest: u64,
    whole: &Left,
) {
    let (mut memory, mut left) = (state.clone(), records);
    let (mut words, mut sent): (Vec<u32>, Vec<u8>) = (Vec::new(), Vec::new());
    let mut stops = 0;
    while !left.is_empty() {
        let room = random.between(ROOM as u64 - 1, largest) as usize;
        let next = check(pair, &Tray::whole(left), &Lent::new(random, &memory, room));
        assert_eq!(next.done() > 0, room >= ROOM, "{}: goes on with 64 bytes", pair.place());
        words.extend(&next.lent.results[..next.done()]);
        sent.extend(&next.lent.responses[..next.written()]);
        left = &left[next.done()..];
        memory = next.lent.memory;
        stops += usize::from(!left.is_empty());
    }
    let place = pair.place();
    assert_eq!(words, whole.lent.results[..whole.done()], "{place}: results");
    assert_eq!(sent, whole.lent.responses[..whole.written()], "{place}: responses");
    assert_eq!(memory.difference(&whole.lent.memory), None, "{place}: states");
    if stops > 0 {
        pair.tally.situation("Tray: stopped and gone on with like the whole");
    }
}
