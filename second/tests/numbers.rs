//! The examples of docs/PROTOCOL.md and of document 01, four errors that are easily made, each completion code (rules
//! 7.1-7.11), store files byte by byte, lookups with the number of rows visited, and trays.

use second::code::Code;
use second::crc::crc;
use second::harness::{self as h, Implementation, OwnedMemory, Second, OTHER};
use second::state::{
    COMMITTED_LENGTHS, LAST_SWEEP, NEXT_IDENTIFIER, PHASE, ROWS_USED, SLOTS_COMMITTED, SLOTS_USED, STAGED_LENGTHS,
};
use second::wire::{push_counted, push_number, Field, Fields, Kind, Value};

/// A cabinet from a fresh state, with a clock that the tests set.
struct Cabinet {
    memory: OwnedMemory,
    clock: u32,
}

impl Cabinet {
    fn fresh() -> Cabinet {
        Cabinet {
            memory: OwnedMemory::fresh(),
            clock: 0,
        }
    }

    /// The code and the response.
    fn say(&mut self, request: &[u8]) -> (u8, Vec<u8>) {
        let mut answer = vec![0xEE; 64];
        let result = Second.respond(request, self.clock, &mut self.memory, &mut answer);
        let length = (result >> 8) as usize;
        assert!(
            answer[length..].iter().all(|byte| *byte == 0xEE),
            "bytes behind the response are kept"
        );
        assert!(self.memory.is_sound(), "soundness is kept");
        ((result & 0xFF) as u8, answer[..length].to_vec())
    }

    fn code(&mut self, request: &[u8]) -> u8 {
        self.say(request).0
    }

    /// Opens and gives the identifier.
    fn open(&mut self, flags: u16, name: &str) -> u16 {
        let (code, response) = self.say(&h::open(flags, name.as_bytes()));
        assert_eq!(code, 0, "Open {name}");
        assert_eq!(response.len(), 8);
        u16::from_le_bytes([response[6], response[7]])
    }

    /// Writes this many bytes from the start on.
    fn fill(&mut self, session: u16, length: u32) {
        let mut offset = 0;
        while offset < length {
            let size = (length - offset).min(52);
            let data: Vec<u8> = (offset..offset + size).map(|place| place as u8).collect();
            assert_eq!(self.code(&h::write(session, offset, &data)), 0);
            offset += size;
        }
    }

    fn outcome(&mut self, good: bool) -> u8 {
        let code = Second.job_outcome(u32::from(good), &mut self.memory);
        assert!(self.memory.is_sound());
        code as u8
    }

    /// State bits and size by name.
    fn stat(&mut self, name: &str) -> (u16, u32) {
        let (code, response) = self.say(&h::stat(name.as_bytes()));
        assert_eq!((code, response.len(), response[12]), (0, 13, 0), "Stat {name}");
        state_and_size(&response)
    }

    fn session_stat(&mut self, session: u16) -> (u16, u32) {
        let (code, response) = self.say(&h::session_stat(session));
        assert_eq!((code, response.len(), response[12]), (0, 13, 0));
        state_and_size(&response)
    }

    fn count(&mut self) -> u32 {
        let (code, response) = self.say(&h::count());
        assert_eq!((code, response.len()), (0, 10));
        u32::from_le_bytes(response[6..10].try_into().unwrap())
    }

    fn listed(&mut self) -> Vec<String> {
        let count = self.count();
        (0..count)
            .map(|index| {
                let (code, response) = self.say(&h::enumerate(index));
                assert_eq!((code, response.last()), (0, Some(&0)));
                String::from_utf8(response[6..response.len() - 1].to_vec()).unwrap()
            })
            .collect()
    }
}

fn state_and_size(response: &[u8]) -> (u16, u32) {
    let state = u16::from_le_bytes([response[6], response[7]]);
    (state, u32::from_le_bytes(response[8..12].try_into().unwrap()))
}

// ---- Examples ----

#[test]
fn crc_numbers() {
    assert_eq!(crc(b"123456789"), 0xE5CC);
    assert_eq!(crc(b""), 0x1D0F);
}

/// The rental firm's rule bit by bit (rule 2.6), and the library's, with the data bits combined in at the top and the start value 0x1D0F (rules 2.1 to 2.3).
#[test]
fn crc_agrees_with_both_rules_bit_by_bit() {
    let bits = |bytes: &[u8]| -> Vec<bool> {
        bytes
            .iter()
            .flat_map(|byte| (0..8).rev().map(move |place| byte >> place & 1 == 1))
            .collect()
    };
    let low_end = |bytes: &[u8]| {
        let data_and_zeros = bits(bytes).into_iter().chain([false; 16]);
        data_and_zeros.fold(0xFFFF, |register: u32, bit| {
            let shifted = register * 2 + u32::from(bit);
            if shifted > 0xFFFF {
                shifted ^ 0x1_1021
            } else {
                shifted
            }
        })
    };
    let top = |bytes: &[u8]| {
        bits(bytes).into_iter().fold(0x1D0F, |register: u16, bit| {
            let leaves = (register >> 15) ^ u16::from(bit);
            (register << 1) ^ (leaves * 0x1021)
        })
    };
    let mut random = h::Random::new(1);
    for length in 0..200 {
        let bytes = random.bytes(length);
        assert_eq!(u32::from(crc(&bytes)), low_end(&bytes));
        assert_eq!(crc(&bytes), top(&bytes));
    }
}

#[test]
fn fresh_count_is_4() {
    let mut cabinet = Cabinet::fresh();
    assert!(cabinet.memory.is_sound());
    assert_eq!(cabinet.count(), 4);
    assert_eq!(
        cabinet.listed(),
        ["/scan/", "/flash/image", "/flash/hash", "/flash/cleanup"]
    );
}

#[test]
fn reads_at_length_100() {
    let mut cabinet = Cabinet::fresh();
    let session = cabinet.open(3, "/scan/a");
    cabinet.fill(session, 100);
    let (code, response) = cabinet.say(&h::read(session, 90, 58));
    assert_eq!((code, response.len()), (0, 6 + 10));
    assert_eq!(response[6..], [90, 91, 92, 93, 94, 95, 96, 97, 98, 99]);
    let (code, response) = cabinet.say(&h::read(session, 0, 100));
    assert_eq!((code, response.len()), (0, 6 + 58));
    let empty = [0xCF, 0xC2, 0x00, 0x03, 0x0F, 0x1D];
    for offset in [100, 101, 4096, u32::MAX] {
        let (code, response) = cabinet.say(&h::read(session, offset, 58));
        assert_eq!((code, &response[..]), (0, &empty[..]));
    }
    let (code, response) = cabinet.say(&h::read(session, 5, 0));
    assert_eq!((code, &response[..]), (0, &empty[..]));
}

#[test]
fn writes_at_length_4060() {
    let data = [7; 52];
    let mut cabinet = Cabinet::fresh();
    let session = cabinet.open(3, "/scan/a");
    cabinet.fill(session, 4060);
    assert_eq!(cabinet.code(&h::write(session, 4061, &data)), 0xC9);
    assert_eq!(cabinet.code(&h::write(session, 4061, &[])), 0xC9);
    assert_eq!(cabinet.code(&h::write(session, 4045, &data)), 0xC8);
    assert_eq!(cabinet.session_stat(session), (3, 4060));
    assert_eq!(cabinet.code(&h::write(session, 4044, &data)), 0);
    assert_eq!(cabinet.session_stat(session), (3, 4096));
}

#[test]
fn sweep_at_700_keeps_and_at_701_closes() {
    for (clock, closed) in [(700, false), (701, true)] {
        let mut cabinet = Cabinet::fresh();
        let session = cabinet.open(3, "/scan/a");
        cabinet.clock = 100;
        cabinet.session_stat(session);
        assert_eq!(
            (cabinet.memory.row(0).stamp, cabinet.memory.control[LAST_SWEEP]),
            (100, 0)
        );
        cabinet.clock = clock;
        cabinet.open(3, "/scan/b");
        assert_eq!(cabinet.memory.control[LAST_SWEEP], clock);
        let expected = if closed { 0xCB } else { 0x00 };
        assert_eq!(cabinet.code(&h::session_stat(session)), expected);
    }
}

#[test]
fn sweep_is_due_at_60() {
    for (clock, noted) in [(59, 0), (60, 60)] {
        let mut cabinet = Cabinet::fresh();
        cabinet.clock = clock;
        // A refused Open keeps the sweep.
        assert_eq!(cabinet.code(&h::open(3, b"/scan/")), 0xCB);
        assert_eq!(cabinet.memory.control[LAST_SWEEP], noted);
        assert_eq!(cabinet.code(&h::open(3, &[b'x'; 32])), 0xCC);
    }
}

#[test]
fn sweep_sums_are_unbounded() {
    let mut cabinet = Cabinet::fresh();
    cabinet.clock = u32::MAX - 10;
    let session = cabinet.open(3, "/scan/a");
    assert_eq!(cabinet.memory.control[LAST_SWEEP], u32::MAX - 10);
    for clock in [0, 49, 700, u32::MAX] {
        cabinet.clock = clock;
        assert_eq!(cabinet.code(&h::open(1, b"/scan/b")), 0xCB);
        assert_eq!(cabinet.memory.control[LAST_SWEEP], u32::MAX - 10);
        assert_eq!(cabinet.code(&h::read(session, 0, 1)), 0);
    }
}

#[test]
fn next_identifier_wraps() {
    let mut cabinet = Cabinet::fresh();
    cabinet.memory.control[NEXT_IDENTIFIER] = 65_535;
    assert_eq!(cabinet.open(3, "/scan/a"), 65_535);
    assert_eq!(cabinet.memory.control[NEXT_IDENTIFIER], 0);
    assert_eq!(cabinet.open(3, "/scan/b"), 0);
    assert_eq!(cabinet.memory.control[NEXT_IDENTIFIER], 1);
    cabinet.memory.control[NEXT_IDENTIFIER] = 65_535;
    assert_eq!(cabinet.open(3, "/scan/c"), 1);
    assert_eq!(cabinet.memory.control[NEXT_IDENTIFIER], 2);
}

// ---- The program ----

fn record(clock: u32, message: &[u8]) -> Vec<u8> {
    [&clock.to_le_bytes()[..], &[message.len() as u8], message].concat()
}

/// What the program writes, beginning with the fresh state.
fn run(input: &[u8]) -> String {
    second::run::on_fresh_memory(|memory| second::run::run(input, memory))
}

#[test]
fn program_lines() {
    assert_eq!(run(&[]), "");
    let refused = [
        record(0, &[]),
        record(0, &[0xCF, 0xC2, 0x00, 0x0B]),
        record(0, &[0xCF, 0xC2, 0x01, 0x00]),
    ]
    .concat();
    assert_eq!(run(&refused), "C7\nC1\nCC\n");
    let opened = [record(1, &h::open(3, b"/scan/a")), record(1, &h::close(0))].concat();
    let identifier_crc = crc(&[0, 0]).to_le_bytes();
    let open_line = format!("00 CFC20002{:02X}{:02X}0000\n", identifier_crc[0], identifier_crc[1]);
    assert_eq!(run(&opened), format!("{open_line}00 CFC20006\n"));
    let count_crc = crc(&[4, 0, 0, 0]).to_le_bytes();
    let count_line = format!("00 CFC20000{:02X}{:02X}04000000\n", count_crc[0], count_crc[1]);
    assert_eq!(run(&record(9, &h::count())), count_line);
}

#[test]
fn program_cut_records() {
    let whole = [record(0, &h::count()), record(0, &[1, 2, 3])].concat();
    let first = record(0, &h::count()).len();
    let count_line = run(&record(0, &h::count()));
    for length in 1..first {
        assert_eq!(run(&whole[..length]), "CUT\n");
    }
    assert_eq!(run(&whole[..first]), count_line);
    for length in first + 1..whole.len() {
        assert_eq!(run(&whole[..length]), format!("{count_line}CUT\n"));
    }
    assert_eq!(run(&whole), format!("{count_line}C7\n"));
    let long = record(0, &[0xCF; 255]);
    assert_eq!(run(&long), "C7\n");
}

#[test]
fn program_answers_after_65_bytes() {
    let mut message = h::write(0, 0, &[1; 52]);
    assert_eq!(message.len(), 64);
    assert_eq!(run(&record(0, &message)), "CB\n");
    message = h::write(0, 0, &[1; 53]);
    assert_eq!(run(&record(0, &message)), "C7\n");
}

// ---- The completion codes ----

#[test]
fn ff_state_not_sound() {
    let mut cabinet = Cabinet::fresh();
    cabinet.memory.control[PHASE] = 3;
    let before = cabinet.memory.clone();
    let mut answer = vec![0xEE; 64];
    assert_eq!(Second.respond(&h::count(), 0, &mut cabinet.memory, &mut answer), 0xFF);
    assert_eq!(Second.respond(&[], 0, &mut cabinet.memory, &mut answer), 0xFF);
    assert_eq!(Second.job_outcome(1, &mut cabinet.memory), 0xFF);
    assert_eq!((cabinet.memory, answer), (before, vec![0xEE; 64]));
    for length in [0, 63, 65] {
        let mut answer = vec![0xEE; length];
        assert_eq!(
            Second.respond(&h::count(), 0, &mut OwnedMemory::fresh(), &mut answer),
            0xFF
        );
    }
}

#[test]
fn c7_lengths() {
    let mut cabinet = Cabinet::fresh();
    for length in (0..4).chain(65..=255) {
        assert_eq!(cabinet.code(&vec![0xCF; length]), 0xC7);
    }
    // Which lengths after the 4 bytes are right; all else is C7.
    let right: [(u8, std::ops::RangeInclusive<usize>); 11] = [
        (0, 0..=0),
        (1, 6..=6),
        (2, 5..=60),
        (3, 12..=12),
        (4, 8..=60),
        (5, 5..=60),
        (6, 4..=4),
        (7, 3..=60),
        (8, 3..=60),
        (9, 4..=4),
        (10, 8..=60),
    ];
    for (subcommand, lengths) in right {
        for length in 0..=60 {
            let mut message = vec![0xCF, 0xC2, 0x00, subcommand];
            message.resize(4 + length, 0x11);
            assert_eq!(
                cabinet.code(&message) == 0xC7,
                !lengths.contains(&length),
                "{subcommand} with {length}"
            );
        }
    }
}

#[test]
fn cc_fields() {
    let mut cabinet = Cabinet::fresh();
    let session = cabinet.open(3, "/scan/a");
    for oem in [[0, 0, 0], [0xCF, 0xC2, 1], [0xCE, 0xC2, 0], [0xCF, 0xC3, 0]] {
        // The OEM number comes before the subcommand and the body length.
        assert_eq!(cabinet.code(&[oem[0], oem[1], oem[2], 0]), 0xCC);
        assert_eq!(cabinet.code(&[oem[0], oem[1], oem[2], 200]), 0xCC);
        assert_eq!(cabinet.code(&[oem[0], oem[1], oem[2], 0, 1]), 0xCC);
    }
    let mut wrong_crc = h::close(session);
    wrong_crc[4] ^= 1;
    assert_eq!(cabinet.code(&wrong_crc), 0xCC);
    // Name forms: empty, without NUL, with two, with 32 characters.
    for name in [
        &b"\0"[..],
        b"/scan/b",
        b"/scan/b\0\0",
        b"/sc\0n/b\0",
        b"/scan/abcdefghijklmnopqrstuvwxyz\0",
    ] {
        assert_eq!(
            cabinet.code(&h::message(2, &[&[3, 0], name].concat())),
            0xCC,
            "{name:?}"
        );
        assert_eq!(cabinet.code(&h::message(7, name)), 0xCC);
        assert_eq!(cabinet.code(&h::message(8, name)), 0xCC);
    }
    for flags in [0, 2, 4, 5, 7, 0x0101, 0x0103, 0xFFFF] {
        assert_eq!(cabinet.code(&h::open(flags, b"/scan/b")), 0xCC);
    }
    for flags in [0, 1, 3, 0x0102] {
        // Flags come before absence and busy.
        assert_eq!(cabinet.code(&h::open(flags, b"/flash/verify")), 0xCC);
    }
    assert_eq!(cabinet.code(&h::open(2, b"/scan/a")), 0xCC);
    assert_eq!(cabinet.code(&h::commit_with(session, 1, &[0])), 0xCC);
    assert_eq!(cabinet.code(&h::commit_with(session, 0, &[0])), 0xCC);
    assert_eq!(cabinet.code(&h::commit_with(session, 1, &[])), 0xCC);
    assert_eq!(cabinet.code(&h::commit(session)), 0);
}

#[test]
fn c1_subcommands() {
    let mut cabinet = Cabinet::fresh();
    for subcommand in 11..=255 {
        assert_eq!(cabinet.code(&[0xCF, 0xC2, 0x00, subcommand]), 0xC1);
        assert_eq!(cabinet.code(&[0xCF, 0xC2, 0x00, subcommand, 1, 2, 3, 4, 5]), 0xC1);
    }
}

#[test]
fn cb_absent() {
    let mut cabinet = Cabinet::fresh();
    for name in ["/scan/", "/scan", "/scan/a/b", "/Scan/a", "/flash/", "x"] {
        // Unknown and base come before the flags.
        assert_eq!(cabinet.code(&h::open(0, name.as_bytes())), 0xCB);
    }
    assert_eq!(cabinet.code(&h::open(1, b"/scan/a")), 0xCB);
    assert_eq!(cabinet.code(&h::open(2, b"/flash/verify")), 0xCB);
    assert_eq!(cabinet.code(&h::open(2, b"/flash/update")), 0xCB);
    assert_eq!(cabinet.code(&h::stat(b"/flash/verify")), 0xCB);
    assert_eq!(cabinet.code(&h::stat(b"/scan/a")), 0xCB);
    assert_eq!(cabinet.code(&h::stat(b"x")), 0xCB);
    assert_eq!(cabinet.code(&h::delete(b"/scan/a")), 0xCB);
    assert_eq!(cabinet.code(&h::delete(b"x")), 0xCB);
    assert_eq!(cabinet.code(&h::read(0, 0, 0)), 0xCB);
    assert_eq!(cabinet.code(&h::write(0, 0, &[])), 0xCB);
    assert_eq!(cabinet.code(&h::commit_with(0, 9, &[])), 0xCB);
    assert_eq!(cabinet.code(&h::close(0)), 0xCB);
    assert_eq!(cabinet.code(&h::session_stat(0)), 0xCB);
    assert_eq!(cabinet.code(&h::write_meta(0, 0, &[])), 0xCB);
}

#[test]
fn c9_ranges() {
    let mut cabinet = Cabinet::fresh();
    assert_eq!(cabinet.code(&h::enumerate(3)), 0);
    for index in [4, 5, 256, u32::MAX] {
        assert_eq!(cabinet.code(&h::enumerate(index)), 0xC9);
    }
    let session = cabinet.open(2, "/flash/hash");
    assert_eq!(cabinet.code(&h::write(session, 1, &[])), 0xC9);
    assert_eq!(cabinet.code(&h::write(session, u32::MAX, &[1])), 0xC9);
}

#[test]
fn c8_capacities() {
    for (flags, name, capacity) in [
        (3, "/scan/a", 4096),
        (2, "/flash/image", 16_384),
        (2, "/flash/hash", 64),
    ] {
        let mut cabinet = Cabinet::fresh();
        let session = cabinet.open(flags, name);
        cabinet.fill(session, capacity);
        assert_eq!(cabinet.code(&h::write(session, capacity, &[])), 0);
        assert_eq!(cabinet.code(&h::write(session, capacity, &[1])), 0xC8);
        assert_eq!(cabinet.code(&h::write(session, capacity - 1, &[1, 2])), 0xC8);
        assert_eq!(cabinet.code(&h::write(session, capacity + 1, &[])), 0xC9);
        assert_eq!(cabinet.session_stat(session).1, capacity);
    }
}

#[test]
fn c4_no_space() {
    let mut cabinet = Cabinet::fresh();
    for number in 0..16 {
        cabinet.open(3, &format!("/scan/n{number}"));
    }
    assert_eq!(cabinet.code(&h::open(2, b"/flash/image")), 0xC4);
    assert_eq!(cabinet.code(&h::open(3, b"/scan/x")), 0xC4);
    assert_eq!(cabinet.code(&h::commit(5)), 0);
    assert_eq!(cabinet.code(&h::close(5)), 0);
    // A free row but no free slot; the held name can be opened again.
    assert_eq!(cabinet.code(&h::open(3, b"/scan/x")), 0xC4);
    assert_eq!(cabinet.open(1, "/scan/n5"), 16);
    assert_eq!(cabinet.memory.row(5).identifier, 16);
}

#[test]
fn c0_busy() {
    let mut cabinet = Cabinet::fresh();
    cabinet.open(3, "/scan/a");
    assert_eq!(cabinet.code(&h::open(1, b"/scan/a")), 0xC0);
    assert_eq!(cabinet.code(&h::open(3, b"/scan/a")), 0xC0);
    assert_eq!(cabinet.code(&h::delete(b"/scan/a")), 0xC0);
    let image = cabinet.open(2, "/flash/image");
    for name in ["/flash/image", "/flash/hash", "/flash/verify", "/flash/cleanup"] {
        assert_eq!(cabinet.code(&h::open(2, name.as_bytes())), 0xC0);
    }
    // Update is not listed: absence comes before busy.
    assert_eq!(cabinet.code(&h::open(2, b"/flash/update")), 0xCB);
    assert_eq!(cabinet.code(&h::close(image)), 0);
    let verify = cabinet.open(2, "/flash/verify");
    assert_eq!(cabinet.code(&h::commit(verify)), 0);
    assert_eq!(cabinet.code(&h::close(verify)), 0xC0);
}

#[test]
fn d5_not_supported() {
    let mut cabinet = Cabinet::fresh();
    let session = cabinet.open(3, "/scan/a");
    assert_eq!(cabinet.code(&h::write_meta(session, 0, &[])), 0xD5);
    assert_eq!(cabinet.code(&h::commit(session)), 0);
    assert_eq!(cabinet.code(&h::close(session)), 0);
    let reader = cabinet.open(1, "/scan/a");
    assert_eq!(cabinet.code(&h::write(reader, u32::MAX, &[1])), 0xD5);
    assert_eq!(cabinet.code(&h::commit(reader)), 0xD5);
    for name in [
        "/scan/",
        "/flash/image",
        "/flash/hash",
        "/flash/verify",
        "/flash/update",
        "/flash/cleanup",
    ] {
        assert_eq!(cabinet.code(&h::delete(name.as_bytes())), 0xD5);
    }
    for name in ["/flash/image", "/flash/hash"] {
        let session = cabinet.open(2, name);
        assert_eq!(cabinet.code(&h::read(session, 0, 0)), 0xD5);
        assert_eq!(cabinet.code(&h::commit(session)), 0xD5);
        assert_eq!(cabinet.code(&h::close(session)), 0);
    }
    for name in ["/flash/verify", "/flash/cleanup"] {
        let session = cabinet.open(2, name);
        assert_eq!(cabinet.code(&h::read(session, 0, 0)), 0xD5);
        assert_eq!(cabinet.code(&h::write(session, 0, &[])), 0xD5);
        assert_eq!(cabinet.outcome(true), 0xD5);
        assert_eq!(cabinet.code(&h::close(session)), 0);
    }
    assert_eq!(cabinet.outcome(false), 0xD5);
}

/// A verdict is 0 or 1. Any other is CC and changes nothing, whether a job runs or not; FF comes before it.
#[test]
fn cc_verdict() {
    let mut cabinet = Cabinet::fresh();
    let refused = |memory: &mut OwnedMemory, code: u32| {
        let before = memory.clone();
        for verdict in [2, 3, 0xFF, 0x100, 0x101, 0xFFFF_FFFF] {
            assert_eq!(Second.job_outcome(verdict, memory), code);
            assert_eq!({ OTHER }.job_outcome(verdict, memory), code);
        }
        assert!(*memory == before);
    };
    refused(&mut cabinet.memory, 0xCC);
    let image = cabinet.open(2, "/flash/image");
    assert_eq!(cabinet.code(&h::close(image)), 0);
    let session = cabinet.open(2, "/flash/verify");
    assert_eq!(cabinet.code(&h::commit(session)), 0);
    refused(&mut cabinet.memory, 0xCC);
    assert_eq!(cabinet.outcome(true), 0);
    refused(&mut cabinet.memory, 0xCC);
    cabinet.memory.control[PHASE] = 3;
    refused(&mut cabinet.memory, 0xFF);
    cabinet.memory.control[PHASE] = 0;
    cabinet.memory.names.pop();
    refused(&mut cabinet.memory, 0xFF);
}

// ---- The commands ----

#[test]
fn store_session_from_start_to_end() {
    let mut cabinet = Cabinet::fresh();
    let session = cabinet.open(3, "/scan/a");
    assert_eq!(cabinet.stat("/scan/a"), (3, 0));
    assert_eq!(cabinet.count(), 4);
    cabinet.fill(session, 100);
    assert_eq!(cabinet.stat("/scan/a"), (3, 100));
    assert_eq!(cabinet.code(&h::commit(session)), 0);
    assert_eq!(cabinet.stat("/scan/a"), (3 | 8, 100));
    assert_eq!(cabinet.listed()[1], "/scan/a");
    assert_eq!(cabinet.code(&h::write(session, 100, &[])), 0);
    assert_eq!(cabinet.session_stat(session), (3 | 8, 100));
    assert_eq!(cabinet.code(&h::write(session, 100, &[1])), 0);
    assert_eq!(cabinet.session_stat(session), (3, 101));
    assert_eq!(cabinet.code(&h::close(session)), 0);
    // What was not committed is gone.
    assert_eq!(cabinet.stat("/scan/a"), (8, 100));
    assert!(cabinet.memory.staged.iter().all(|byte| *byte == 0));
    let reader = cabinet.open(1, "/scan/a");
    assert_eq!(cabinet.session_stat(reader), (1 | 8, 100));
    assert_eq!(cabinet.say(&h::read(reader, 99, 9)).1[6..], [99]);
    assert_eq!(cabinet.code(&h::close(reader)), 0);
    let writer = cabinet.open(3, "/scan/a");
    assert_eq!(cabinet.session_stat(writer), (3 | 8, 100));
    assert_eq!(cabinet.memory.staged[..4096], cabinet.memory.committed[..4096]);
    assert_eq!(cabinet.code(&h::close(writer)), 0);
    assert_eq!(cabinet.code(&h::delete(b"/scan/a")), 0);
    assert_eq!(cabinet.memory.control[COMMITTED_LENGTHS], 0);
    assert_eq!(cabinet.memory.committed, OwnedMemory::fresh().committed);
    assert_eq!(cabinet.count(), 4);
    assert_eq!(cabinet.stat("/scan/"), (0, 0));
}

#[test]
fn a_new_name_closed_is_gone() {
    let mut cabinet = Cabinet::fresh();
    let session = cabinet.open(3, "/scan/a");
    cabinet.fill(session, 60);
    assert_eq!(cabinet.memory.control[STAGED_LENGTHS], 60);
    assert_eq!(cabinet.code(&h::close(session)), 0);
    let mut fresh = OwnedMemory::fresh();
    fresh.control[NEXT_IDENTIFIER] = 1;
    assert_eq!(cabinet.memory, fresh);
}

/// Runs the flash sequence up to a verified image.
fn verified() -> Cabinet {
    let mut cabinet = Cabinet::fresh();
    for (name, length) in [("/flash/image", 200), ("/flash/hash", 32)] {
        let session = cabinet.open(2, name);
        cabinet.fill(session, length);
        assert_eq!(cabinet.stat(name), (2, length));
        assert_eq!(cabinet.code(&h::close(session)), 0);
        assert_eq!(cabinet.stat(name), (0, length));
    }
    assert_eq!(cabinet.listed()[3], "/flash/verify");
    let session = cabinet.open(2, "/flash/verify");
    assert_eq!(cabinet.session_stat(session), (2, 0));
    assert_eq!(cabinet.code(&h::commit(session)), 0);
    assert_eq!(cabinet.session_stat(session), (2 | 4, 0));
    assert_eq!(cabinet.outcome(false), 0);
    assert_eq!(cabinet.session_stat(session), (2 | 16, 0));
    assert_eq!(cabinet.code(&h::commit(session)), 0);
    assert_eq!(cabinet.outcome(true), 0);
    assert_eq!(cabinet.session_stat(session), (2 | 8, 0));
    assert_eq!(cabinet.code(&h::commit(session)), 0);
    assert_eq!(cabinet.stat("/flash/verify"), (2 | 8, 0));
    assert_eq!(cabinet.memory.control[PHASE], 1);
    assert_eq!(cabinet.code(&h::close(session)), 0);
    assert_eq!(cabinet.memory.control[PHASE], 2);
    assert_eq!(cabinet.count(), 6);
    assert_eq!(cabinet.listed()[4], "/flash/update");
    cabinet
}

#[test]
fn flash_update() {
    let mut cabinet = verified();
    let session = cabinet.open(2, "/flash/update");
    assert_eq!(cabinet.code(&h::commit(session)), 0);
    assert_eq!(cabinet.code(&h::close(session)), 0xC0);
    assert_eq!(cabinet.outcome(true), 0);
    assert_eq!(cabinet.code(&h::close(session)), 0);
    assert_eq!(cabinet.memory.control[PHASE], 0);
    assert_eq!(cabinet.memory.image, OwnedMemory::fresh().image);
    assert_eq!(cabinet.memory.hash, OwnedMemory::fresh().hash);
    assert_eq!(cabinet.stat("/flash/image"), (0, 0));
    assert_eq!(cabinet.count(), 4);
}

#[test]
fn flash_update_failed() {
    let mut cabinet = verified();
    let session = cabinet.open(2, "/flash/update");
    assert_eq!(cabinet.code(&h::commit(session)), 0);
    assert_eq!(cabinet.outcome(false), 0);
    assert_eq!(cabinet.code(&h::close(session)), 0);
    assert_eq!(cabinet.memory.control[PHASE], 1);
    assert_eq!(cabinet.stat("/flash/image"), (0, 200));
}

#[test]
fn flash_verify_tried_anew_leaves_verified() {
    let mut cabinet = verified();
    let session = cabinet.open(2, "/flash/verify");
    assert_eq!(cabinet.memory.control[PHASE], 2);
    assert_eq!(cabinet.code(&h::commit(session)), 0);
    assert_eq!(cabinet.memory.control[PHASE], 1);
    assert_eq!(cabinet.outcome(false), 0);
    assert_eq!(cabinet.code(&h::close(session)), 0);
    assert_eq!(cabinet.memory.control[PHASE], 1);
}

#[test]
fn flash_cleanup() {
    let mut cabinet = verified();
    let session = cabinet.open(2, "/flash/cleanup");
    assert_eq!(cabinet.memory.control[PHASE], 2);
    assert_eq!(cabinet.code(&h::commit(session)), 0);
    assert_eq!(cabinet.session_stat(session), (2 | 8, 0));
    assert_eq!(cabinet.memory.control[PHASE], 0);
    assert_eq!(cabinet.stat("/flash/image"), (0, 0));
    assert_eq!(cabinet.code(&h::close(session)), 0);
    assert_eq!(cabinet.count(), 4);
}

#[test]
fn a_running_job_is_not_swept() {
    let mut cabinet = Cabinet::fresh();
    let image = cabinet.open(2, "/flash/image");
    assert_eq!(cabinet.code(&h::close(image)), 0);
    let verify = cabinet.open(2, "/flash/verify");
    assert_eq!(cabinet.code(&h::commit(verify)), 0);
    cabinet.clock = 10_000;
    assert_eq!(cabinet.code(&h::open(2, b"/flash/hash")), 0xC0);
    assert_eq!(cabinet.outcome(true), 0);
    // No stamp changed, so the next sweep closes it, and the image is verified.
    cabinet.clock = 10_060;
    assert_eq!(cabinet.code(&h::open(1, b"/scan/none")), 0xCB);
    assert_eq!(cabinet.code(&h::session_stat(verify)), 0xCB);
    assert_eq!(cabinet.memory.control[PHASE], 2);
}

#[test]
fn no_memory_makes_it_panic() {
    let mut random = h::Random::new(3);
    let mut memory = OwnedMemory::fresh();
    for _ in 0..2000 {
        let mut any = |most: u64| random.below(most) as usize;
        let lengths = [
            any(50),
            any(70),
            any(600),
            any(70_000),
            any(70_000),
            any(20_000),
            any(70),
            any(70),
            any(70),
        ];
        memory.control = (0..lengths[0]).map(|_| random.word()).collect();
        memory.table = (0..lengths[1]).map(|_| random.word()).collect();
        memory.names = random.bytes(lengths[2]);
        memory.committed.resize(lengths[3], 9);
        memory.staged.resize(lengths[4], 9);
        memory.image.resize(lengths[5], 9);
        memory.hash.resize(lengths[6], 9);
        let mut answer = random.bytes(lengths[7]);
        let request = random.bytes(lengths[8]);
        assert_eq!(Second.respond(&request, random.word(), &mut memory, &mut answer), 0xFF);
        assert_eq!(Second.job_outcome(random.word(), &mut memory), 0xFF);
        assert_eq!(Second.save_part(random.word(), &mut memory, &mut vec![0; 4200]), 0xFF);
        assert_eq!(Second.load(&request, &mut memory), 0xFF);
        assert_eq!(Second.tray(&request, &mut memory, &mut answer, &mut [0; 64]), 0xFF);
    }
}

// ---- Likely errors ----

#[test]
fn error_1_first_letters() {
    let mut cabinet = Cabinet::fresh();
    let session = cabinet.open(3, "/scan/moreau");
    assert_eq!(cabinet.code(&h::commit(session)), 0);
    assert_eq!(cabinet.code(&h::stat(b"/scan/moreau2")), 0xCB);
    assert_eq!(cabinet.code(&h::stat(b"/scan/morea")), 0xCB);
    assert_eq!(cabinet.code(&h::stat(b"/scan/Moreau")), 0xCB);
    assert_eq!(cabinet.code(&h::open(1, b"/scan/moreau2")), 0xCB);
}

#[test]
fn error_2_closed_identifier() {
    let mut cabinet = Cabinet::fresh();
    let first = cabinet.open(3, "/scan/a");
    assert_eq!(cabinet.code(&h::close(first)), 0);
    assert_ne!(cabinet.open(3, "/scan/a"), first);
}

#[test]
fn error_3_image_opened_anew() {
    let mut cabinet = verified();
    cabinet.open(2, "/flash/image");
    assert_eq!(cabinet.memory.control[PHASE], 1);
    assert_eq!(cabinet.stat("/flash/image"), (2, 0));
    assert_eq!(cabinet.stat("/flash/hash"), (0, 32));
    assert_eq!(cabinet.code(&h::stat(b"/flash/update")), 0xCB);
}

#[test]
fn error_4_shared_time() {
    let mut cabinet = Cabinet::fresh();
    let early = cabinet.open(3, "/scan/a");
    let late = cabinet.open(3, "/scan/b");
    cabinet.clock = 500;
    cabinet.session_stat(late);
    cabinet.clock = 20;
    cabinet.session_stat(early);
    cabinet.session_stat(late);
    assert_eq!((cabinet.memory.row(0).stamp, cabinet.memory.row(1).stamp), (20, 500));
}

// ---- The wire encoding ----

const NO_FIELD_KNOWN: fn(u64) -> Option<Kind> = |_| None;

#[test]
fn numbers_in_shortest_form() {
    for (number, bytes) in [
        (0, &[0x00][..]),
        (1, &[0x01]),
        (127, &[0x7F]),
        (128, &[0x80, 0x01]),
        (150, &[0x96, 0x01]),
        (300, &[0xAC, 0x02]),
        (16_384, &[0x80, 0x80, 0x01]),
        (u64::MAX, &[0xFF, 0xFF, 0xFF, 0xFF, 0xFF, 0xFF, 0xFF, 0xFF, 0xFF, 0x01]),
    ] {
        let mut written = Vec::new();
        push_number(&mut written, number);
        assert_eq!(written, bytes);
        // As the value of field 3.
        let message = [&[0x18][..], bytes].concat();
        let value = Value::Number(number);
        let fields: Vec<_> = Fields::new(&message, NO_FIELD_KNOWN).collect();
        assert_eq!(fields, [Ok(Field { number: 3, value })]);
    }
}

#[test]
fn fields_of_every_kind() {
    let mut message = vec![0x08, 0x96, 0x01];
    push_counted(&mut message, 2, b"testing");
    assert_eq!(message[3..], *b"\x12\x07testing");
    message.extend([0x1D, 1, 2, 3, 4]);
    message.extend([0x21, 1, 2, 3, 4, 5, 6, 7, 8]);
    let fields: Vec<_> = Fields::new(&message, NO_FIELD_KNOWN).collect();
    let field = |number, value| Ok(Field { number, value });
    assert_eq!(
        fields,
        [
            field(1, Value::Number(150)),
            field(2, Value::Counted(b"testing")),
            field(3, Value::FourBytes([1, 2, 3, 4])),
            field(4, Value::EightBytes([1, 2, 3, 4, 5, 6, 7, 8])),
        ]
    );
}

/// A fault ends the walk: nothing comes behind it.
#[test]
fn a_walk_ends_at_its_first_fault() {
    let message = [0x18, 0x01, 0x1B, 0x18, 0x01];
    let fields: Vec<_> = Fields::new(&message, NO_FIELD_KNOWN).collect();
    let value = Value::Number(1);
    assert_eq!(fields, [Ok(Field { number: 3, value }), Err(Code::WIRE_TYPE)]);
}

// ---- Store files ----

const EMPTY_STORE: [u8; 8] = [0x0A, 0x06, 0x2F, 0x73, 0x63, 0x61, 0x6E, 0x2F];

impl Cabinet {
    /// The code and the part.
    fn save_part(&mut self, part: u32) -> (u8, Vec<u8>) {
        let before = self.memory.clone();
        let mut buffer = vec![0xEE; 4200];
        let result = Second.save_part(part, &mut self.memory, &mut buffer);
        let length = (result >> 8) as usize;
        assert!(buffer[length..].iter().all(|byte| *byte == 0xEE));
        assert!(self.memory == before);
        let mut other_buffer = vec![0xEE; 4200];
        let other_result = { OTHER }.save_part(part, &mut self.memory, &mut other_buffer);
        assert!((other_result, other_buffer) == (result, buffer.clone()));
        assert!(self.memory == before);
        ((result & 0xFF) as u8, buffer[..length].to_vec())
    }

    /// All parts end to end.
    fn save(&mut self) -> Vec<u8> {
        let parts = (0..).map(|part| self.save_part(part));
        let file: Vec<u8> = parts
            .take_while(|(code, _)| *code == 0)
            .flat_map(|(_, bytes)| bytes)
            .collect();
        assert_eq!(second::store_file::save(&self.memory.lend()).as_ref(), Some(&file));
        file
    }

    fn load(&mut self, file: &[u8]) -> u8 {
        let before = self.memory.clone();
        let mut other = before.clone();
        let code = Second.load(file, &mut self.memory);
        assert!(self.memory.is_sound());
        assert!(code == 0 || self.memory == before);
        assert_eq!({ OTHER }.load(file, &mut other), code);
        assert!(self.memory == other);
        code as u8
    }

    /// A committed scan of this length; its session is closed.
    fn store(&mut self, name: &str, length: u32) {
        let session = self.open(3, name);
        self.fill(session, length);
        assert_eq!(self.code(&h::commit(session)), 0);
        assert_eq!(self.code(&h::close(session)), 0);
    }
}

/// The base, then these bytes.
fn behind_base(bytes: &[u8]) -> Vec<u8> {
    [&EMPTY_STORE[..], bytes].concat()
}

#[test]
fn save_of_an_empty_store() {
    let mut cabinet = Cabinet::fresh();
    assert_eq!(cabinet.save_part(0), (0, EMPTY_STORE.to_vec()));
    for part in [1, 2, 16, 17, 256, u32::MAX] {
        assert_eq!(cabinet.save_part(part), (0xC9, Vec::new()));
    }
    assert_eq!(cabinet.save(), EMPTY_STORE);
}

#[test]
fn save_of_two_scans() {
    let mut cabinet = Cabinet::fresh();
    cabinet.store("/scan/ab", 3);
    cabinet.store("/scan/c", 0);
    assert_eq!(cabinet.save_part(0), (0, EMPTY_STORE.to_vec()));
    let first = [b"\x12\x0F\x0A\x08/scan/ab\x12\x03".to_vec(), vec![0, 1, 2]].concat();
    assert_eq!(cabinet.save_part(1), (0, first.clone()));
    // An empty scan has its data field too.
    let second = b"\x12\x0B\x0A\x07/scan/c\x12\x00".to_vec();
    assert_eq!(cabinet.save_part(2), (0, second.clone()));
    assert_eq!(cabinet.save_part(3).0, 0xC9);
    assert_eq!(cabinet.save(), behind_base(&[first, second].concat()));
}

/// A scan of 150 bytes: its length is `96 01`, and that of the blob 164, `A4 01`.
#[test]
fn save_of_150_bytes() {
    let mut cabinet = Cabinet::fresh();
    cabinet.store("/scan/abc", 150);
    let data: Vec<u8> = (0..150).collect();
    let part = [&b"\x12\xA4\x01\x0A\x09/scan/abc\x12\x96\x01"[..], &data].concat();
    assert_eq!(cabinet.save_part(1), (0, part));
}

/// The longest part: 25 letters and 4,096 bytes.
#[test]
fn save_of_the_longest_part() {
    let mut cabinet = Cabinet::fresh();
    cabinet.store("/scan/abcdefghijklmnopqrstuvwxy", 4096);
    let (code, part) = cabinet.save_part(1);
    assert_eq!((code, part.len()), (0, 4135));
    assert_eq!(part[..5], [0x12, 0xA4, 0x20, 0x0A, 0x1F]);
    assert_eq!(part[36..39], [0x12, 0x80, 0x20]);
}

/// What is staged is not saved, and a new name not at all; committed slots come in their order.
#[test]
fn save_beside_sessions() {
    let mut cabinet = Cabinet::fresh();
    let new = cabinet.open(3, "/scan/new");
    cabinet.fill(new, 9);
    cabinet.store("/scan/b", 1);
    cabinet.store("/scan/a", 1);
    let writer = cabinet.open(3, "/scan/b");
    cabinet.fill(writer, 50);
    let file = behind_base(b"\x12\x0C\x0A\x07/scan/b\x12\x01\x00\x12\x0C\x0A\x07/scan/a\x12\x01\x00");
    assert_eq!(cabinet.save(), file);
    assert_eq!(cabinet.load(&file), 0xE0);
}

#[test]
fn save_into_other_buffers() {
    let mut memory = OwnedMemory::fresh();
    for length in [0, 8, 64, 4199, 4201] {
        let mut buffer = vec![0xEE; length];
        assert_eq!(Second.save_part(0, &mut memory, &mut buffer), 0xFF);
        assert_eq!(Second.save_part(9, &mut memory, &mut buffer), 0xFF);
        assert_eq!(buffer, vec![0xEE; length]);
    }
    memory.control[PHASE] = 3;
    assert_eq!(Second.save_part(0, &mut memory, &mut vec![0; 4200]), 0xFF);
    assert_eq!(Second.load(&EMPTY_STORE, &mut memory), 0xFF);
    memory.control[PHASE] = 0;
    memory.staged.push(0);
    assert_eq!(Second.save_part(0, &mut memory, &mut vec![0; 4200]), 0xFF);
    assert_eq!(Second.load(&EMPTY_STORE, &mut memory), 0xFF);
}

/// The file replaces the store: other names, other slots, no byte of the old scans.
#[test]
fn load_replaces_the_store() {
    let mut cabinet = Cabinet::fresh();
    for name in ["/scan/one", "/scan/two", "/scan/three"] {
        cabinet.store(name, 200);
    }
    let image = cabinet.open(2, "/flash/image");
    cabinet.fill(image, 60);
    let before = cabinet.memory.clone();
    let file = behind_base(b"\x12\x0D\x0A\x07/scan/b\x12\x02xy\x12\x09\x0A\x07/scan/a");
    assert_eq!(cabinet.load(&file), 0);
    let scans = [(b"/scan/b", b"xy".to_vec()), (b"/scan/a", Vec::new())];
    let scans = scans.map(|(name, data)| (name.to_vec(), data));
    assert_eq!(cabinet.memory.committed_scans(), scans);
    assert_eq!(cabinet.memory.control[SLOTS_USED], 3);
    assert_eq!(cabinet.memory.control[SLOTS_COMMITTED], 3);
    assert_eq!(cabinet.memory.committed[..3], *b"xy\0");
    assert!(cabinet.memory.committed[2..].iter().all(|byte| *byte == 0));
    assert_eq!(cabinet.memory.control[STAGED_LENGTHS], 0);
    assert_eq!(cabinet.memory.table, before.table);
    assert_eq!(cabinet.memory.image, before.image);
    assert_eq!(cabinet.memory.control[PHASE..], before.control[PHASE..]);
    assert_eq!(cabinet.listed()[..3], ["/scan/", "/scan/b", "/scan/a"]);
    assert_eq!(cabinet.load(&EMPTY_STORE), 0);
    assert_eq!(cabinet.memory.names, OwnedMemory::fresh().names);
}

#[test]
fn e0_store_session() {
    let mut cabinet = Cabinet::fresh();
    let flash = cabinet.open(2, "/flash/cleanup");
    assert_eq!(cabinet.load(&EMPTY_STORE), 0);
    assert_eq!(cabinet.code(&h::close(flash)), 0);
    cabinet.store("/scan/a", 1);
    for flags in [1, 3] {
        let session = cabinet.open(flags, "/scan/a");
        // Before every fault of the file.
        for file in [&EMPTY_STORE[..], b"", b"\x03", b"\x12\x00"] {
            assert_eq!(cabinet.load(file), 0xE0);
        }
        assert_eq!(cabinet.code(&h::close(session)), 0);
    }
    assert_eq!(cabinet.load(&EMPTY_STORE), 0);
}

#[test]
fn e1_to_e5_wire_faults() {
    let ten_and_more = [0x80; 11];
    let too_large = [0xFF, 0xFF, 0xFF, 0xFF, 0xFF, 0xFF, 0xFF, 0xFF, 0xFF, 0x02];
    let mut cabinet = Cabinet::fresh();
    for (fault, code) in [
        (&[0x1B][..], 0xE1),
        (&[0x03], 0xE1),
        (&[0x0C], 0xE1),
        (&[0x00, 0x00], 0xE2),
        (&[0x02, 0x00], 0xE2),
        (&[0x08, 0x00], 0xE3),
        (&[0x11], 0xE3),
        (&[0x15], 0xE3),
        (&[0x18], 0xE4),
        (&[0x18, 0x80], 0xE4),
        (&[0x1A], 0xE4),
        (&[0x80], 0xE4),
        (&ten_and_more, 0xE4),
        (&too_large, 0xE4),
        (&[0x1A, 0x01], 0xE5),
        (&[0x0A, 0x02, 0x00], 0xE5),
        (&[0x19, 0, 0, 0, 0, 0, 0, 0], 0xE5),
        (&[0x1D, 0, 0, 0], 0xE5),
    ] {
        assert_eq!(cabinet.load(&behind_base(fault)), code, "{fault:02X?}");
        // Within a blob, with a field behind it that is long enough for every value.
        let blob = [&[0x12, fault.len() as u8][..], fault, b"\x4A\x0Cabcdefghijkl"].concat();
        assert_eq!(cabinet.load(&behind_base(&blob)), code, "{blob:02X?}");
    }
}

/// The fault nearest to the front; a length past the end before what is inside.
#[test]
fn wire_faults_front_to_back() {
    let mut cabinet = Cabinet::fresh();
    for (file, code) in [
        (&[0x12, 0x01, 0x00, 0x1B][..], 0xE2),
        (&[0x1A, 0x01, 0x00, 0x1B], 0xE1),
        (&[0x12, 0x02, 0x00], 0xE5),
        (&[0x12, 0x00, 0x08], 0xE3),
    ] {
        assert_eq!(cabinet.load(file), code, "{file:02X?}");
    }
}

#[test]
fn e6_to_ea_contents() {
    let name = |number: usize| format!("/scan/n{number:02}").into_bytes();
    let blob = |name: &[u8], data: &[u8]| {
        let mut blob = Vec::new();
        push_counted(&mut blob, 1, name);
        push_counted(&mut blob, 2, data);
        let mut part = Vec::new();
        push_counted(&mut part, 2, &blob);
        part
    };
    let blobs = |count| {
        (0..count)
            .flat_map(|number| blob(&name(number), b"1"))
            .collect::<Vec<u8>>()
    };
    let mut cabinet = Cabinet::fresh();
    assert_eq!(cabinet.load(&[]), 0xE6);
    assert_eq!(cabinet.load(b"\x0A\x05/scan"), 0xE6);
    assert_eq!(cabinet.load(&behind_base(b"\x0A\x00")), 0xE6);
    assert_eq!(cabinet.load(&behind_base(b"\x12\x00")), 0xE7);
    assert_eq!(cabinet.load(&behind_base(&blob(b"/scan/a\0", b""))), 0xE7);
    assert_eq!(cabinet.load(&behind_base(&[blobs(1), blobs(1)].concat())), 0xE8);
    assert_eq!(cabinet.load(&behind_base(&blob(b"/scan/a", &[0; 4097]))), 0xE9);
    assert_eq!(cabinet.load(&behind_base(&blob(b"/scan/a", &[0; 4096]))), 0);
    assert_eq!(cabinet.load(&behind_base(&blobs(17))), 0xEA);
    assert_eq!(cabinet.load(&behind_base(&blobs(16))), 0);
    // Each comes before the next, wherever it stands.
    let long = blob(b"/scan/long", &[0; 4097]);
    let all = [blobs(17), long, blobs(1), b"\x12\x00".to_vec()].concat();
    assert_eq!(cabinet.load(&all), 0xE6);
    assert_eq!(cabinet.load(&behind_base(&all)), 0xE7);
    assert_eq!(cabinet.load(&behind_base(&all[..all.len() - 2])), 0xE8);
}

/// Of a single field that comes twice the last counts; fields that are not known are skipped.
#[test]
fn load_of_other_forms() {
    let mut cabinet = Cabinet::fresh();
    let blob = b"\x12\x02xy\x0A\x01?\x0A\x07/scan/a\x12\x01z\x18\x96\x01";
    let file = [
        &b"\x12\x16"[..],
        blob,
        // Settings, and a field above 2^29, with other types than document 003 gives them.
        b"\x1A\x01m\x25sixn\x2D\x01\x02\x03\x04\x80\x80\x80\x80\x80\x01\x00",
        b"\x0A\x00",
        // The base with a key of ten bytes and a length of three.
        b"\x8A\x80\x80\x80\x80\x80\x80\x80\x80\x00\x86\x80\x00/scan/",
    ]
    .concat();
    assert_eq!(blob.len(), 0x16);
    assert_eq!(cabinet.load(&file), 0);
    let scans = cabinet.memory.committed_scans();
    assert_eq!(scans, [(b"/scan/a".to_vec(), b"z".to_vec())]);
}

// ---- Lookups ----

/// A table with these rows: place and identifier. The other words of all rows are 9.
fn table(rows: &[(usize, u32)]) -> Vec<u32> {
    let mut table = [0, 9, 9, 9].repeat(16);
    for (row, identifier) in rows {
        table[4 * row] = *identifier;
    }
    table
}

/// The result, by both.
fn find_session(identifier: u32, rows: u32, table: &[u32]) -> u32 {
    let before = table.to_vec();
    let result = Second.find_session(identifier, rows, table);
    assert_eq!({ OTHER }.find_session(identifier, rows, table), result);
    assert_eq!(table, before);
    result
}

/// The row is in the second byte, and the number visited above it.
#[test]
fn lookup_counts_used_rows_only() {
    assert_eq!(find_session(7, 0x0001, &table(&[(0, 7)])), 0x01_00_00);
    assert_eq!(find_session(7, 0x8000, &table(&[(15, 7)])), 0x01_0F_00);
    assert_eq!(find_session(7, 0x8001, &table(&[(0, 5), (15, 7)])), 0x02_0F_00);
    // Rows 1, 4 and 6 are used, then 9 and 13.
    let five = table(&[(1, 70), (4, 71), (6, 72), (9, 73), (13, 74)]);
    for (identifier, result) in [
        (70, 0x01_01_00),
        (71, 0x02_04_00),
        (72, 0x03_06_00),
        (73, 0x04_09_00),
        (74, 0x05_0D_00),
        (75, 0x05_00_CB),
        // What all other words are, and what unused rows have for an identifier.
        (9, 0x05_00_CB),
        (0, 0x05_00_CB),
    ] {
        assert_eq!(find_session(identifier, 0x2252, &five), result, "{identifier}");
    }
}

#[test]
fn lookup_in_a_full_and_in_an_empty_table() {
    let rows: Vec<(usize, u32)> = (0..16).map(|row| (row, 100 + row as u32)).collect();
    let full = table(&rows);
    assert_eq!(find_session(100, 0xFFFF, &full), 0x01_00_00);
    assert_eq!(find_session(101, 0xFFFF, &full), 0x02_01_00);
    assert_eq!(find_session(115, 0xFFFF, &full), 0x10_0F_00);
    assert_eq!(find_session(116, 0xFFFF, &full), 0x10_00_CB);
    assert_eq!(find_session(100, 0xFFFE, &full), 0x0F_00_CB);
    assert_eq!(find_session(100, 0, &full), 0x00_00_CB);
    assert_eq!(find_session(0, 0, &[0; 64]), 0x00_00_CB);
    assert_eq!(find_session(0, 0xFFFF, &[0; 64]), 0x01_00_00);
}

/// The lowest used row counts; a row that is not used neither counts nor is found.
#[test]
fn lookup_of_an_identifier_that_comes_twice() {
    let twice = table(&[(2, 7), (3, 8), (5, 7)]);
    assert_eq!(find_session(7, 0x002C, &twice), 0x01_02_00);
    assert_eq!(find_session(7, 0x0028, &twice), 0x02_05_00);
    assert_eq!(find_session(7, 0x0020, &twice), 0x01_05_00);
    assert_eq!(find_session(7, 0x0008, &twice), 0x01_00_CB);
    assert_eq!(find_session(7, 0xFFD3, &twice), 0x0D_00_CB);
}

/// An identifier is a word of 32 bits: 65,543 is not 7.
#[test]
fn lookup_of_the_whole_word() {
    let low = table(&[(0, 7), (1, 0xFFFF)]);
    assert_eq!(find_session(65_543, 0x0003, &low), 0x02_00_CB);
    assert_eq!(find_session(u32::MAX, 0x0003, &low), 0x02_00_CB);
    let high = table(&[(0, 65_543), (1, 7), (2, u32::MAX)]);
    assert_eq!(find_session(7, 0x0007, &high), 0x02_01_00);
    assert_eq!(find_session(65_543, 0x0007, &high), 0x01_00_00);
    assert_eq!(find_session(u32::MAX, 0x0007, &high), 0x03_02_00);
}

/// FF alone, whatever could be found.
#[test]
fn lookup_refused() {
    let sevens = [7; 80];
    assert_eq!(find_session(7, 0xFFFF, &sevens[..64]), 0x01_00_00);
    for length in [0, 1, 4, 60, 63, 65, 68, 80] {
        assert_eq!(find_session(7, 1, &sevens[..length]), 0xFF, "{length} words");
        assert_eq!(find_session(7, 0, &sevens[..length]), 0xFF, "{length} words");
        assert_eq!(find_session(7, u32::MAX, &sevens[..length]), 0xFF, "{length} words");
    }
    for rows in [0x1_0000, 0x1_0001, 0x2_0000, 0x8000_0000, 0x8000_FFFF, u32::MAX] {
        assert_eq!(find_session(7, rows, &sevens[..64]), 0xFF, "rows {rows:#X}");
    }
}

/// Three sessions, of which the second is closed: its row is visited no more, until the next Open takes it.
#[test]
fn lookup_of_sessions() {
    let mut cabinet = Cabinet::fresh();
    let sessions = ["/scan/a", "/scan/b", "/scan/c"].map(|name| cabinet.open(3, name));
    let look_up = |cabinet: &Cabinet, session: u16| {
        let memory = &cabinet.memory;
        find_session(u32::from(session), memory.control[ROWS_USED], &memory.table)
    };
    let results = sessions.map(|session| look_up(&cabinet, session));
    assert_eq!(results, [0x01_00_00, 0x02_01_00, 0x03_02_00]);
    assert_eq!(cabinet.code(&h::close(sessions[1])), 0);
    let results = sessions.map(|session| look_up(&cabinet, session));
    assert_eq!(results, [0x01_00_00, 0x02_00_CB, 0x02_02_00]);
    let fourth = cabinet.open(2, "/flash/cleanup");
    assert_eq!(look_up(&cabinet, fourth), 0x02_01_00);
    assert_eq!(look_up(&cabinet, sessions[2]), 0x03_02_00);
    assert_eq!(look_up(&cabinet, sessions[1]), 0x03_00_CB);
}

// ---- Trays ----

/// Records laid end to end.
fn records(list: &[(u32, Vec<u8>)]) -> Vec<u8> {
    let bytes = |(clock, message): &(u32, Vec<u8>)| {
        let length = u8::try_from(message.len()).unwrap();
        [&clock.to_le_bytes()[..], &[length], message].concat()
    };
    list.iter().flat_map(bytes).collect()
}

const UNTOUCHED: u32 = 0xEEEE_EEEE;

/// What a tray gave: its result, the whole buffer and the result words. What was not written is EE throughout.
struct Given {
    result: u32,
    responses: Vec<u8>,
    results: Vec<u32>,
}

impl Given {
    /// The result words of the messages done; all behind them are as they were lent.
    fn words(&self) -> &[u32] {
        let (done, kept) = self.results.split_at((self.result >> 8 & 0xFF) as usize);
        assert!(kept.iter().all(|word| *word == UNTOUCHED));
        done
    }

    /// The responses; all bytes behind them are as they were lent.
    fn written(&self) -> &[u8] {
        let (written, kept) = self.responses.split_at((self.result >> 16) as usize);
        assert!(kept.iter().all(|byte| *byte == 0xEE));
        written
    }
}

/// Runs a tray in both, with a buffer of this length; the memory is brought on.
fn tray(memory: &mut OwnedMemory, bytes: &[u8], buffer: usize) -> Given {
    tray_with_words(memory, bytes, buffer, 64)
}

fn tray_with_words(memory: &mut OwnedMemory, bytes: &[u8], buffer: usize, words: usize) -> Given {
    let mut other = memory.clone();
    let (mut responses, mut results) = (vec![0xEE; buffer], vec![UNTOUCHED; words]);
    let (mut other_responses, mut other_results) = (responses.clone(), results.clone());
    let result = Second.tray(bytes, memory, &mut responses, &mut results);
    let other_result = { OTHER }.tray(bytes, &mut other, &mut other_responses, &mut other_results);
    assert_eq!(other_result, result);
    assert_eq!((other_responses, other_results), (responses.clone(), results.clone()));
    assert_eq!(other.difference(memory), None);
    Given {
        result,
        responses,
        results,
    }
}

/// An Open of `/scan/a` at clock 5 and the Close of its session 0 at clock 6: responses of 8 and 4 bytes.
#[test]
fn tray_of_an_open_and_a_close() {
    let mut memory = OwnedMemory::fresh();
    let bytes = b"\x05\0\0\0\x10\xCF\xC2\0\x02\x6E\x80\x03\0/scan/a\0\x06\0\0\0\x08\xCF\xC2\0\x06\xC0\x84\0\0";
    assert_eq!(bytes[..], records(&[(5, h::open(3, b"/scan/a")), (6, h::close(0))]));
    let given = tray(&mut memory, bytes, 100);
    assert_eq!(given.result, 0x000C_0200);
    assert_eq!(given.words(), [0x08_00, 0x04_00]);
    assert_eq!(given.written(), b"\xCF\xC2\0\x02\xC0\x84\0\0\xCF\xC2\0\x06");
    // The name was new and never committed, so that only the next identifier is left of it.
    let mut after = OwnedMemory::fresh();
    after.control[NEXT_IDENTIFIER] = 1;
    assert_eq!(memory.difference(&after), None);
}

#[test]
fn tray_goes_on_behind_refusals() {
    let mut memory = OwnedMemory::fresh();
    let messages = [
        Vec::new(),
        vec![0xCF, 0xC2, 0x00, 0x0B],
        vec![0xCF, 0xC2, 0x01, 0x00],
        vec![0xCF; 65],
        vec![0xCF; 255],
        h::close(7),
        h::count(),
        h::enumerate(4),
        h::enumerate(0),
    ];
    let given = tray(&mut memory, &records(&messages.map(|message| (0, message))), 100);
    // Count sends 10 bytes; Enumerate of the base 13.
    assert_eq!(given.result, 0x0017_0900);
    let codes = [0xC7, 0xC1, 0xCC, 0xC7, 0xC7, 0xCB, 0x0A_00, 0xC9, 0x0D_00];
    assert_eq!(given.words(), codes);
    assert_eq!(given.written()[..4], [0xCF, 0xC2, 0x00, 0x00]);
    assert_eq!(given.written()[16..], *b"/scan/\0");
    assert_eq!(memory.difference(&OwnedMemory::fresh()), None);
}

/// Three Counts, whose responses have 10 bytes each; the next goes on only if 64 are free.
#[test]
fn tray_stops_below_64_free_bytes() {
    let counts = records(&[(0, h::count()), (0, h::count()), (0, h::count())]);
    for (buffer, result) in [
        (0, 0),
        (1, 0),
        (63, 0),
        (64, 0x000A_0100),
        (73, 0x000A_0100),
        (74, 0x0014_0200),
        (83, 0x0014_0200),
        (84, 0x001E_0300),
        (4096, 0x001E_0300),
        (100_000, 0x001E_0300),
    ] {
        let given = tray(&mut OwnedMemory::fresh(), &counts, buffer);
        assert_eq!(given.result, result, "{buffer} bytes");
        assert!(given.words().iter().all(|word| *word == 0x0A_00));
        assert_eq!(given.written().len(), 10 * given.words().len());
    }
    // A message that would be refused is not reached either, although it needs no room.
    assert_eq!(tray(&mut OwnedMemory::fresh(), &[0; 5], 63).result, 0);
    assert_eq!(tray(&mut OwnedMemory::fresh(), &[0; 5], 64).result, 0x01_00);
}

/// 64 Reads of 58 bytes each fill 4,096 bytes to the last.
#[test]
fn tray_of_the_longest_responses() {
    let mut cabinet = Cabinet::fresh();
    let session = cabinet.open(3, "/scan/a");
    cabinet.fill(session, 58);
    let reads = records(&vec![(0, h::read(session, 0, 58)); 64]);
    for (buffer, result) in [
        (63, 0x0000_0000),
        (64, 0x0040_0100),
        (127, 0x0040_0100),
        (128, 0x0080_0200),
        (4095, 0x0FC0_3F00),
        (4096, 0x1000_4000),
        (4097, 0x1000_4000),
    ] {
        let given = tray(&mut cabinet.memory, &reads, buffer);
        assert_eq!(given.result, result, "{buffer} bytes");
        let alone = cabinet.say(&h::read(session, 0, 58)).1;
        assert!(given.written().chunks(64).all(|response| response == alone));
    }
}

/// Five zero bytes are a record with clock 0 and an empty message.
#[test]
fn c7_and_c8_of_a_tray() {
    let zeros = [0; 400];
    for (length, result) in [
        (0, 0x00_00),
        (1, 0xC7),
        (4, 0xC7),
        (5, 0x01_00),
        (6, 0xC7),
        (10, 0x02_00),
        (314, 0xC7),
        (315, 0x3F_00),
        (316, 0xC7),
        (319, 0xC7),
        (320, 0x40_00),
        (321, 0xC8),
        (324, 0xC8),
        (325, 0xC8),
        (326, 0xC8),
        (400, 0xC8),
    ] {
        let given = tray(&mut OwnedMemory::fresh(), &zeros[..length], 64);
        assert_eq!(given.result, result, "{length} bytes");
        assert!(given.words().iter().all(|word| *word == 0xC7));
        // Judged before the room is looked at.
        let stopped = tray(&mut OwnedMemory::fresh(), &zeros[..length], 0);
        let refused = result == 0xC7 || result == 0xC8;
        assert_eq!(stopped.result, if refused { result } else { 0 }, "{length} bytes");
    }
}

/// An Open that would be accepted is not reached if a later record is cut, or if there is one too many.
#[test]
fn a_refused_tray_does_nothing() {
    let opens = records(&vec![(5, h::open(3, b"/scan/a")); 65]);
    for (length, code) in [(20, 0xC7), (22, 0xC7), (64 * 21 + 1, 0xC8), (opens.len(), 0xC8)] {
        let mut memory = OwnedMemory::fresh();
        let given = tray(&mut memory, &opens[..length], 4096);
        assert_eq!(given.result, code, "{length} bytes");
        assert!(given.words().is_empty() && given.written().is_empty());
        assert_eq!(memory.difference(&OwnedMemory::fresh()), None);
    }
}

/// Before C7 and C8, for an empty tray too, and whatever the room.
#[test]
fn ff_of_a_tray() {
    let mut damaged = OwnedMemory::fresh();
    damaged.table[63] = 1;
    let trays: [&[u8]; 4] = [&[], &[0; 5], &[0; 6], &[0; 321]];
    for bytes in trays {
        for buffer in [0, 64, 4096] {
            assert_eq!(tray(&mut damaged, bytes, buffer).result, 0xFF);
            for words in [0, 1, 63, 65, 128] {
                let given = tray_with_words(&mut OwnedMemory::fresh(), bytes, buffer, words);
                assert_eq!(given.result, 0xFF, "{words} words");
                assert_eq!(given.results, vec![UNTOUCHED; words]);
                assert!(given.written().is_empty());
            }
        }
    }
}

/// Session 0 has the stamp 100 when it is opened; an Open at 700 keeps it, one at 701 closes it. The clock then goes
/// back, which neither sweeps nor brings it back.
#[test]
fn a_sweep_within_a_tray() {
    for (clock, stat) in [(700, 0x0D_00), (701, 0xCB)] {
        let mut memory = OwnedMemory::fresh();
        memory.control[LAST_SWEEP] = 90;
        let list = [
            (100, h::open(3, b"/scan/a")),
            (clock, h::open(2, b"/flash/cleanup")),
            (5, h::session_stat(0)),
            (5, h::close(1)),
        ];
        let given = tray(&mut memory, &records(&list), 4096);
        assert_eq!(given.words(), [0x08_00, 0x08_00, stat, 0x04_00]);
        assert_eq!(memory.control[LAST_SWEEP], clock);
        assert_eq!(memory.control[ROWS_USED], u32::from(stat == 0x0D_00));
    }
}
