//! One tray: how it is made, what it is lent, and what must hold of it. It runs in both implementations, which must
//! leave the same; what it left is then compared with what single calls of the same implementation leave.
//!
//! Which code a tray gives follows from how it was made: no tray is read here.

use super::pair::Pair;
use super::tally::{command_of, in_tray, TRAY};
use second::harness::{Implementation, OwnedMemory, Random, Second, OTHER};
use second::message;
use second::state::{LAST_SWEEP, ROWS_USED, RUNNING};

/// A tray has so many records at most, and so many result words are lent.
pub const MOST: usize = 64;
/// A message is answered only if so many bytes are free; an answer buffer has as many.
pub const ROOM: usize = 64;
/// A report shows no more bytes of a tray; the seed makes the whole of it again.
const SHOWN_BYTES: usize = 1000;
/// As much as 64 responses can have.
pub const WHOLE_BUFFER: usize = 4096;

// ---- Trays as they are made ----

/// A clock and a message.
pub type Record = (u32, Vec<u8>);

/// Whole records, and behind them the front of one more, which is cut (none if it is empty).
pub struct Tray {
    pub records: Vec<Record>,
    begun: Vec<u8>,
}

fn record_bytes((clock, message): &Record) -> Vec<u8> {
    let length = u8::try_from(message.len()).expect("a record has at most 255 bytes of message");
    [&clock.to_le_bytes()[..], &[length], message].concat()
}

impl Tray {
    pub fn whole(records: &[Record]) -> Tray {
        Tray {
            records: records.to_vec(),
            begun: Vec::new(),
        }
    }

    /// The first so many bytes of the records laid end to end.
    pub fn cut(records: &[Record], bytes: usize) -> Tray {
        let mut tray = Tray::whole(&[]);
        let mut left = bytes;
        for record in records {
            let whole = record_bytes(record);
            if left < whole.len() {
                tray.begun = whole[..left].to_vec();
                break;
            }
            left -= whole.len();
            tray.records.push(record.clone());
        }
        tray
    }

    pub fn bytes(&self) -> Vec<u8> {
        let mut bytes: Vec<u8> = self.records.iter().flat_map(record_bytes).collect();
        bytes.extend(&self.begun);
        bytes
    }

    /// The code on a sound state: what stands behind a 64th record comes before a cut.
    fn code(&self) -> u8 {
        let cut = !self.begun.is_empty();
        match self.records.len() {
            0..MOST if cut => 0xC7,
            0..MOST => 0x00,
            MOST if !cut => 0x00,
            _ => 0xC8,
        }
    }

    /// What it is, for the count of situations.
    fn kind(&self) -> &'static str {
        match self.code() {
            0xC7 => "cut",
            0xC8 => "past the 64th",
            _ if self.records.is_empty() => "empty",
            _ => "good",
        }
    }
}

// ---- Lent memory ----

/// What a tray is lent: the state, and the buffers filled with any bytes and words.
#[derive(Clone)]
pub struct Lent {
    pub memory: OwnedMemory,
    pub responses: Vec<u8>,
    pub results: Vec<u32>,
}

impl Lent {
    pub fn new(random: &mut Random, state: &OwnedMemory, responses: usize) -> Lent {
        Lent::with_results(random, state, responses, MOST)
    }

    /// The same with another number of result words.
    pub fn with_results(random: &mut Random, state: &OwnedMemory, responses: usize, results: usize) -> Lent {
        Lent {
            memory: state.clone(),
            responses: random.bytes(responses),
            results: (0..results).map(|_| random.word()).collect(),
        }
    }

    fn difference(&self, other: &Lent) -> Option<String> {
        let memories = self.memory.difference(&other.memory);
        memories
            .or_else(|| first_difference("response byte", &self.responses, &other.responses))
            .or_else(|| first_difference("result word", &self.results, &other.results))
    }
}

fn first_difference<T: PartialEq + std::fmt::UpperHex>(what: &str, one: &[T], other: &[T]) -> Option<String> {
    let place = one.iter().zip(other).position(|(one, other)| one != other)?;
    Some(format!("{what} {place}: {:X} and {:X}", one[place], other[place]))
}

/// What a call left behind, with its result.
pub struct Left {
    pub result: u32,
    pub lent: Lent,
}

impl Left {
    pub fn code(&self) -> u8 {
        (self.result & 0xFF) as u8
    }

    pub fn done(&self) -> usize {
        (self.result >> 8 & 0xFF) as usize
    }

    pub fn written(&self) -> usize {
        (self.result >> 16) as usize
    }
}

pub fn call(one: &mut dyn Implementation, tray: &[u8], mut lent: Lent) -> Left {
    let result = one.tray(tray, &mut lent.memory, &mut lent.responses, &mut lent.results);
    Left { result, lent }
}

// ---- What must hold ----

/// A tray and what it is lent; its bytes and whether the lent state is sound.
struct Case<'c> {
    tray: &'c Tray,
    lent: &'c Lent,
    bytes: Vec<u8>,
    sound: bool,
}

/// Runs a tray in both, compares, tests, counts; gives what it left.
pub fn check(pair: &mut Pair, tray: &Tray, lent: &Lent) -> Left {
    let mut to_second = lent.clone();
    let case = Case {
        tray,
        lent,
        bytes: tray.bytes(),
        sound: to_second.memory.is_sound(),
    };
    let mut left = call(&mut Second, &case.bytes, to_second);
    let other = call(&mut { OTHER }, &case.bytes, lent.clone());
    if left.result != other.result {
        let (one, other) = (left.result, other.result);
        case.fail(pair, &format!("results {one:#X} (second) and {other:#X}"));
    }
    if let Some(difference) = left.lent.difference(&other.lent) {
        case.fail(pair, &format!("they leave other things (second first): {difference}"));
    }
    case.test_code(pair, &left);
    pair.tally.count(TRAY, left.code());
    if left.code() == 0 {
        case.check(pair, left.lent.memory.is_sound(), "soundness is kept");
        case.like_single_calls(pair, "the other", &mut { OTHER }, &left);
        let answered = case.like_single_calls(pair, "the second", &mut Second, &left);
        case.count_taken(pair, &left, &answered);
    } else {
        case.count_refused(pair, left.code());
    }
    left
}

/// A tray that has room for all responses: all of it is done.
pub fn check_whole(pair: &mut Pair, random: &mut Random, state: &OwnedMemory, records: &[Record]) -> Left {
    let lent = Lent::new(random, state, WHOLE_BUFFER);
    let left = check(pair, &Tray::whole(records), &lent);
    assert_eq!(left.done(), records.len(), "{}: all are done", pair.place());
    left
}

impl Case<'_> {
    fn fail(&self, pair: &Pair, what: &str) -> ! {
        let records = self.tray.records.len();
        let (responses, results) = (self.lent.responses.len(), self.lent.results.len());
        panic!(
            "{}: {what}\n  {records} whole records; {responses} bytes and {results} words lent for them\n  tray: {:02X?}\n  control before: {:?}\n  table before: {:08X?}",
            pair.place(),
            &self.bytes[..self.bytes.len().min(SHOWN_BYTES)],
            self.lent.memory.control,
            self.lent.memory.table
        );
    }

    fn check(&self, pair: &Pair, holds: bool, what: &str) {
        if !holds {
            self.fail(pair, what);
        }
    }

    /// FF before all else; a refusal is the code alone and leaves everything.
    fn test_code(&self, pair: &Pair, left: &Left) {
        let lent_right = self.sound && self.lent.results.len() == MOST;
        let wanted = if lent_right { self.tray.code() } else { 0xFF };
        self.check(pair, left.code() == wanted, &format!("the code is not {wanted:02X}"));
        if wanted != 0 {
            self.check(pair, left.result <= 0xFF, "a refusal is the code alone");
            let difference = left.lent.difference(self.lent);
            self.check(pair, difference.is_none(), "a refusal leaves everything");
        }
    }

    /// Compares a tray that was taken with single calls from the same state; gives what these answered.
    fn like_single_calls(&self, pair: &Pair, which: &str, one: &mut dyn Implementation, left: &Left) -> Vec<Answered> {
        let test = |holds: bool, what: &str| self.check(pair, holds, &format!("{which}: {what}"));
        let (done, written) = (left.done(), left.written());
        let (before, after) = (self.lent, &left.lent);
        test(done <= self.tray.records.len(), "no more done than there are");
        let mut alone = Alone::new(one, &before.memory);
        for ((clock, message), word) in self.tray.records[..done].iter().zip(&after.results) {
            let free = before.responses.len().saturating_sub(alone.responses.len());
            test(free >= ROOM, "each message done had 64 free bytes");
            let result = alone.answer(message, *clock, free);
            test(*word == result, "the results are those of single calls");
        }
        test(written == alone.responses.len(), "as many bytes as single calls send");
        let (sent, kept) = after.responses.split_at(written);
        test(sent == alone.responses, "the responses are those of single calls");
        test(
            kept == &before.responses[written..],
            "the bytes behind the last response are kept",
        );
        test(
            after.results[done..] == before.results[done..],
            "the words of messages not done are kept",
        );
        let difference = after.memory.difference(&alone.memory);
        test(difference.is_none(), "the state is that of single calls");
        let all = done == self.tray.records.len();
        test(
            all || kept.len() < ROOM,
            "it stops only where fewer than 64 bytes are free",
        );
        alone.answered
    }
}

// ---- Single calls ----

/// What a single call gave, and what is needed to tell which situation it was.
pub struct Answered {
    message: Vec<u8>,
    clock: u32,
    code: u8,
    /// The bytes that were free in the buffer of the tray.
    free: usize,
    /// The identifier that an Open gave.
    opened: Option<[u8; 2]>,
    swept: bool,
    closed_any: bool,
    starts_job: bool,
}

/// Messages one after the other, each with an answer buffer as it should be.
pub struct Alone<'i> {
    one: &'i mut dyn Implementation,
    memory: OwnedMemory,
    answer: Vec<u8>,
    /// The responses laid end to end.
    pub responses: Vec<u8>,
    answered: Vec<Answered>,
}

impl<'i> Alone<'i> {
    pub fn new(one: &'i mut dyn Implementation, state: &OwnedMemory) -> Alone<'i> {
        Alone {
            one,
            memory: state.clone(),
            answer: vec![0xA5; ROOM],
            responses: Vec::new(),
            answered: Vec::new(),
        }
    }

    pub fn answer(&mut self, message: &[u8], clock: u32, free: usize) -> u32 {
        let (last_sweep, rows) = (self.memory.control[LAST_SWEEP], self.memory.control[ROWS_USED]);
        let job_ran = job_runs(&self.memory);
        let result = self.one.respond(message, clock, &mut self.memory, &mut self.answer);
        let response = &self.answer[..(result >> 8) as usize];
        self.responses.extend(response);
        let opens = result & 0xFF == 0 && command_of(message) == usize::from(message::OPEN);
        self.answered.push(Answered {
            message: message.to_vec(),
            clock,
            code: (result & 0xFF) as u8,
            free,
            opened: opens.then(|| [response[6], response[7]]),
            swept: self.memory.control[LAST_SWEEP] != last_sweep,
            closed_any: rows & !self.memory.control[ROWS_USED] != 0,
            starts_job: !job_ran && job_runs(&self.memory),
        });
        result
    }
}

fn job_runs(memory: &OwnedMemory) -> bool {
    memory.sessions().any(|row| row.status == RUNNING)
}

// ---- Counting what was reached ----

impl Case<'_> {
    fn count_refused(&self, pair: &mut Pair, code: u8) {
        match (code, self.sound) {
            (0xFF, false) => count(pair, &format!("not sound, {}", self.tray.kind())),
            (0xFF, true) => count(pair, &format!("other results, {}", self.tray.kind())),
            _ => self.count_bad_tray(pair, code),
        }
    }

    fn count_bad_tray(&self, pair: &mut Pair, code: u8) {
        let (records, begun) = (self.tray.records.len(), self.tray.begun.len());
        if self.lent.responses.is_empty() {
            count(pair, &format!("{code:02X} without a free byte"));
        }
        let found = [
            ("cut in the clock", (1..4).contains(&begun)),
            ("cut before the length", begun == 4),
            ("cut before the message", begun == 5),
            ("cut in the message", begun > 5),
            ("cut in the first", records == 0),
            ("cut in the 64th", records == 63),
            ("one byte behind the 64th", records == 64 && begun == 1),
            ("65 whole records", records == 65 && begun == 0),
            ("66 whole records", records == 66),
        ];
        count_found(pair, &found);
    }

    fn count_taken(&self, pair: &mut Pair, left: &Left, answered: &[Answered]) {
        let (records, done) = (self.tray.records.len(), left.done());
        let buffer = self.lent.responses.len();
        let free = buffer - left.written();
        let stopped = done < records;
        let next_refused = stopped && refused_for_length(&self.tray.records[done].1);
        let found = [
            ("no record", records == 0),
            ("no record, no free byte", records == 0 && buffer == 0),
            ("all of 64 done", done == MOST),
            ("64 responses of 64 bytes", left.written() == WHOLE_BUFFER),
            ("full to the last byte", !stopped && done > 0 && free == 0),
            ("stopped before the first", stopped && done == 0),
            ("stopped before the 64th", stopped && done == 63),
            ("stopped at 63 free bytes", stopped && free == 63),
            ("stopped without a free byte", stopped && free == 0),
            ("stopped before a message that is refused", next_refused),
        ];
        count_found(pair, &found);
        for (place, one) in answered.iter().enumerate() {
            count_answered(pair, one, &answered[..place]);
        }
    }
}

/// Whether a message is refused whatever the state is, so that no byte would be needed for it.
fn refused_for_length(message: &[u8]) -> bool {
    message.len() < 4 || message.len() > 64
}

/// Counts a message of a tray; those before it are told.
fn count_answered(pair: &mut Pair, one: &Answered, before: &[Answered]) {
    pair.tally.requests += 1;
    pair.tally.situation("Tray: message like a single call");
    pair.tally.situation(&in_tray(command_of(&one.message), one.code));
    let last = |holds: fn(&Answered) -> bool| before.last().is_some_and(holds);
    let accepted = one.code == 0;
    let session = session_of(&one.message).filter(|_| accepted);
    let opened_here = before.iter().any(|other| session.is_some() && other.opened == session);
    let earlier = before.last().is_some_and(|last| one.clock < last.clock);
    let swept_twice = one.swept && before.iter().any(|other| other.swept);
    let found = [
        ("went on at 64 free bytes", one.free == 64),
        ("went on at 65 free bytes", one.free == 65),
        ("accepted behind a refusal", accepted && last(|last| last.code != 0)),
        ("behind a message of 65 bytes", last(|last| last.message.len() == 65)),
        ("behind a message of 255 bytes", last(|last| last.message.len() == 255)),
        ("on a session opened in the tray", opened_here),
        ("clock earlier than the one before", earlier),
        ("sweep", one.swept),
        ("sweep that closes a session", one.swept && one.closed_any),
        ("sweep of a refused Open", one.swept && !accepted),
        ("second sweep", swept_twice),
        ("job started", one.starts_job),
    ];
    count_found(pair, &found);
}

/// The identifier in a message that names a session.
fn session_of(bytes: &[u8]) -> Option<[u8; 2]> {
    let names_one = [
        message::READ,
        message::WRITE,
        message::COMMIT,
        message::CLOSE,
        message::SESSION_STAT,
    ];
    let named = names_one.contains(bytes.get(3)?);
    bytes.get(6..8)?.try_into().ok().filter(|_| named)
}

fn count_found(pair: &mut Pair, found: &[(&str, bool)]) {
    for (what, _) in found.iter().filter(|(_, holds)| *holds) {
        count(pair, what);
    }
}

fn count(pair: &mut Pair, what: &str) {
    pair.tally.situation(&format!("Tray: {what}"));
}
