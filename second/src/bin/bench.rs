//! Nanoseconds per request of the library beside the second implementation: per command and for mixed traffic, on a
//! nearly fresh state and on a full one (16 slots, 15 sessions). Both run in the same process on the same states, in
//! turn, and both test soundness at each request. The numbers are medians of many short rounds, and beside them the least
//! ones, which a busy machine disturbs less.

use second::harness::{self as h, Implementation, OwnedMemory, Second};
use second::library::Library;
use std::time::Instant;

const ROUNDS: usize = 41;
const CALLS: u64 = 200;
const CLOCK: u32 = 30;
const HELD: &[u8] = b"/scan/held";

/// What is measured: requests run after one another from the same state. With `resets` each run starts from the state
/// anew (and is timed alone); else the requests leave it as it is, but for stamps and bytes already there.
struct Measure {
    what: &'static str,
    requests: Vec<Vec<u8>>,
    resets: bool,
}

fn measure(what: &'static str, request: Vec<u8>) -> Measure {
    Measure {
        what,
        requests: vec![request],
        resets: false,
    }
}

fn changing(what: &'static str, requests: Vec<Vec<u8>>) -> Measure {
    Measure {
        what,
        requests,
        resets: true,
    }
}

fn main() {
    println!("nanoseconds per request, medians (and least) of {ROUNDS} rounds");
    println!("reading the time takes about {:.0}", clock_reading());
    let states = [
        ("nearly fresh state", nearly_fresh()),
        ("full state: 16 slots, 15 sessions", full()),
    ];
    for (title, state) in states {
        println!("\n{title}");
        println!(
            "{:<26} {:>4} {:>18} {:>18} {:>8}",
            "", "code", "library", "second", "ratio"
        );
        for measure in measures(&state) {
            line(&measure, &state);
        }
        outcome_line(&state);
    }
}

fn line(measure: &Measure, state: &OwnedMemory) {
    let mut library = Vec::new();
    let mut second = Vec::new();
    let mut results = (0, 0);
    for _ in 0..ROUNDS {
        let (time, result) = round(&mut Library, measure, state);
        library.push(time);
        results.0 = result;
        let (time, result) = round(&mut Second, measure, state);
        second.push(time);
        results.1 = result;
    }
    assert_eq!(results.0, results.1, "the implementations must agree: {}", measure.what);
    print_line(measure.what, results.0, library, second);
}

fn print_line(what: &str, result: u32, library: Vec<f64>, second: Vec<f64>) {
    let code = result & 0xFF;
    let (library, library_least) = median_and_least(library);
    let (second, second_least) = median_and_least(second);
    let ratio = library / second;
    println!(
        "{what:<26}   {code:02X} {library:>8.0} ({library_least:>7.0}) {second:>8.0} ({second_least:>7.0}) {ratio:>8.2}"
    );
}

/// One round: nanoseconds per request, and the last result.
fn round(one: &mut dyn Implementation, measure: &Measure, state: &OwnedMemory) -> (f64, u32) {
    let mut memory = state.clone();
    let mut answer = vec![0; 64];
    let mut result = 0;
    let mut run = |memory: &mut OwnedMemory| {
        for request in &measure.requests {
            result = one.respond(request, CLOCK, memory, &mut answer);
        }
    };
    run(&mut memory);
    let calls = if measure.requests.len() > 1 { CALLS / 10 } else { CALLS };
    let mut nanoseconds = 0.0;
    if measure.resets {
        for _ in 0..calls {
            memory.set(state);
            let begin = Instant::now();
            run(&mut memory);
            nanoseconds += begin.elapsed().as_nanos() as f64;
        }
    } else {
        let begin = Instant::now();
        for _ in 0..calls {
            run(&mut memory);
        }
        nanoseconds = begin.elapsed().as_nanos() as f64;
    }
    (nanoseconds / calls as f64 / measure.requests.len() as f64, result)
}

/// The job outcome, refused each time: no job runs.
fn outcome_line(state: &OwnedMemory) {
    let time = |one: &mut dyn Implementation| {
        let mut memory = state.clone();
        let begin = Instant::now();
        let results: Vec<u32> = (0..CALLS).map(|_| one.job_outcome(1, &mut memory)).collect();
        (begin.elapsed().as_nanos() as f64 / CALLS as f64, results[0])
    };
    let rounds: Vec<_> = (0..ROUNDS).map(|_| (time(&mut Library), time(&mut Second))).collect();
    let library = rounds.iter().map(|((time, _), _)| *time).collect();
    let second = rounds.iter().map(|(_, (time, _))| *time).collect();
    print_line("Job outcome without a job", rounds[0].0 .1, library, second);
}

fn median_and_least(mut times: Vec<f64>) -> (f64, f64) {
    times.sort_by(f64::total_cmp);
    (times[times.len() / 2], times[0])
}

fn clock_reading() -> f64 {
    let begin = Instant::now();
    (0..CALLS).for_each(|_| {
        std::hint::black_box(Instant::now());
    });
    begin.elapsed().as_nanos() as f64 / CALLS as f64
}

// ---- States ----

/// Brings the state on by requests that must be accepted.
fn accept(memory: &mut OwnedMemory, request: Vec<u8>) {
    let result = Second.respond(&request, CLOCK, memory, &mut vec![0; 64]);
    assert_eq!(result & 0xFF, 0, "a request for the bench's state is accepted");
}

/// The identifier that the next Open gives (the states here skip none).
fn next(memory: &OwnedMemory) -> u16 {
    memory.control[second::state::NEXT_IDENTIFIER] as u16
}

fn store(memory: &mut OwnedMemory, name: &[u8], length: u32, closes: bool) -> u16 {
    let session = next(memory);
    accept(memory, h::open(3, name));
    for offset in (0..length).step_by(52) {
        accept(
            memory,
            h::write(session, offset, &vec![0x5A; (length - offset).min(52) as usize]),
        );
    }
    accept(memory, h::commit(session));
    if closes {
        accept(memory, h::close(session));
    }
    session
}

/// One held name without session, one session with 1,000 bytes.
fn nearly_fresh() -> OwnedMemory {
    let mut memory = OwnedMemory::fresh();
    store(&mut memory, HELD, 1000, true);
    store(&mut memory, b"/scan/open", 1000, false);
    memory
}

/// Sixteen slots of 4,096 bytes, fifteen with sessions, and a full image.
fn full() -> OwnedMemory {
    let mut memory = OwnedMemory::fresh();
    let image = next(&memory);
    accept(&mut memory, h::open(2, b"/flash/image"));
    for offset in (0..16_384).step_by(32) {
        accept(&mut memory, h::write(image, offset, &[0xA5; 32]));
    }
    accept(&mut memory, h::close(image));
    for number in 0..15 {
        store(
            &mut memory,
            format!("/scan/numberedscan{number}").as_bytes(),
            4096,
            false,
        );
    }
    store(&mut memory, HELD, 4096, true);
    memory
}

// ---- Requests ----

fn measures(state: &OwnedMemory) -> Vec<Measure> {
    let rows = state.used_rows();
    let session = state.row(rows[rows.len() - 1]).identifier as u16;
    let data = [0x5A; 52];
    let mut wrong_crc = h::session_stat(session);
    wrong_crc[4] ^= 1;
    vec![
        measure("Count", h::count()),
        measure("Enumerate", h::enumerate(2)),
        changing("Open read-only", vec![h::open(1, HELD)]),
        changing("Open for writing", vec![h::open(3, HELD)]),
        changing("Open a new name", vec![h::open(3, b"/scan/new")]),
        changing("Open the image", vec![h::open(2, b"/flash/image")]),
        measure("Open, busy", h::open(3, &open_name(state, session))),
        measure("Read 58 bytes", h::read(session, 500, 58)),
        measure("Write 52 bytes", h::write(session, 500, &data)),
        measure("Commit", h::commit(session)),
        changing("Close", vec![h::close(session)]),
        changing("Delete", vec![h::delete(HELD)]),
        measure("Stat", h::stat(HELD)),
        measure("SessionStat", h::session_stat(session)),
        measure("WriteMeta", h::write_meta(session, 0, &data)),
        measure("wrong CRC", wrong_crc),
        measure("empty message", Vec::new()),
        changing("mixed traffic", mixed(state)),
    ]
}

fn open_name(state: &OwnedMemory, session: u16) -> Vec<u8> {
    let row = state.session(u32::from(session));
    let slot = row.and_then(|row| row.slot()).expect("the session's slot");
    second::names::characters(state.name(slot)).to_vec()
}

/// A whole session with the requests around it: 28 requests.
fn mixed(state: &OwnedMemory) -> Vec<Vec<u8>> {
    let session = next(state);
    let mut requests = vec![h::count(), h::enumerate(1), h::stat(HELD), h::open(3, HELD)];
    requests.extend((0..10).map(|step| h::write(session, step * 52, &[step as u8; 52])));
    requests.extend([h::session_stat(session), h::commit(session), h::session_stat(session)]);
    requests.extend((0..9).map(|step| h::read(session, step * 58, 58)));
    requests.extend([h::close(session), h::delete(HELD)]);
    requests
}
