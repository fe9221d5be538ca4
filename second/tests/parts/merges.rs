//! Merges: lists of requests for open sessions give the same codes, responses and end state however they are merged.

use super::generator::{verdict, Generator, Profile};
use super::pair::{run, Step};
use super::tally::Tally;
use super::Share;
use second::harness::{self, near, random_sound_state, Implementation, OwnedMemory, Random, Second, OTHER};
use second::names::Flash;
use second::state::{Row, LAST_SWEEP};

const CASES: u64 = 2_400;
const MERGES: u64 = 3;

/// What one request gave: code + 256 × length, and the response.
type Reply = (u32, Vec<u8>);

pub fn merges(share: Share) -> Tally {
    let mut tally = Tally::new();
    for place in 0..share.of(CASES) {
        let seed = share.seed_for(place + 1);
        one_case(seed, &mut tally);
    }
    tally
}

fn one_case(seed: u64, tally: &mut Tally) {
    let mut generator = Generator::new(seed, Profile::Mixed);
    let start = state_with_sessions(&mut generator.random);
    let lists = lists(&mut generator, &start);
    let merges: Vec<Order> = (0..MERGES).map(|_| merge(&mut generator.random, &lists)).collect();
    tally.states += 1;
    let (replies, end) = by_itself(&mut Second, "the second", &start, &lists, &merges, seed);
    let (other_replies, other_end) = by_itself(&mut { OTHER }, "the other", &start, &lists, &merges, seed);
    assert_eq!(
        replies, other_replies,
        "lists one after the other: the implementations differ, seed {seed:#X}"
    );
    same_state(
        &end,
        &other_end,
        "lists one after the other: the implementations differ",
        seed,
    );
    count(&lists, &replies, tally);
}

/// Compares each merge with the lists run whole one after the other, in one implementation.
fn by_itself(
    one: &mut dyn Implementation,
    which: &str,
    start: &OwnedMemory,
    lists: &[Vec<Step>],
    merges: &[Order],
    seed: u64,
) -> (Vec<Vec<Reply>>, OwnedMemory) {
    let (replies, end) = play(one, start, lists, &in_turn(lists));
    for merge in merges {
        let (merged, merged_end) = play(one, start, lists, merge);
        assert_eq!(
            replies, merged,
            "a merge shows in {which}, seed {seed:#X}, order {merge:?}"
        );
        same_state(
            &end,
            &merged_end,
            &format!("a merge shows in {which}, order {merge:?}"),
            seed,
        );
    }
    (replies, end)
}

fn same_state(one: &OwnedMemory, other: &OwnedMemory, what: &str, seed: u64) {
    if let Some(difference) = one.difference(other) {
        panic!("{what}, seed {seed:#X}: {difference}");
    }
}

fn count(lists: &[Vec<Step>], replies: &[Vec<Reply>], tally: &mut Tally) {
    for (step, (result, _)) in lists.iter().flatten().zip(replies.iter().flatten()) {
        tally.count(step.command(), (result & 0xFF) as u8);
    }
    // Each request ran in this many orders.
    let all: usize = lists.iter().map(Vec::len).sum();
    tally.requests += MERGES * all as u64;
}

/// A sound state with at least two sessions, often with one of the flash.
fn state_with_sessions(random: &mut Random) -> OwnedMemory {
    let flash_wanted = random.chance(60);
    loop {
        let state = random_sound_state(random);
        if state.used_rows().len() >= 2 && (!flash_wanted || state.flash_row().is_some()) {
            return state;
        }
    }
}

/// Lists for two to five of the sessions; the others get no request.
fn lists(generator: &mut Generator, start: &OwnedMemory) -> Vec<Vec<Step>> {
    let mut rows = start.used_rows();
    generator.random.shuffle(&mut rows);
    // The flash session comes first, so that it is not left out.
    rows.sort_by_key(|row| start.row(*row).flash().is_none());
    let most = rows.len().min(5) as u64;
    rows.truncate(generator.random.between(2, most) as usize);
    generator.random.shuffle(&mut rows);
    rows.into_iter()
        .map(|row| list(generator, start, &start.row(row)))
        .collect()
}

/// One session's list, empty ones included.
fn list(generator: &mut Generator, start: &OwnedMemory, row: &Row) -> Vec<Step> {
    let random = &mut generator.random;
    let length = random.below(14);
    let (mut end, capacity) = start.view(row);
    let mut clock = near(random, start.control[LAST_SWEEP], 1000);
    let mut steps = Vec::new();
    for _ in 0..length {
        clock = near(random, clock, 400);
        if row.flash().is_some() && random.chance(25) {
            steps.push(Step::Outcome(verdict(random, 60)));
            continue;
        }
        let bytes = request(random, row, &mut end, capacity);
        steps.push(Step::Message { bytes, clock });
    }
    steps
}

/// A request that names this session, or now and then one that the frame refuses and that names none.
fn request(random: &mut Random, row: &Row, end: &mut u32, capacity: u32) -> Vec<u8> {
    let session = row.identifier as u16;
    let offset = match random.below(6) {
        0 => random.below(u64::from(*end) + 2) as u32,
        1 => end.saturating_sub(random.below(70) as u32),
        2 => capacity.saturating_sub(random.below(60) as u32),
        3 => random.word(),
        _ => *end,
    };
    let is_job = matches!(row.flash(), Some(Flash::Verify | Flash::Update | Flash::Cleanup));
    match random.below(100) {
        0..=29 if !is_job => {
            let length = random.below(53);
            let data = random.bytes(length as usize);
            if offset == *end && u64::from(offset) + length <= u64::from(capacity) {
                *end += length as u32;
            }
            harness::write(session, offset, &data)
        }
        30..=54 if !is_job => harness::read(session, offset, random.below(70) as u32),
        0..=69 => harness::commit(session),
        70..=84 => harness::session_stat(session),
        85..=88 => harness::close(session),
        89..=91 => harness::write_meta(session, offset, &[1, 2, 3]),
        92..=93 => harness::commit_with(session, 1, &[7]),
        _ => refused_by_frame(random),
    }
}

fn refused_by_frame(random: &mut Random) -> Vec<u8> {
    match random.below(5) {
        0 => random.bytes(3),
        1 => vec![0xCF, 0xC2, 0x01, 0x00],
        2 => vec![0xCF, 0xC2, 0x00, 0x0B],
        3 => vec![0xCF, 0xC2, 0x00, 0x06, 1, 2, 3],
        _ => {
            let mut bytes = harness::close(random.word() as u16);
            bytes[4] ^= 1;
            bytes
        }
    }
}

// ---- Orders ----

/// An order names at each turn the list whose next request runs.
type Order = Vec<usize>;

fn in_turn(lists: &[Vec<Step>]) -> Order {
    lists
        .iter()
        .enumerate()
        .flat_map(|(number, list)| vec![number; list.len()])
        .collect()
}

fn merge(random: &mut Random, lists: &[Vec<Step>]) -> Order {
    let mut order = in_turn(lists);
    random.shuffle(&mut order);
    order
}

/// Runs the requests in this order; replies by list and place, and the end state.
fn play(
    one: &mut dyn Implementation,
    start: &OwnedMemory,
    lists: &[Vec<Step>],
    order: &[usize],
) -> (Vec<Vec<Reply>>, OwnedMemory) {
    let mut memory = start.clone();
    let mut answer = vec![0xA5; 64];
    let mut replies: Vec<Vec<Reply>> = vec![Vec::new(); lists.len()];
    for number in order {
        let step = &lists[*number][replies[*number].len()];
        let result = run(one, step, &mut memory, &mut answer);
        let length = (result >> 8) as usize;
        replies[*number].push((result, answer[..length].to_vec()));
    }
    (replies, memory)
}
