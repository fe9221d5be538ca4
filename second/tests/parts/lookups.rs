//! Looking up sessions: every mask, tables made for one lookup, words that are alike, what is refused, any content, and
//! the tables of states and histories. Each result is also counted out by the test itself and, where the table was made
//! for it, known from the making.

use super::generator::{Generator, PROFILES};
use super::pair::{Pair, Step};
use super::tally::{Tally, FIND_SESSION};
use super::{Share, WORKERS};
use second::harness::{self, random_sound_state, Implementation, OwnedMemory, Random, Second, OTHER};
use second::state::{LAST_SWEEP, NEXT_IDENTIFIER, ROWS_USED};

const MASKS: u64 = 65_536;
const MADE: u64 = 150_000;
const ALIKE: u64 = 200;
const REFUSED: u64 = 60;
const RANDOM: u64 = 100_000;
const STATES: u64 = 1_500;
const HISTORIES: u64 = 48;
const HISTORY: u64 = 500;

const ROWS: usize = 16;
const WORDS: usize = 64;
const ALL: u32 = 0xFFFF;

// ---- One lookup ----

/// What is asked: an identifier, in the used rows of a table.
#[derive(Clone, Copy)]
struct Lookup<'t> {
    identifier: u32,
    rows: u32,
    table: &'t [u32],
}

fn lookup(identifier: u32, rows: u32, table: &[u32]) -> Lookup<'_> {
    Lookup {
        identifier,
        rows,
        table,
    }
}

/// The result for a row found after so many visited, itself included.
fn found(row: usize, visited: usize) -> u32 {
    (256 * row + 65_536 * visited) as u32
}

/// The result if none of the rows visited has the identifier.
fn absent(visited: usize) -> u32 {
    (0xCB + 65_536 * visited) as u32
}

/// The places of a mask, ascending.
fn places(rows: u32) -> Vec<usize> {
    (0..ROWS).filter(|row| rows & (1 << row) != 0).collect()
}

impl Lookup<'_> {
    fn wrong_table(&self) -> bool {
        self.table.len() != WORDS
    }

    fn wrong_mask(&self) -> bool {
        self.rows > 65_535
    }

    fn has(&self, row: usize) -> bool {
        self.table[4 * row] == self.identifier
    }

    /// The result by a plain count: the lowest of the used rows that have the identifier, and how many used rows are
    /// not above it.
    fn counted_out(&self) -> u32 {
        if self.wrong_table() || self.wrong_mask() {
            return 0xFF;
        }
        let used = places(self.rows);
        match used.iter().filter(|row| self.has(**row)).min() {
            Some(row) => found(*row, used.iter().filter(|other| *other <= row).count()),
            None => absent(used.len()),
        }
    }

    fn run(&self, one: &mut dyn Implementation, lent: &[u32]) -> u32 {
        one.find_session(self.identifier, self.rows, lent)
    }

    fn fail(&self, pair: &Pair, what: &str) -> ! {
        panic!(
            "{}: {what}\n  identifier {:#X}, rows {:#X}, {} words: {:08X?}",
            pair.place(),
            self.identifier,
            self.rows,
            self.table.len(),
            self.table
        );
    }
}

/// Looks up in both, compares, tests, counts; gives the result.
fn look_up(pair: &mut Pair, lookup: Lookup) -> u32 {
    let lent = lookup.table.to_vec();
    let result = lookup.run(&mut Second, &lent);
    let other_result = lookup.run(&mut { OTHER }, &lent);
    let counted = lookup.counted_out();
    if result != other_result {
        lookup.fail(pair, &format!("results {result:#X} (second) and {other_result:#X}"));
    }
    if result != counted {
        lookup.fail(pair, &format!("result {result:#X}, counted out {counted:#X}"));
    }
    if lent != lookup.table {
        lookup.fail(pair, &format!("a lookup leaves the table; now it is {lent:08X?}"));
    }
    pair.tally.count(FIND_SESSION, (result & 0xFF) as u8);
    for what in lookup.situations() {
        pair.tally.situation(&format!("Find session: {what}"));
    }
    result
}

/// The same for a lookup whose result is known without counting.
fn expect(pair: &mut Pair, lookup: Lookup, wanted: u32) {
    let result = look_up(pair, lookup);
    if result != wanted {
        lookup.fail(pair, &format!("result {result:#X}, wanted {wanted:#X}"));
    }
}

// ---- Counting what was reached ----

impl Lookup<'_> {
    fn situations(&self) -> Vec<&'static str> {
        match (self.wrong_table(), self.wrong_mask()) {
            (true, true) => vec!["refused for both"],
            (true, false) => vec!["refused for the table"],
            (false, true) => vec!["refused for the mask"],
            (false, false) => {
                let holding = self.of_rows().into_iter().filter(|(_, holds)| *holds);
                holding.map(|(what, _)| what).collect()
            }
        }
    }

    fn of_rows(&self) -> Vec<(&'static str, bool)> {
        let (used, unused) = (places(self.rows), places(!self.rows));
        match used.iter().position(|row| self.has(*row)) {
            Some(place) => self.of_found(place, &used, &unused),
            None => self.of_absent(&used, &unused),
        }
    }

    fn of_found(&self, place: usize, used: &[usize], unused: &[usize]) -> Vec<(&'static str, bool)> {
        let (passed, above) = (&used[..place], &used[place + 1..]);
        let skipped = unused.iter().any(|row| *row < used[place] && self.has(*row));
        vec![
            ("first used row", place == 0),
            ("last of 16", place == 15),
            ("row 15 alone", *used == [15]),
            ("identifier 0", self.identifier == 0),
            ("identifier above 65,535", self.identifier > 65_535),
            ("repeated identifier", above.iter().any(|row| self.has(*row))),
            ("unused row with the identifier skipped", skipped),
            ("row that agrees in 16 bits passed", self.agrees_in_16_bits(passed)),
            ("row with another word like it passed", self.other_word_agrees(passed)),
        ]
    }

    fn of_absent(&self, used: &[usize], unused: &[usize]) -> Vec<(&'static str, bool)> {
        vec![
            ("no row used", used.is_empty()),
            ("none of 16", used.len() == ROWS),
            ("in an unused row only", unused.iter().any(|row| self.has(*row))),
            ("agrees in 16 bits only", self.agrees_in_16_bits(used)),
            ("another word agrees only", self.other_word_agrees(used)),
        ]
    }

    /// Whether one of these rows, which do not have the identifier, has its lower 16 bits.
    fn agrees_in_16_bits(&self, rows: &[usize]) -> bool {
        rows.iter()
            .any(|row| (self.table[4 * row] ^ self.identifier) & ALL == 0)
    }

    fn other_word_agrees(&self, rows: &[usize]) -> bool {
        let others = |row: &usize| &self.table[4 * row + 1..4 * row + 4];
        rows.iter().any(|row| others(row).contains(&self.identifier))
    }
}

// ---- Every mask ----

/// Every mask of 16 bits on a table of different identifiers: the one of each row is asked for, used or not, and one
/// that no row has.
pub fn every_mask(share: Share) -> Tally {
    share.run(share.of(MASKS), |pair, place, seed| {
        let rows = ((place * WORKERS + share.worker) % MASKS) as u32;
        let mut random = Random::new(seed);
        let identifiers = different_words(&mut random);
        let table = table_of(&mut random, &identifiers[..ROWS]);
        start(pair, &format!("every mask, seed {seed:#X}"));
        let none = absent(rows.count_ones() as usize);
        let mut visited = 0;
        for (row, identifier) in identifiers.into_iter().enumerate() {
            let used = rows >> row & 1 == 1;
            visited += usize::from(used);
            let wanted = if used { found(row, visited) } else { none };
            expect(pair, lookup(identifier, rows, &table), wanted);
        }
    })
}

/// A context for reports; each table counts as a state.
fn start(pair: &mut Pair, context: &str) {
    pair.note(context);
    pair.tally.states += 1;
}

/// Seventeen words in any order: rows' own numbers, a sequence over the end of 16 bits or that agrees in them, or any.
fn different_words(random: &mut Random) -> Vec<u32> {
    let first = random.pick(&[0, 65_520, 65_530]);
    let apart = random.pick(&[1, 2, 65_536]);
    let mut words: Vec<u32> = match random.below(3) {
        0 => (0..=16).collect(),
        1 => (0..=16).map(|step| first + step * apart).collect(),
        // The lowest bits keep them different.
        _ => (0..=16).map(|step| (random.word() << 5) | step).collect(),
    };
    random.shuffle(&mut words);
    words
}

/// A table with these identifiers; the other words are any.
fn table_of(random: &mut Random, identifiers: &[u32]) -> Vec<u32> {
    let mut row = |identifier: &u32| [*identifier, random.word(), random.word(), random.word()];
    identifiers.iter().flat_map(&mut row).collect()
}

// ---- Tables made for one lookup ----

/// The used row to be found is chosen first. Those below it do not have the identifier but are often like it; those
/// above it, and all unused ones, may have it.
pub fn made(share: Share) -> Tally {
    share.run(share.of(MADE), |pair, _, seed| {
        let mut random = Random::new(seed);
        let (identifier, rows) = (any_identifier(&mut random), any_mask(&mut random));
        let used = places(rows);
        let place = random.below(used.len() as u64 + 1) as usize;
        let table = made_table(&mut random, identifier, &used, place);
        start(pair, &format!("made for one lookup, seed {seed:#X}"));
        let wanted = match used.get(place) {
            Some(row) => found(*row, place + 1),
            None => absent(used.len()),
        };
        expect(pair, lookup(identifier, rows, &table), wanted);
        // What another row has, or a word like the identifier.
        let there = table[4 * random.below(16) as usize];
        let like = unlike(&mut random, identifier);
        look_up(pair, lookup(random.pick(&[there, like]), rows, &table));
    })
}

fn made_table(random: &mut Random, identifier: u32, used: &[usize], place: usize) -> Vec<u32> {
    let mut table = Vec::new();
    for row in 0..ROWS {
        let has = match used.iter().position(|other| *other == row) {
            Some(here) if here < place => false,
            Some(here) if here == place => true,
            _ => random.chance(50),
        };
        let other = unlike(random, identifier);
        table.push(if has { identifier } else { other });
        for _ in 1..4 {
            let any = random.word();
            table.push(random.pick(&[identifier, other, any]));
        }
    }
    table
}

fn any_identifier(random: &mut Random) -> u32 {
    let (any, small) = (random.word(), random.below(65_536) as u32);
    random.pick(&[0, 1, 65_535, 65_536, u32::MAX, small, small, any, any])
}

/// A mask below 65,536: few rows, many, or any.
fn any_mask(random: &mut Random) -> u32 {
    let (any, other) = (random.word() & ALL, random.word() & ALL);
    let one = 1 << random.below(16);
    random.pick(&[0, ALL, 0x8000, 1, one, ALL ^ one, any & other, any | other, any, any])
}

/// A word that is not this one, but often almost.
fn unlike(random: &mut Random, word: u32) -> u32 {
    let bit = 1 << random.below(32);
    let high = (random.between(1, 65_535) as u32) << 16;
    let any = random.word();
    let other = random.pick(&[word ^ bit, word ^ high, word & ALL, word << 16, !word, any, 0]);
    if other == word {
        word ^ bit
    } else {
        other
    }
}

// ---- Words that are alike ----

/// Every bit of an identifier counts, and no word of a row but its first: each bit and each word is tried.
pub fn alike(share: Share) -> Tally {
    share.run(share.of(ALIKE), |pair, _, seed| {
        let mut random = Random::new(seed);
        start(pair, &format!("alike words, seed {seed:#X}"));
        let (identifier, rows) = (any_identifier(&mut random), any_mask(&mut random));
        one_bit_off(pair, &mut random, identifier, rows);
        one_word_like(pair, identifier, rows);
        one_word_like(pair, identifier, ALL);
    })
}

/// All rows have the identifier but for one bit; then each in turn has it.
fn one_bit_off(pair: &mut Pair, random: &mut Random, identifier: u32, rows: u32) {
    let used = places(rows);
    let none = absent(used.len());
    for bit in 0..32 {
        let off = [identifier ^ (1 << bit); ROWS];
        let table = table_of(random, &off);
        expect(pair, lookup(identifier, rows, &table), none);
        for row in 0..ROWS {
            let mut table = table.clone();
            table[4 * row] = identifier;
            let place = used.iter().position(|other| *other == row);
            let wanted = place.map_or(none, |place| found(row, place + 1));
            expect(pair, lookup(identifier, rows, &table), wanted);
        }
    }
}

/// A single word of the table is the identifier: it is found if it is the first of a used row.
fn one_word_like(pair: &mut Pair, identifier: u32, rows: u32) {
    let used = places(rows);
    for word in 0..WORDS {
        let mut table = [!identifier; WORDS];
        table[word] = identifier;
        let place = used.iter().position(|row| 4 * row == word);
        let wanted = place.map_or(absent(used.len()), |place| found(word / 4, place + 1));
        expect(pair, lookup(identifier, rows, &table), wanted);
    }
}

// ---- What is refused ----

/// Masks of 65,536 and above, tables of every length to 130 but 64, and both: FF and nothing else. Every word is the
/// identifier, so that it would be found wherever it was looked for.
pub fn refused(share: Share) -> Tally {
    share.run(share.of(REFUSED), |pair, _, seed| {
        let mut random = Random::new(seed);
        start(pair, &format!("refused, seed {seed:#X}"));
        let identifier = any_identifier(&mut random);
        let words = [identifier; 130];
        let of_length = |length, rows| lookup(identifier, rows, &words[..length]);
        for rows in high_masks(&mut random) {
            expect(pair, of_length(WORDS, rows), 0xFF);
            let length = random.pick(&[0, 4, 60, 63, 65, 68, 128, 130]);
            expect(pair, of_length(length, rows), 0xFF);
        }
        for length in (0..=words.len()).filter(|length| *length != WORDS) {
            let high = 65_536 + random.word() / 2;
            for rows in [0, 1, 0x8000, ALL, any_mask(&mut random), 65_536, high] {
                expect(pair, of_length(length, rows), 0xFF);
            }
        }
        // With neither fault it is found, or there is no row to look at.
        expect(pair, of_length(WORDS, ALL), found(0, 1));
        expect(pair, of_length(WORDS, 0), absent(0));
    })
}

/// Masks with each bit from 16 on: alone, with others below it, and with any.
fn high_masks(random: &mut Random) -> Vec<u32> {
    let mut masks = vec![65_536, 65_537, u32::MAX, u32::MAX - ALL];
    for bit in (16..32).map(|place| 1 << place) {
        let below = any_mask(random);
        masks.extend([bit, bit | ALL, bit | below, bit | random.word(), bit | (bit - 1)]);
    }
    masks
}

// ---- Any content ----

/// Tables of any length and content, any masks, any identifiers; most of them are not refused.
pub fn random(share: Share) -> Tally {
    share.run(share.of(RANDOM), |pair, _, seed| {
        let mut random = Random::new(seed);
        start(pair, &format!("any content, seed {seed:#X}"));
        let table = any_table(&mut random);
        for _ in 0..4 {
            let any = random.word();
            let rows = if random.chance(90) { any_mask(&mut random) } else { any };
            let there = random.pick_or(&table, any);
            let like = unlike(&mut random, there);
            let identifier = random.pick(&[there, there, like, any]);
            look_up(pair, lookup(identifier, rows, &table));
        }
    })
}

/// Any words, or mostly of a few that come again and again.
fn any_table(random: &mut Random) -> Vec<u32> {
    let length = if random.chance(90) {
        WORDS
    } else {
        random.below(200) as usize
    };
    let few: Vec<u32> = (0..random.between(1, 30)).map(|_| any_identifier(random)).collect();
    let percent = random.pick(&[0, 80, 100]);
    let mut word = |_| match random.chance(percent) {
        true => random.pick(&few),
        false => random.word(),
    };
    (0..length).map(&mut word).collect()
}

// ---- States and histories ----

/// The tables of sound states; and a message finds a session exactly where the lookup does.
pub fn states(share: Share) -> Tally {
    share.run(share.of(STATES), |pair, place, seed| {
        let mut random = Random::new(seed);
        let state = match place {
            0 => OwnedMemory::fresh(),
            _ => random_sound_state(&mut random),
        };
        pair.start(&state, &format!("lookups in a sound state, seed {seed:#X}"));
        sessions_found(pair);
        for row in state.sessions() {
            message_agrees(pair, row.identifier, 0xD5);
        }
        for identifier in not_in_use(&mut random, &state) {
            not_found(pair, identifier);
            if random.chance(20) {
                message_agrees(pair, identifier, 0xCB);
            }
        }
        assert!(pair.memory() == &state, "{}: the state stays", pair.place());
    })
}

/// Every open session is found in its row.
fn sessions_found(pair: &mut Pair) {
    let (rows, table) = (pair.memory().control[ROWS_USED], pair.memory().table.clone());
    for (place, row) in pair.memory().used_rows().into_iter().enumerate() {
        let wanted = found(row, place + 1);
        expect(pair, lookup(table[4 * row], rows, &table), wanted);
    }
}

/// An identifier that no session has: all used rows are visited.
fn not_found(pair: &mut Pair, identifier: u32) {
    let (rows, table) = (pair.memory().control[ROWS_USED], pair.memory().table.clone());
    let wanted = absent(pair.memory().used_rows().len());
    expect(pair, lookup(identifier, rows, &table), wanted);
}

/// Identifiers that no session has; many are like one that some session has, or are another word of its row.
fn not_in_use(random: &mut Random, memory: &OwnedMemory) -> Vec<u32> {
    let next = memory.control[NEXT_IDENTIFIER];
    let mut identifiers = vec![0, 65_535, next, (next + 65_535) % 65_536, random.word()];
    for row in memory.sessions() {
        let like = unlike(random, row.identifier);
        identifiers.extend([like, row.identifier + 1, row.identifier + 65_536, row.blob, row.stamp]);
    }
    identifiers.retain(|identifier| memory.session(*identifier).is_none());
    identifiers
}

/// WriteMeta gives D5 for a session that is open and CB for one that is not, and changes nothing.
fn message_agrees(pair: &mut Pair, identifier: u32, wanted: u8) {
    // A message has no more than 16 bits for it.
    let Ok(session) = u16::try_from(identifier) else { return };
    let bytes = harness::write_meta(session, 0, &[]);
    let clock = pair.memory().control[LAST_SWEEP];
    let code = pair.step(&Step::Message { bytes, clock });
    assert_eq!(code, wanted, "{}: session {session}", pair.place());
}

/// Lookups after each step of a history: the sessions open, those closed by the step, and others that are not open.
pub fn histories(share: Share) -> Tally {
    share.run(share.of(HISTORIES), |pair, history, seed| {
        let profile = PROFILES[(history % PROFILES.len() as u64) as usize];
        let mut generator = Generator::new(seed, profile);
        let mut state = OwnedMemory::fresh();
        if generator.random.chance(50) {
            state.control[NEXT_IDENTIFIER] = generator.random.between(65_500, 65_535) as u32;
        }
        pair.start(&state, &format!("lookups in a history {profile:?}, seed {seed:#X}"));
        for _ in 0..HISTORY {
            let open: Vec<u32> = pair.memory().sessions().map(|row| row.identifier).collect();
            let step = generator.next(pair.memory());
            pair.step(&step);
            sessions_found(pair);
            for identifier in open {
                still_open_or_not_found(pair, identifier);
            }
            for identifier in not_in_use(&mut generator.random, pair.memory()) {
                not_found(pair, identifier);
            }
        }
    })
}

/// A session that was open before the step: if it still is, it has been found already.
fn still_open_or_not_found(pair: &mut Pair, identifier: u32) {
    if pair.memory().session(identifier).is_some() {
        pair.tally.situation("Find session: session open in a history");
    } else {
        not_found(pair, identifier);
        pair.tally.situation("Find session: session closed in a history");
    }
}
