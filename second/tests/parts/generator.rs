//! Chooses requests by looking at the current memory, so that histories go deep.

use super::files;
use super::pair::Step;
use second::harness::{self, OwnedMemory, Random};
use second::message;
use second::names::{characters, Flash};
use second::state::{LAST_SWEEP, NEXT_IDENTIFIER, PHASE};
use second::store_file::PART_BYTES;

/// What a history is mostly about.
#[derive(Clone, Copy, Debug, PartialEq, Eq)]
pub enum Profile {
    /// A bit of everything.
    Mixed,
    /// Many new names, many sessions: tables and slots fill up.
    Fill,
    /// The flash sequence, mostly in its right order.
    Flash,
    /// Few sessions with many reads and writes near lengths and capacities.
    Data,
    /// Long pauses: many sweeps.
    Pauses,
    /// Opens and closes only, so that identifiers move on.
    Turnover,
}

pub const PROFILES: [Profile; 6] = [
    Profile::Mixed,
    Profile::Fill,
    Profile::Flash,
    Profile::Data,
    Profile::Pauses,
    Profile::Turnover,
];

/// The kinds of request: the eleven subcommands, the job outcome, and the two calls for store files.
pub const KINDS: u8 = 14;
pub const OUTCOME: u8 = 11;
pub const SAVE_PART: u8 = 12;
pub const LOAD: u8 = 13;

/// A verdict on a job: good in so many of a hundred, now and then one that is none.
pub fn verdict(random: &mut Random, good: u64) -> u32 {
    if random.chance(4) {
        return random.word().max(2);
    }
    u32::from(random.chance(good))
}

const POOL: &[&[u8]] = &[
    b"/scan/moreau",
    b"/scan/moreau2",
    b"/scan/morea",
    b"/scan/Moreau",
    b"/scan/a",
    b"/scan/b",
    b"/scan/ab",
    b"/scan/A",
    b"/scan/0",
    b"/scan/00",
    b"/scan/abcdefghijklmnopqrstuvwxy",
    b"/scan/abcdefghijklmnopqrstuvwxz",
    b"/scan/abcdefghijklmnopqrstuvwx",
    b"/scan/image",
    b"/scan/scan",
    b"/scan/c",
    b"/scan/d",
    b"/scan/e",
    b"/scan/f",
    b"/scan/g",
    b"/scan/h",
    b"/scan/i",
    b"/scan/j",
    b"/scan/k",
    b"/scan/l",
    b"/scan/m",
    b"/scan/n",
];

const UNKNOWN: &[&[u8]] = &[
    b"/scan",
    b"scan/a",
    b"/Scan/a",
    b"/scan/a/b",
    b"/scan//",
    b"/scan/a ",
    b"/scan/a-b",
    b"/flash/",
    b"/flash",
    b"/flash/imag",
    b"/flash/images",
    b"/flash/Image",
    b"/flash/verify/",
    b"/",
    b"x",
    b"/scan/\xC3\xA4",
    b"/scan/@",
    b"/scan/[",
    b"/scan/`",
    b"/scan/{",
    b"/scan/:",
    b"/scan/\x80",
    b"/flash/cleanu",
    b"/flash/cleanup0",
    b"/scan/abcdefghijklmnopqrstuvw/y",
    b"/sca\x01/a",
];

pub struct Generator {
    pub random: Random,
    pub profile: Profile,
    pub clock: u32,
    /// Whether single requests may come with clocks far off.
    pub wild_clocks: bool,
    closed: Vec<u16>,
}

impl Generator {
    pub fn new(seed: u64, profile: Profile) -> Generator {
        Generator {
            random: Random::new(seed),
            profile,
            clock: 0,
            wild_clocks: false,
            closed: Vec::new(),
        }
    }

    /// The next step of a history.
    pub fn next(&mut self, memory: &OwnedMemory) -> Step {
        if self.random.chance(1) {
            let kind = self.random.pick(&[SAVE_PART, LOAD]);
            return self.of_kind(kind, memory);
        }
        if self.random.chance(45) && (self.profile == Profile::Flash || self.random.chance(6)) {
            return self.flash_order(memory);
        }
        let kind = self.kind();
        self.of_kind(kind, memory)
    }

    fn kind(&mut self) -> u8 {
        use message::{CLOSE, COMMIT, COUNT, DELETE, ENUMERATE, OPEN, READ, SESSION_STAT, STAT, WRITE, WRITE_META};
        let weights: [(u8, u64); 12] = match self.profile {
            Profile::Mixed => WEIGHTS_MIXED,
            Profile::Fill => WEIGHTS_FILL,
            Profile::Flash => WEIGHTS_MIXED,
            Profile::Data => WEIGHTS_DATA,
            Profile::Pauses => WEIGHTS_FILL,
            Profile::Turnover => WEIGHTS_TURNOVER,
        };
        const WEIGHTS_MIXED: [(u8, u64); 12] = [
            (COUNT, 3),
            (ENUMERATE, 6),
            (OPEN, 25),
            (READ, 12),
            (WRITE, 20),
            (COMMIT, 10),
            (CLOSE, 8),
            (DELETE, 5),
            (STAT, 8),
            (SESSION_STAT, 6),
            (WRITE_META, 2),
            (OUTCOME, 5),
        ];
        const WEIGHTS_FILL: [(u8, u64); 12] = [
            (COUNT, 3),
            (ENUMERATE, 6),
            (OPEN, 45),
            (READ, 6),
            (WRITE, 12),
            (COMMIT, 22),
            (CLOSE, 3),
            (DELETE, 1),
            (STAT, 5),
            (SESSION_STAT, 4),
            (WRITE_META, 1),
            (OUTCOME, 2),
        ];
        const WEIGHTS_DATA: [(u8, u64); 12] = [
            (COUNT, 1),
            (ENUMERATE, 1),
            (OPEN, 10),
            (READ, 30),
            (WRITE, 60),
            (COMMIT, 6),
            (CLOSE, 2),
            (DELETE, 1),
            (STAT, 4),
            (SESSION_STAT, 4),
            (WRITE_META, 1),
            (OUTCOME, 1),
        ];
        const WEIGHTS_TURNOVER: [(u8, u64); 12] = [
            (COUNT, 1),
            (ENUMERATE, 1),
            (OPEN, 45),
            (READ, 1),
            (WRITE, 3),
            (COMMIT, 6),
            (CLOSE, 38),
            (DELETE, 3),
            (STAT, 1),
            (SESSION_STAT, 1),
            (WRITE_META, 1),
            (OUTCOME, 1),
        ];
        let mut ticket = self.random.below(weights.iter().map(|(_, weight)| weight).sum());
        for (kind, weight) in weights {
            if ticket < weight {
                return kind;
            }
            ticket -= weight;
        }
        OUTCOME
    }

    /// A step of this kind.
    pub fn of_kind(&mut self, kind: u8, memory: &OwnedMemory) -> Step {
        match kind {
            OUTCOME => return Step::Outcome(verdict(&mut self.random, 60)),
            SAVE_PART => return self.save_part(),
            LOAD => return Step::Load(files::any(&mut self.random)),
            _ => {}
        }
        let mut bytes = self.message(kind, memory);
        if self.random.chance(3) {
            self.spoil(&mut bytes);
        }
        Step::Message {
            bytes,
            clock: self.tick(memory),
        }
    }

    fn message(&mut self, kind: u8, memory: &OwnedMemory) -> Vec<u8> {
        match kind {
            message::COUNT => harness::count(),
            message::ENUMERATE => harness::enumerate(self.index()),
            message::OPEN => self.open(memory),
            message::READ => self.read(memory),
            message::WRITE => self.write(memory, harness::write),
            message::COMMIT => self.commit(memory),
            message::CLOSE => {
                let session = self.session(memory);
                self.note_closed(session);
                harness::close(session)
            }
            message::DELETE => self.named(message::DELETE, memory),
            message::STAT => self.named(message::STAT, memory),
            message::SESSION_STAT => harness::session_stat(self.session(memory)),
            _ => self.write(memory, harness::write_meta),
        }
    }

    /// Mostly a part that there may be, and a buffer of the right length.
    fn save_part(&mut self) -> Step {
        let any = self.random.word();
        let likely = self.random.below(19) as u32;
        let length = self.random.below(5000) as usize;
        Step::SavePart {
            part: self.random.pick(&[0, likely, likely, likely, likely, any]),
            buffer: if self.random.chance(95) { PART_BYTES } else { length },
        }
    }

    fn note_closed(&mut self, session: u16) {
        self.closed.push(session);
        if self.closed.len() > 8 {
            self.closed.remove(0);
        }
    }

    fn index(&mut self) -> u32 {
        match self.random.below(20) {
            0 => self.random.word(),
            1 => u32::MAX,
            2 => 1 << self.random.below(32),
            _ => self.random.below(24) as u32,
        }
    }

    fn open(&mut self, memory: &OwnedMemory) -> Vec<u8> {
        let name = self.name(memory);
        let flags = self.flags(&name);
        self.open_bytes(flags, &name)
    }

    fn open_bytes(&mut self, flags: u16, name: &[u8]) -> Vec<u8> {
        let field = self.name_field(name);
        harness::message(message::OPEN, &[&flags.to_le_bytes()[..], &field].concat())
    }

    fn named(&mut self, subcommand: u8, memory: &OwnedMemory) -> Vec<u8> {
        let name = self.name(memory);
        let field = self.name_field(&name);
        harness::message(subcommand, &field)
    }

    /// The name with its NUL; sometimes with a wrong form.
    fn name_field(&mut self, name: &[u8]) -> Vec<u8> {
        if !self.random.chance(4) {
            return harness::with_nul(name);
        }
        match self.random.below(6) {
            0 => vec![0],
            1 => name.to_vec(),
            2 => [name, &[0, 0]].concat(),
            3 => {
                let place = self.random.below(name.len() as u64) as usize;
                let mut field = harness::with_nul(name);
                field[place] = 0;
                field
            }
            // 32 characters: one too many.
            4 => harness::with_nul(b"/scan/abcdefghijklmnopqrstuvwxyz"),
            _ => {
                let length = self.random.between(1, 56) as usize;
                let mut field = vec![b'a'; length];
                field.push(0);
                field
            }
        }
    }

    fn name(&mut self, memory: &OwnedMemory) -> Vec<u8> {
        let held: Vec<Vec<u8>> = memory
            .used_slots()
            .into_iter()
            .map(|slot| characters(memory.name(slot)).to_vec())
            .collect();
        let new = if self.profile == Profile::Fill { 30 } else { 15 };
        match self.random.below(100) {
            ticket if ticket < new => self.random.pick(POOL).to_vec(),
            ticket if ticket < new + 3 => harness::random_store_name(&mut self.random),
            ticket if ticket < new + 8 => self.variant(&held),
            ticket if ticket < new + 11 => self.random.pick(UNKNOWN).to_vec(),
            ticket if ticket < new + 13 => b"/scan/".to_vec(),
            ticket if ticket < new + 25 => self.random.pick(&Flash::ALL).name().to_vec(),
            _ => self.random.pick_or(&held, b"/scan/moreau".to_vec()),
        }
    }

    /// A name that is almost one held: longer or shorter by a character, or with the other case.
    fn variant(&mut self, held: &[Vec<u8>]) -> Vec<u8> {
        let mut name = self.random.pick_or(held, b"/scan/moreau2".to_vec());
        // In a damaged state a held name may be empty.
        if name.is_empty() {
            return b"/scan/moreau2".to_vec();
        }
        match self.random.below(3) {
            0 => name.truncate(name.len().saturating_sub(1).max(1)),
            1 => name.push(b'2'),
            _ => {
                let last = name.len().saturating_sub(1);
                name[last] ^= 0x20;
                if name[last] == 0 {
                    name[last] = b'z';
                }
            }
        }
        name
    }

    fn flags(&mut self, name: &[u8]) -> u16 {
        if self.random.chance(5) {
            let any = self.random.word() as u16;
            return self
                .random
                .pick(&[0, 1, 2, 3, 0x0101, 0x0103, 0x0102, 0x8001, 0x8003, 7, 4, any]);
        }
        match name.starts_with(b"/flash/") {
            true => 2,
            false => self.random.pick(&[1, 3, 3]),
        }
    }

    fn session(&mut self, memory: &OwnedMemory) -> u16 {
        let open: Vec<u16> = memory.sessions().map(|row| row.identifier as u16).collect();
        let next = memory.control[NEXT_IDENTIFIER] as u16;
        match self.random.below(100) {
            0 | 1 => self.random.word() as u16,
            2 => next,
            3 => next.wrapping_sub(1),
            4 => self.random.pick(&[0, 65_535]),
            5 | 6 => self.random.pick_or(&self.closed.clone(), 0),
            _ => self.random.pick_or(&open, next),
        }
    }

    /// An offset, mostly near the length or the capacity of what the session sees.
    fn offset(&mut self, session: u16, memory: &OwnedMemory) -> u32 {
        let row = memory.session(u32::from(session));
        let (length, capacity) = row.map_or((0, 0), |row| memory.view(&row));
        match self.random.below(20) {
            0 => self.random.word(),
            1 => u32::MAX - self.random.below(60) as u32,
            2 => length.saturating_add(self.random.between(1, 3) as u32),
            3 | 4 => capacity.saturating_sub(self.random.below(56) as u32),
            5 => capacity.saturating_add(self.random.below(3) as u32),
            6 | 7 => self.random.below(u64::from(length) + 1) as u32,
            8 => 0,
            9..=12 => length.saturating_sub(self.random.below(62) as u32),
            _ => length,
        }
    }

    fn read(&mut self, memory: &OwnedMemory) -> Vec<u8> {
        let session = self.session(memory);
        let offset = self.offset(session, memory);
        let any = self.random.word();
        let small = self.random.below(70) as u32;
        let requested = self.random.pick(&[0, 1, 57, 58, 59, 100, u32::MAX, any, small, small]);
        harness::read(session, offset, requested)
    }

    fn write(&mut self, memory: &OwnedMemory, build: fn(u16, u32, &[u8]) -> Vec<u8>) -> Vec<u8> {
        let session = self.session(memory);
        let offset = self.offset(session, memory);
        let length = match self.random.below(8) {
            0 => 0,
            1..=4 => 52,
            _ => self.random.below(53) as usize,
        };
        let data = self.random.bytes(length);
        build(session, offset, &data)
    }

    fn commit(&mut self, memory: &OwnedMemory) -> Vec<u8> {
        let session = self.session(memory);
        if !self.random.chance(7) {
            return harness::commit(session);
        }
        let length = self.random.between(0, 5) as usize;
        let data = self.random.bytes(length);
        let any = self.random.byte();
        let said = self.random.pick(&[0, length as u8, 1, 255, any]);
        harness::commit_with(session, said, &data)
    }

    /// A change that the frame should find.
    fn spoil(&mut self, bytes: &mut Vec<u8>) {
        let place = self.random.below(bytes.len() as u64) as usize;
        match self.random.below(4) {
            0 => bytes[place] ^= 1 << self.random.below(8),
            1 => bytes.truncate(place),
            2 => {
                let length = self.random.between(1, 70) as usize;
                let more = self.random.bytes(length);
                bytes.extend(more);
            }
            _ => {
                let byte = self.random.byte();
                bytes.push(byte);
            }
        }
    }

    // ---- Clocks ----

    fn tick(&mut self, memory: &OwnedMemory) -> u32 {
        let pauses = if self.profile == Profile::Pauses { 12 } else { 2 };
        let step = match self.random.below(100) {
            ticket if ticket < pauses => self.random.between(500, 1300),
            ticket if ticket < 2 * pauses => self.random.between(30, 90),
            _ => self.random.below(4),
        };
        self.clock = self.clock.saturating_add(step as u32);
        match self.random.below(100) {
            0..=2 => self.clock.saturating_sub(self.random.below(1000) as u32),
            3..=5 => self.edge(memory),
            6 if self.wild_clocks => harness::random_clock(&mut self.random),
            _ => self.clock,
        }
    }

    /// A clock at an edge of the sweep: due or not, stale or not.
    fn edge(&mut self, memory: &OwnedMemory) -> u32 {
        let rows = memory.used_rows();
        let around = self.random.below(3) as u32;
        if rows.is_empty() || self.random.chance(40) {
            return memory.control[LAST_SWEEP].saturating_add(59 + around);
        }
        let row = memory.row(self.random.pick(&rows));
        row.stamp.saturating_add(599 + around)
    }

    // ---- The flash sequence ----

    /// Goes on with the flash sequence, mostly in its right order.
    fn flash_order(&mut self, memory: &OwnedMemory) -> Step {
        let step = match memory.flash_row() {
            None => self.flash_open(memory),
            Some(row) => {
                let row = memory.row(row);
                let session = row.identifier as u16;
                let flash = row.flash().expect("a flash row");
                if self.random.chance(5) {
                    return Step::Outcome(verdict(&mut self.random, 50));
                }
                match (flash, row.status) {
                    (Flash::Image | Flash::Hash, _) if self.random.chance(85) => {
                        let (length, capacity) = memory.view(&row);
                        // Long blobs now and then, so that capacities are reached.
                        let size = (capacity - length).min(52);
                        let data = self.random.bytes(size as usize);
                        harness::write(session, length, &data)
                    }
                    (Flash::Verify | Flash::Update, 1) if self.random.chance(60) => {
                        return Step::Outcome(verdict(&mut self.random, 65));
                    }
                    (Flash::Verify | Flash::Update, 0 | 3) if self.random.chance(70) => harness::commit(session),
                    (Flash::Cleanup, 0) if self.random.chance(60) => harness::commit(session),
                    _ if self.random.chance(50) => harness::close(session),
                    _ if self.random.chance(50) => harness::commit(session),
                    _ => harness::session_stat(session),
                }
            }
        };
        Step::Message {
            bytes: step,
            clock: self.tick(memory),
        }
    }

    fn flash_open(&mut self, memory: &OwnedMemory) -> Vec<u8> {
        let likely = match memory.control[PHASE] {
            0 => [Flash::Image, Flash::Image, Flash::Hash, Flash::Cleanup],
            1 => [Flash::Verify, Flash::Verify, Flash::Hash, Flash::Verify],
            _ => [Flash::Update, Flash::Update, Flash::Update, Flash::Verify],
        };
        let flash = if self.random.chance(90) {
            self.random.pick(&likely)
        } else {
            self.random.pick(&Flash::ALL)
        };
        harness::open(2, flash.name())
    }
}
