//! Runs both implementations side by side and compares everything; each step is also tested by itself: refusals change
//! nothing, soundness is kept, responses have their form.

use super::files;
use super::tally::{command_of, Tally, LOAD, OUTCOME, SAVE_PART};
use second::crc::crc;
use second::harness::{region, Implementation, Other, OwnedMemory, Random, Second, OTHER};
use second::message;
use second::names::{characters, Flash};
use second::state::{
    Row, COMMITTED_LENGTHS, FLAGS_READ, LAST_SWEEP, NEXT_IDENTIFIER, PHASE, ROWS_USED, RUNNING, SLOTS, SLOTS_COMMITTED,
    SLOTS_USED,
};
use second::store_file::PART_BYTES;
use second::sweep::is_due;

/// One thing to do: a message with its clock, a job outcome with its verdict, a part of the store to save into a buffer
/// of this length, or a file to load.
#[derive(Clone, Debug)]
pub enum Step {
    Message { bytes: Vec<u8>, clock: u32 },
    Outcome(u32),
    SavePart { part: u32, buffer: usize },
    Load(Vec<u8>),
}

impl Step {
    /// The row of the table that it belongs to.
    pub fn command(&self) -> usize {
        match self {
            Step::Message { bytes, .. } => command_of(bytes),
            Step::Outcome(_) => OUTCOME,
            Step::SavePart { .. } => SAVE_PART,
            Step::Load(_) => LOAD,
        }
    }
}

/// A report shows no more bytes of a file; the seed makes the whole of it again.
const SHOWN_BYTES: usize = 1000;

/// As many as all staged regions have.
static ZEROS: [u8; 65_536] = [0; 65_536];

impl std::fmt::Display for Step {
    fn fmt(&self, formatter: &mut std::fmt::Formatter) -> std::fmt::Result {
        match self {
            Step::Message { bytes, clock } => {
                write!(formatter, "clock {clock}, {} bytes ", bytes.len())?;
                bytes.iter().try_for_each(|byte| write!(formatter, "{byte:02X}"))
            }
            Step::Outcome(verdict) => write!(formatter, "job outcome, verdict: {verdict}"),
            Step::SavePart { part, buffer } => write!(formatter, "save part {part}, buffer of {buffer}"),
            Step::Load(file) => {
                write!(formatter, "load, {} bytes ", file.len())?;
                let mut shown = file.iter().take(SHOWN_BYTES);
                shown.try_for_each(|byte| write!(formatter, "{byte:02X}"))
            }
        }
    }
}

/// The bytes of a buffer from the first that the other does not have, as many as a report needs.
fn shown<'b>(buffer: &'b [u8], other: &[u8]) -> &'b [u8] {
    let alike = buffer.iter().zip(other).take_while(|(one, other)| one == other).count();
    &buffer[alike..(alike + 64).min(buffer.len())]
}

/// Runs a step in one implementation; gives the code + 256 × length.
pub fn run(one: &mut dyn Implementation, step: &Step, memory: &mut OwnedMemory, answer: &mut Vec<u8>) -> u32 {
    match step {
        Step::Message { bytes, clock } => one.respond(bytes, *clock, memory, answer),
        Step::Outcome(verdict) => one.job_outcome(*verdict, memory),
        Step::SavePart { part, .. } => one.save_part(*part, memory, answer),
        Step::Load(file) => one.load(file, memory),
    }
}

pub struct Pair {
    second: Second,
    other: Other,
    memory: OwnedMemory,
    other_memory: OwnedMemory,
    before: OwnedMemory,
    sound: bool,
    filler: Random,
    steps: u64,
    context: String,
    /// What the last step wrote to the front of its buffer: a response or a part of the store.
    response: Vec<u8>,
    /// The length of the answer buffer, 64 but in tests of lengths.
    pub answer_length: usize,
    pub tally: Tally,
}

impl Pair {
    pub fn new(seed: u64) -> Pair {
        Pair {
            second: Second,
            other: OTHER,
            memory: OwnedMemory::fresh(),
            other_memory: OwnedMemory::fresh(),
            before: OwnedMemory::fresh(),
            sound: true,
            filler: Random::new(seed ^ 0x5555),
            steps: 0,
            context: String::new(),
            response: Vec::new(),
            answer_length: 64,
            tally: Tally::new(),
        }
    }

    /// Starts anew from this state. The context is for reports.
    pub fn start(&mut self, memory: &OwnedMemory, context: &str) {
        self.restart(memory, context);
        self.tally.states += 1;
    }

    /// The same without counting it as another state.
    pub fn restart(&mut self, memory: &OwnedMemory, context: &str) {
        self.memory.set(memory);
        self.other_memory.set(memory);
        self.before.set(memory);
        self.sound = self.memory.is_sound();
        self.steps = 0;
        self.note(context);
    }

    /// Another context for reports; the state stays.
    pub fn note(&mut self, context: &str) {
        self.context.clear();
        self.context.push_str(context);
    }

    /// Sets the next identifier in both; every number below 65,536 is sound.
    pub fn set_next_identifier(&mut self, next: u32) {
        self.memory.control[NEXT_IDENTIFIER] = next;
        self.other_memory.control[NEXT_IDENTIFIER] = next;
    }

    pub fn memory(&self) -> &OwnedMemory {
        &self.memory
    }

    /// The whole file that the state saves, part by part.
    pub fn save(&mut self) -> Vec<u8> {
        let mut file = Vec::new();
        for part in 0.. {
            let buffer = PART_BYTES;
            if self.step(&Step::SavePart { part, buffer }) != 0 {
                break;
            }
            file.extend(&self.response);
        }
        file
    }

    /// Runs one step in both, compares, tests, counts; gives the code.
    pub fn step(&mut self, step: &Step) -> u8 {
        self.before.set(&self.memory);
        let filling = match step {
            Step::SavePart { buffer, .. } => self.filler.bytes(*buffer),
            _ => self.filler.bytes(self.answer_length),
        };
        let mut answer = filling.clone();
        let mut other_answer = filling.clone();
        let result = run(&mut self.second, step, &mut self.memory, &mut answer);
        let other_result = run(&mut self.other, step, &mut self.other_memory, &mut other_answer);
        self.steps += 1;
        if result != other_result {
            self.fail(step, &format!("results {result:#X} (second) and {other_result:#X}"));
        }
        if let Some(difference) = self.memory.difference(&self.other_memory) {
            self.fail(step, &format!("states differ (second first): {difference}"));
        }
        if answer != other_answer {
            let (one, other) = (shown(&answer, &other_answer), shown(&other_answer, &answer));
            self.fail(
                step,
                &format!("answers differ from here: {one:02X?} (second) and {other:02X?}"),
            );
        }
        let length = usize::try_from(result >> 8).expect("a length");
        self.check(step, length <= answer.len(), "what is written fits its buffer");
        self.test_alone(step, result, &filling, &answer);
        self.response.clear();
        self.response.extend(&answer[..length]);
        let code = (result & 0xFF) as u8;
        self.tally_step(step, code, length);
        code
    }

    fn fail(&self, step: &Step, what: &str) -> ! {
        let places = 0..self.before.control.len().min(40);
        panic!(
            "{}: {what}\n  step: {step}\n  control before: {:?}\n  table before: {:08X?}",
            self.place(),
            &self.before.control[places],
            self.before.table
        );
    }

    /// Where the pair is, for reports.
    pub fn place(&self) -> String {
        format!("{}, step {}", self.context, self.steps)
    }

    fn check(&self, step: &Step, holds: bool, what: &str) {
        if !holds {
            self.fail(step, what);
        }
    }

    /// What holds of each step by itself.
    fn test_alone(&mut self, step: &Step, result: u32, filling: &[u8], answer: &[u8]) {
        let code = result & 0xFF;
        let length = (result >> 8) as usize;
        let lent_right = match step {
            Step::Message { .. } => self.answer_length == 64,
            Step::SavePart { buffer, .. } => *buffer == PART_BYTES,
            Step::Outcome(_) | Step::Load(_) => true,
        };
        self.check(
            step,
            (code == 0xFF) != (self.sound && lent_right),
            "FF exactly when not sound",
        );
        if code != 0xFF {
            self.test_early_refusals(step, code);
        }
        if code == 0 {
            self.test_success(step, length, filling, answer);
        } else {
            self.check(step, length == 0, "a refusal has no response");
            self.check(step, answer == filling, "a refusal leaves the answer buffer");
            if !self.may_have_swept(step, code) {
                self.check(step, self.before == self.memory, "a refusal leaves the state");
            }
        }
        if self.sound {
            self.sound = self.memory.is_sound();
            self.check(step, self.sound, "soundness is kept");
        }
    }

    /// What of a save or a load can be told from the state before it.
    fn test_early_refusals(&self, step: &Step, code: u32) {
        match step {
            Step::SavePart { part, .. } => {
                let past_last = *part > self.before.control[SLOTS_COMMITTED].count_ones();
                self.check(step, (code == 0xC9) == past_last, "C9 exactly past the last part");
            }
            Step::Load(_) => {
                let open = self.before.sessions().any(|row| row.slot().is_some());
                self.check(step, (code == 0xE0) == open, "E0 exactly beside a store session");
            }
            Step::Message { .. } | Step::Outcome(_) => {}
        }
    }

    fn test_success(&self, step: &Step, length: usize, filling: &[u8], answer: &[u8]) {
        match step {
            Step::Outcome(_) => {
                self.check(step, length == 0 && answer == filling, "a job outcome has no response");
            }
            Step::SavePart { part, .. } => self.test_saved(step, *part, length, filling, answer),
            Step::Load(_) => {
                self.check(step, length == 0 && answer == filling, "a load has no response");
                self.test_loaded(step);
            }
            Step::Message { bytes, .. } => {
                self.check(step, (4..=64).contains(&length), "a response has 4 to 64 bytes");
                self.check(
                    step,
                    answer[..4] == bytes[..4],
                    "a response begins with OEM number and subcommand",
                );
                self.check(
                    step,
                    answer[length..] == filling[length..],
                    "the bytes behind the response are kept",
                );
                let crc_right = length == 4 || (length >= 6 && crc(&answer[6..length]).to_le_bytes() == answer[4..6]);
                self.check(step, crc_right, "the response's CRC is right");
            }
        }
    }

    fn test_saved(&self, step: &Step, part: u32, length: usize, filling: &[u8], buffer: &[u8]) {
        let (written, behind) = buffer.split_at(length);
        self.check(step, *behind == filling[length..], "the bytes behind a part are kept");
        self.check(step, self.before == self.memory, "a save leaves the state");
        let right = match part.checked_sub(1) {
            None => files::base_part(),
            Some(blob) => {
                let (name, data) = &self.memory.committed_scans()[blob as usize];
                files::blob_part(name, data)
            }
        };
        self.check(step, written == right, "a part is what the test itself writes");
    }

    /// What an accepted load leaves, whatever the file: the store filled from slot 0 on and nothing else in it, and all
    /// that is no part of the store.
    fn test_loaded(&self, step: &Step) {
        let (before, after) = (&self.before, &self.memory);
        let untouched = before.table == after.table && before.image == after.image && before.hash == after.hash;
        self.check(step, untouched, "a load leaves sessions, image and hash");
        let same_values = before.control[PHASE..] == after.control[PHASE..];
        let same_rows = before.control[ROWS_USED] == after.control[ROWS_USED];
        self.check(step, same_values && same_rows, "a load leaves the other values");
        let used = after.control[SLOTS_USED];
        let from_0_on = used & (used + 1) == 0 && used == after.control[SLOTS_COMMITTED];
        self.check(step, from_0_on, "slots are used from 0 on and committed");
        self.check(step, after.staged == ZEROS, "staged bytes are zero");
        for slot in 0..SLOTS {
            let length = after.control[COMMITTED_LENGTHS + slot] as usize;
            let behind = &after.committed[region(slot)][length..];
            self.check(step, ZEROS.starts_with(behind), "bytes behind a scan are zero");
        }
    }

    fn may_have_swept(&self, step: &Step, code: u32) -> bool {
        match step {
            Step::Message { bytes, clock } => {
                command_of(bytes) == usize::from(message::OPEN)
                    && [0xCB, 0xCC, 0xC0, 0xC4].contains(&code)
                    && is_due(*clock, self.before.control[LAST_SWEEP])
            }
            _ => false,
        }
    }
}

// Counting what was reached.
impl Pair {
    fn tally_step(&mut self, step: &Step, code: u8, length: usize) {
        let command = step.command();
        self.tally.count(command, code);
        match step {
            Step::Outcome(verdict) if code == 0 => self.tally_outcome(*verdict == 1),
            Step::SavePart { part, .. } if code == 0 => self.tally_saved(*part as usize, length),
            Step::Load(_) if code == 0 => self.tally_loaded(),
            Step::Load(_) if code == 0xE0 => self.tally_store_open(),
            Step::Outcome(_) | Step::SavePart { .. } | Step::Load(_) => {}
            Step::Message { bytes, clock } => {
                if code == 0xFF || command > 10 {
                    return;
                }
                self.tally_fullness();
                match bytes[3] {
                    message::OPEN => self.tally_open(bytes, *clock, code),
                    message::READ if code == 0 && length == 6 => self.tally.situation("Read of no byte"),
                    message::READ if code == 0 && length == 64 => self.tally.situation("Read of 58 bytes"),
                    message::WRITE => self.tally_write(bytes, code),
                    message::COMMIT => self.tally_commit(bytes, code),
                    message::CLOSE => self.tally_close(bytes, code),
                    _ => {}
                }
                if code == 0 {
                    self.tally_stamp(bytes, *clock);
                }
            }
        }
    }

    fn tally_outcome(&mut self, good: bool) {
        let row = self.before.flash_row().expect("a flash row runs a job");
        let kind = if self.before.row(row).flash() == Some(Flash::Verify) {
            "verify"
        } else {
            "update"
        };
        let how = if good { "good" } else { "failed" };
        self.tally.situation(&format!("Outcome: {kind} {how}"));
    }

    fn tally_fullness(&mut self) {
        if self.memory.used_rows().len() == 16 {
            self.tally.situation("16 rows used");
            if self.memory.flash_row().is_some() {
                self.tally.situation("15 store rows beside a flash row");
            }
        }
        if self.memory.used_slots().len() == 16 {
            self.tally.situation("16 slots used");
        }
        if self.memory.control[SLOTS_COMMITTED] == 0xFFFF {
            self.tally.situation("16 slots committed");
        }
    }

    fn tally_open(&mut self, bytes: &[u8], clock: u32, code: u8) {
        self.tally_sweep(bytes, clock, code);
        let is_flash = bytes.get(8..15) == Some(b"/flash/");
        match code {
            0x00 => self.tally_opened(is_flash),
            0xC4 if self.memory.free_rows().is_empty() => self.tally.situation("Open without free row"),
            0xC4 => self.tally.situation("Open without free slot"),
            0xC0 if is_flash => self.tally.situation("Open of flash while flash is busy"),
            0xC0 => self.tally.situation("Open of a busy store name"),
            0xCC if crc(&bytes[6..]).to_le_bytes() != bytes[4..6] => self.tally.situation("Open with wrong CRC"),
            0xCC if second::names::decode(&bytes[8..]).is_none() => self.tally.situation("Open with wrong name form"),
            0xCC => self.tally.situation("Open with wrong flags"),
            _ => {}
        }
    }

    fn tally_opened(&mut self, is_flash: bool) {
        let next = self.before.control[NEXT_IDENTIFIER];
        let given = (self.memory.control[NEXT_IDENTIFIER] + 65_535) % 65_536;
        if given < next {
            self.tally.situation("identifier wrapped");
        }
        if given != next {
            self.tally.situation("identifier in use skipped");
        }
        if is_flash && self.before.control[PHASE] == 2 && self.memory.control[PHASE] == 1 {
            let row = self.memory.flash_row().expect("a flash row");
            match self.memory.row(row).flash() {
                Some(Flash::Image) => self.tally.situation("Open of the image in Verified"),
                _ => self.tally.situation("Open of the hash in Verified"),
            }
        }
    }

    fn tally_sweep(&mut self, bytes: &[u8], clock: u32, code: u8) {
        let last = self.before.control[LAST_SWEEP];
        let formed = crc(&bytes[6.min(bytes.len())..]).to_le_bytes()[..]
            == bytes[4.min(bytes.len())..6.min(bytes.len())]
            && bytes.len() > 8
            && second::names::decode(&bytes[8..]).is_some();
        if !formed {
            return;
        }
        if u64::from(clock) + 1 == u64::from(last) + 60 {
            self.tally.situation("not due by one second");
        }
        if !is_due(clock, last) {
            return;
        }
        self.tally.situation("sweep");
        if u64::from(clock) == u64::from(last) + 60 {
            self.tally.situation("sweep due by exactly 60");
        }
        if clock > u32::MAX - 600 {
            self.tally.situation("sweep near the end of the clock");
        }
        let mut closed_any = false;
        for row in self.before.sessions() {
            let age = i64::from(clock) - i64::from(row.stamp);
            let closed = self.memory.session(row.identifier).is_none();
            let kind = kind(&row, &self.before);
            closed_any |= closed;
            match (closed, age) {
                (true, 601) => self.tally.situation("stale by exactly one second"),
                (false, 600) => self.tally.situation("kept at exactly 600"),
                _ => {}
            }
            if closed {
                self.tally.situation(&format!("sweep closes: {kind}"));
            } else if age > 600 {
                self.tally.situation(&format!("sweep spares {kind}"));
            }
        }
        if closed_any && code != 0 {
            self.tally.situation("refused Open keeps a sweep that closed");
        }
    }

    /// The row in the state before that a session command names.
    fn named_row(&self, bytes: &[u8]) -> Option<Row> {
        let session = u32::from(u16::from_le_bytes([*bytes.get(6)?, *bytes.get(7)?]));
        self.before.session(session)
    }

    fn tally_write(&mut self, bytes: &[u8], code: u8) {
        let Some(row) = self.named_row(bytes).filter(|_| code == 0) else {
            return;
        };
        if bytes.len() == 12 {
            self.tally.situation("Write of no byte");
            return;
        }
        let (length, capacity) = self.memory.view(&row);
        if length == capacity {
            let kind = match row.flash() {
                Some(Flash::Image) => "the image",
                Some(Flash::Hash) => "the hash",
                _ => "a slot",
            };
            self.tally.situation(&format!("Write up to the capacity of {kind}"));
        }
        if row.clean {
            self.tally.situation("clean cleared by Write");
        }
    }

    fn tally_commit(&mut self, bytes: &[u8], code: u8) {
        let Some(row) = self.named_row(bytes) else { return };
        if code == 0 {
            let kind = kind(&row, &self.before);
            self.tally.situation(&format!("Commit: {kind}"));
            if row.flash() == Some(Flash::Verify) && self.before.control[PHASE] == 2 {
                self.tally.situation("Commit: verify untried in Verified");
            }
        }
        if code == 0xCC && crc(&bytes[6..]).to_le_bytes() == bytes[4..6] {
            self.tally.situation("Commit with wrong length");
        }
    }

    fn tally_close(&mut self, bytes: &[u8], code: u8) {
        let Some(row) = self.named_row(bytes) else { return };
        let kind = kind(&row, &self.before);
        match code {
            0x00 => self.tally.situation(&format!("Close: {kind}")),
            0xC0 => self.tally.situation(&format!("Close refused: {kind}")),
            _ => {}
        }
    }

    fn tally_stamp(&mut self, bytes: &[u8], clock: u32) {
        if ![message::READ, message::WRITE, message::COMMIT, message::SESSION_STAT].contains(&bytes[3]) {
            return;
        }
        let Some(row) = self.named_row(bytes) else { return };
        match clock.cmp(&row.stamp) {
            std::cmp::Ordering::Greater => self.tally.situation("stamp lifted"),
            std::cmp::Ordering::Less => self.tally.situation("stamp kept at an earlier clock"),
            std::cmp::Ordering::Equal => {}
        }
    }
}

// Counting what was reached with files.
impl Pair {
    fn tally_saved(&mut self, part: usize, length: usize) {
        let committed: Vec<usize> = (0..SLOTS).filter(|slot| self.memory.slot_committed(*slot)).collect();
        let Some(slot) = part.checked_sub(1).map(|place| committed[place]) else {
            self.tally.situation("Save part: the base");
            return;
        };
        let new_name = self.memory.control[SLOTS_USED] != self.memory.control[SLOTS_COMMITTED];
        let found = [
            ("an empty scan", self.memory.control[COMMITTED_LENGTHS + slot] == 0),
            ("the longest", length == 4135),
            ("the sixteenth scan", part == 16),
            ("of a slot with a session", self.memory.row_of_slot(slot).is_some()),
            ("in a store with a new name open", new_name),
        ];
        self.tally_found("Save part", &found);
    }

    fn tally_loaded(&mut self) {
        let (before, after) = (&self.before, &self.memory);
        let used = after.used_slots();
        let length_in = |memory: &OwnedMemory, slot: usize| memory.control[COMMITTED_LENGTHS + slot];
        let any_length = |length| used.iter().any(|slot| length_in(after, *slot) == length);
        let shorter = |slot: &usize| length_in(after, *slot) < length_in(before, *slot);
        let flash = before.flash_row().map(|row| before.row(row));
        let found = [
            ("no blob", used.is_empty()),
            ("16 blobs", used.len() == 16),
            ("an empty scan", any_length(0)),
            ("a scan of 4096 bytes", any_length(4096)),
            (
                "a name of 25 letters",
                used.iter().any(|slot| characters(after.name(*slot)).len() == 31),
            ),
            (
                "a slot becomes unused",
                before.used_slots().iter().any(|slot| !used.contains(slot)),
            ),
            ("a slot is used again for a shorter scan", used.iter().any(shorter)),
            ("into a full store", before.used_slots().len() == 16),
            ("beside a flash session", flash.is_some()),
            ("beside a running job", flash.is_some_and(|row| row.status == RUNNING)),
        ];
        self.tally_found("Load", &found);
    }

    fn tally_store_open(&mut self) {
        let rows = || self.before.sessions().filter(|row| row.slot().is_some());
        let reads = rows().all(|row| row.flags == FLAGS_READ);
        let writes = rows().all(|row| row.is_writing_store());
        let found = [
            ("refused for a session that only reads", reads),
            ("refused for a session that writes", writes),
        ];
        self.tally_found("Load", &found);
    }

    fn tally_found(&mut self, step: &str, found: &[(&str, bool)]) {
        for (what, _) in found.iter().filter(|(_, holds)| *holds) {
            self.tally.situation(&format!("{step}: {what}"));
        }
    }
}

fn kind(row: &Row, memory: &OwnedMemory) -> String {
    let Some(flash) = row.flash() else {
        let committed = row.slot().is_some_and(|slot| memory.slot_committed(slot));
        let kind = match (row.flags, committed) {
            (FLAGS_READ, _) => "store read-only",
            (_, true) => "store writing, committed",
            (_, false) => "store writing, new",
        };
        return kind.to_string();
    };
    let name = match flash {
        Flash::Image => return "image".to_string(),
        Flash::Hash => return "hash".to_string(),
        Flash::Verify => "verify",
        Flash::Update => "update",
        Flash::Cleanup => "cleanup",
    };
    let status = ["untried", "running", "succeeded", "failed"][row.status as usize];
    format!("{name} {status}")
}
