//! What was reached: pairs of command and completion code, situations, and how much was done.

use super::config_texts::KINDS;
use std::collections::BTreeMap;

/// The rows of the table: the eleven commands by subcommand, then these.
pub const FRAME: usize = 11;
pub const OUTCOME: usize = 12;
pub const FIND_SESSION: usize = 13;
pub const TRAY: usize = 14;
pub const SAVE_PART: usize = 15;
pub const LOAD: usize = 16;
pub const READ_CONFIG: usize = 17;
pub const COMMANDS: [&str; 18] = [
    "Count",
    "Enumerate",
    "Open",
    "Read",
    "Write",
    "Commit",
    "Close",
    "Delete",
    "Stat",
    "SessionStat",
    "WriteMeta",
    "(frame)",
    "Job outcome",
    "Find session",
    "Tray",
    "Save part",
    "Load",
    "Read config",
];
pub const CODES: [u8; 11] = [0x00, 0xFF, 0xC7, 0xCC, 0xC1, 0xCB, 0xC9, 0xC8, 0xC4, 0xC0, 0xD5];
/// The codes of store files; their rows are printed as a table of their own, which stays narrow so.
pub const FILE_CODES: [u8; 14] = [
    0x00, 0xFF, 0xC9, 0xE0, 0xE1, 0xE2, 0xE3, 0xE4, 0xE5, 0xE6, 0xE7, 0xE8, 0xE9, 0xEA,
];
/// The codes of configurations, a table of their own too.
pub const CONFIG_CODES: [u8; 9] = [0x00, 0xFF, 0xF1, 0xF2, 0xF3, 0xF4, 0xF5, 0xF6, 0xF7];
/// Each code of a configuration is to come up so many times.
const LEAST_CONFIGS: u64 = 2_000;
/// So is each code of a tray.
const LEAST_TRAYS: u64 = 1_000;
const TRAY_CODES: [u8; 4] = [0x00, 0xFF, 0xC7, 0xC8];
/// Comparisons of trays that are to be made so many times.
const LEAST_COMPARED: [(&str, u64); 3] = [
    ("Tray: message like a single call", 100_000),
    ("Tray: cut in two like the whole", 1_000),
    ("Tray: stopped and gone on with like the whole", 300),
];
/// The faults of a file in the order in which the later ones are looked for.
pub const FAULTS: [u8; 10] = [0xE1, 0xE2, 0xE3, 0xE4, 0xE5, 0xE6, 0xE7, 0xE8, 0xE9, 0xEA];

/// Which codes each command may give, by the rules. "(frame)" are messages that reach no subcommand up to 10: too
/// short or too long (C7), another OEM number (CC), a subcommand over 10 (C1).
pub const ALLOWED: [&[u8]; 18] = [
    &[0x00, 0xFF, 0xC7],
    &[0x00, 0xFF, 0xC7, 0xCC, 0xC9],
    &[0x00, 0xFF, 0xC7, 0xCC, 0xCB, 0xC0, 0xC4],
    &[0x00, 0xFF, 0xC7, 0xCC, 0xCB, 0xD5],
    &[0x00, 0xFF, 0xC7, 0xCC, 0xCB, 0xD5, 0xC9, 0xC8],
    &[0x00, 0xFF, 0xC7, 0xCC, 0xCB, 0xD5],
    &[0x00, 0xFF, 0xC7, 0xCC, 0xCB, 0xC0],
    &[0x00, 0xFF, 0xC7, 0xCC, 0xCB, 0xC0, 0xD5],
    &[0x00, 0xFF, 0xC7, 0xCC, 0xCB],
    &[0x00, 0xFF, 0xC7, 0xCC, 0xCB],
    &[0xFF, 0xC7, 0xCC, 0xCB, 0xD5],
    &[0xFF, 0xC7, 0xCC, 0xC1],
    &[0x00, 0xFF, 0xCC, 0xD5],
    &[0x00, 0xFF, 0xCB],
    &TRAY_CODES,
    &[0x00, 0xFF, 0xC9],
    &[
        0x00, 0xFF, 0xE0, 0xE1, 0xE2, 0xE3, 0xE4, 0xE5, 0xE6, 0xE7, 0xE8, 0xE9, 0xEA,
    ],
    &CONFIG_CODES,
];

/// Situations that the tests must reach, so that they are known to go deep.
pub const SITUATIONS: &[&str] = &[
    "16 rows used",
    "16 slots used",
    "16 slots committed",
    "15 store rows beside a flash row",
    "identifier wrapped",
    "identifier in use skipped",
    "Open without free row",
    "Open without free slot",
    "Open with wrong CRC",
    "Open with wrong name form",
    "Open with wrong flags",
    "Open of a busy store name",
    "Open of flash while flash is busy",
    "Open of the image in Verified",
    "Open of the hash in Verified",
    "Commit with wrong length",
    "Read of no byte",
    "Read of 58 bytes",
    "Write of no byte",
    "Write up to the capacity of a slot",
    "Write up to the capacity of the image",
    "Write up to the capacity of the hash",
    "clean cleared by Write",
    "stamp lifted",
    "stamp kept at an earlier clock",
    "sweep",
    "sweep due by exactly 60",
    "not due by one second",
    "stale by exactly one second",
    "kept at exactly 600",
    "refused Open keeps a sweep that closed",
    "sweep near the end of the clock",
    "sweep spares verify running",
    "sweep spares update running",
    "Close: store read-only",
    "Close: store writing, committed",
    "Close: store writing, new",
    "Close: image",
    "Close: hash",
    "Close: verify untried",
    "Close: verify succeeded",
    "Close: verify failed",
    "Close: update untried",
    "Close: update succeeded",
    "Close: update failed",
    "Close: cleanup untried",
    "Close: cleanup succeeded",
    "Close refused: verify running",
    "Close refused: update running",
    "sweep closes: store read-only",
    "sweep closes: store writing, committed",
    "sweep closes: store writing, new",
    "sweep closes: image",
    "sweep closes: hash",
    "sweep closes: verify untried",
    "sweep closes: verify succeeded",
    "sweep closes: verify failed",
    "sweep closes: update untried",
    "sweep closes: update succeeded",
    "sweep closes: update failed",
    "sweep closes: cleanup untried",
    "sweep closes: cleanup succeeded",
    "Commit: store writing, committed",
    "Commit: store writing, new",
    "Commit: verify untried",
    "Commit: verify running",
    "Commit: verify succeeded",
    "Commit: verify failed",
    "Commit: verify untried in Verified",
    "Commit: update untried",
    "Commit: update running",
    "Commit: update succeeded",
    "Commit: update failed",
    "Commit: cleanup untried",
    "Commit: cleanup succeeded",
    "Outcome: verify good",
    "Outcome: verify failed",
    "Outcome: update good",
    "Outcome: update failed",
    "Save part: the base",
    "Save part: an empty scan",
    "Save part: the longest",
    "Save part: the sixteenth scan",
    "Save part: of a slot with a session",
    "Save part: in a store with a new name open",
    "Load: no blob",
    "Load: 16 blobs",
    "Load: an empty scan",
    "Load: a scan of 4096 bytes",
    "Load: a name of 25 letters",
    "Load: a slot becomes unused",
    "Load: a slot is used again for a shorter scan",
    "Load: into a full store",
    "Load: beside a flash session",
    "Load: beside a running job",
    "Load: refused for a session that only reads",
    "Load: refused for a session that writes",
    "Find session: first used row",
    "Find session: last of 16",
    "Find session: row 15 alone",
    "Find session: identifier 0",
    "Find session: identifier above 65,535",
    "Find session: repeated identifier",
    "Find session: unused row with the identifier skipped",
    "Find session: row that agrees in 16 bits passed",
    "Find session: row with another word like it passed",
    "Find session: no row used",
    "Find session: none of 16",
    "Find session: in an unused row only",
    "Find session: agrees in 16 bits only",
    "Find session: another word agrees only",
    "Find session: refused for the table",
    "Find session: refused for the mask",
    "Find session: refused for both",
    "Find session: session open in a history",
    "Find session: session closed in a history",
    "Read config: accepted, no entry",
    "Read config: accepted, 8 entries",
    "Read config: accepted, an empty blob",
    "Read config: accepted, reboot to prepare",
    "Read config: accepted, reboot to verify",
    "Read config: accepted, reboot to update",
    "Read config: accepted, no reboot",
    "Read config: cut",
    "Read config: at a value",
    "Read config: begun word",
    "Read config: minus sign",
    "Read config: digit",
    "Read config: true",
    "Read config: false",
    "Read config: null",
    "Read config: ninth level, a list",
    "Read config: ninth level, an object",
    "Read config: backslash",
    "Read config: control character",
    "Read config: byte above printable ones",
    "Read config: at a key",
    "Read config: behind a key",
    "Read config: behind a value in a list",
    "Read config: behind a value in an object",
    "Read config: behind the whole value",
    "Read config: no list",
    "Read config: entry that is no object",
    "Read config: ninth entry",
    "Read config: unknown key",
    "Read config: repeated key",
    "Read config: missing key",
    "Read config: wrong kind of value",
    "Read config: wrong word",
    "Read config: unit before reboot",
    "Read config: unit behind reboot",
    "Read config: refused for the fields, a good text",
    "Read config: refused for the fields, a bad text",
    "Read config: a fault where the text before it goes on",
    "Tray: no record",
    "Tray: no record, no free byte",
    "Tray: all of 64 done",
    "Tray: 64 responses of 64 bytes",
    "Tray: full to the last byte",
    "Tray: stopped before the first",
    "Tray: stopped before the 64th",
    "Tray: stopped at 63 free bytes",
    "Tray: stopped without a free byte",
    "Tray: stopped before a message that is refused",
    "Tray: went on at 64 free bytes",
    "Tray: went on at 65 free bytes",
    "Tray: accepted behind a refusal",
    "Tray: behind a message of 65 bytes",
    "Tray: behind a message of 255 bytes",
    "Tray: on a session opened in the tray",
    "Tray: clock earlier than the one before",
    "Tray: sweep",
    "Tray: sweep that closes a session",
    "Tray: sweep of a refused Open",
    "Tray: second sweep",
    "Tray: job started",
    "Tray: not sound, empty",
    "Tray: not sound, cut",
    "Tray: not sound, past the 64th",
    "Tray: not sound, good",
    "Tray: other results, empty",
    "Tray: other results, cut",
    "Tray: other results, past the 64th",
    "Tray: other results, good",
    "Tray: cut in the clock",
    "Tray: cut before the length",
    "Tray: cut before the message",
    "Tray: cut in the message",
    "Tray: cut in the first",
    "Tray: cut in the 64th",
    "Tray: one byte behind the 64th",
    "Tray: 65 whole records",
    "Tray: 66 whole records",
    "Tray: C7 without a free byte",
    "Tray: C8 without a free byte",
    "Tray: cut in two, both with messages done",
];

/// One situation for every two faults in one file.
pub fn beside(one: u8, other: u8) -> String {
    format!("{:02X} beside {:02X}", one.min(other), one.max(other))
}

/// One situation for every two kinds of offence in one configuration.
pub fn offends_twice(one: &str, other: &str) -> String {
    let (first, second) = if one < other { (one, other) } else { (other, one) };
    format!("Read config: {first} beside {second}")
}

/// One situation for every code that a message of each command can get within a tray.
pub fn in_tray(command: usize, code: u8) -> String {
    format!("Tray: {} with {code:02X}", COMMANDS[command])
}

/// All situations to be reached.
fn situations() -> Vec<String> {
    let mut situations: Vec<String> = SITUATIONS.iter().map(|name| name.to_string()).collect();
    for (place, one) in FAULTS.iter().enumerate() {
        situations.extend(FAULTS[place + 1..].iter().map(|other| beside(*one, *other)));
    }
    for (place, one) in KINDS.iter().enumerate() {
        situations.extend(KINDS[place + 1..].iter().map(|other| offends_twice(one, other)));
    }
    for (command, codes) in ALLOWED.iter().enumerate().take(FRAME + 1) {
        // A tray on a state that is not sound reaches none of its messages.
        let reached = codes.iter().filter(|code| **code != 0xFF);
        situations.extend(reached.map(|code| in_tray(command, *code)));
    }
    situations.extend(LEAST_COMPARED.map(|(name, _)| name.to_string()));
    situations
}

#[derive(Clone)]
pub struct Tally {
    codes: Vec<[u64; 256]>,
    situations: BTreeMap<String, u64>,
    pub requests: u64,
    pub states: u64,
}

impl Tally {
    pub fn new() -> Tally {
        Tally {
            codes: vec![[0; 256]; COMMANDS.len()],
            situations: BTreeMap::new(),
            requests: 0,
            states: 0,
        }
    }

    pub fn count(&mut self, command: usize, code: u8) {
        self.codes[command][usize::from(code)] += 1;
        self.requests += 1;
    }

    pub fn situation(&mut self, name: &str) {
        match self.situations.get_mut(name) {
            Some(number) => *number += 1,
            None => {
                self.situations.insert(name.to_string(), 1);
            }
        }
    }

    pub fn add(&mut self, other: &Tally) {
        for (mine, others) in self.codes.iter_mut().zip(&other.codes) {
            for (number, more) in mine.iter_mut().zip(others) {
                *number += more;
            }
        }
        for (name, number) in &other.situations {
            *self.situations.entry(name.clone()).or_insert(0) += number;
        }
        self.requests += other.requests;
        self.states += other.states;
    }

    /// The tables of commands and codes, and the situations.
    pub fn print(&self) {
        self.print_table(0..SAVE_PART, &CODES);
        self.print_table(SAVE_PART..READ_CONFIG, &FILE_CODES);
        self.print_table(READ_CONFIG..COMMANDS.len(), &CONFIG_CODES);
        println!("situations:");
        for name in situations() {
            println!("  {:>9}  {name}", self.situations.get(&name).unwrap_or(&0));
        }
    }

    fn print_table(&self, commands: std::ops::Range<usize>, codes: &[u8]) {
        print!("{:<12}", "");
        for code in codes {
            print!("{code:>9}", code = format!("{code:02X}"));
        }
        println!();
        for command in commands {
            print!("{:<12}", COMMANDS[command]);
            for code in codes {
                let number = self.codes[command][usize::from(*code)];
                let allowed = ALLOWED[command].contains(code);
                let text = if number == 0 && !allowed {
                    ".".to_string()
                } else {
                    number.to_string()
                };
                print!("{text:>9}");
            }
            println!();
        }
    }

    /// What is missing, or there and not allowed.
    pub fn gaps(&self) -> Vec<String> {
        let mut gaps = Vec::new();
        for (command, name) in COMMANDS.iter().enumerate() {
            for code in 0..=255u8 {
                let reached = self.codes[command][usize::from(code)] > 0;
                let allowed = ALLOWED[command].contains(&code);
                if reached != allowed {
                    let what = if allowed {
                        "not reached"
                    } else {
                        "reached but not allowed"
                    };
                    gaps.push(format!("{name} with code {code:02X}: {what}"));
                }
            }
        }
        gaps.extend(self.rare_codes(READ_CONFIG, LEAST_CONFIGS));
        gaps.extend(self.rare_codes(TRAY, LEAST_TRAYS));
        gaps.extend(self.rare_comparisons());
        let missing = situations().into_iter();
        let missing = missing.filter(|name| !self.situations.contains_key(name));
        gaps.extend(missing.map(|name| format!("situation not reached: {name}")));
        gaps
    }

    /// The codes of a command that came up fewer than so many times.
    fn rare_codes(&self, command: usize, least: u64) -> Vec<String> {
        let number = |code: &u8| self.codes[command][usize::from(*code)];
        let rare = ALLOWED[command].iter().filter(|code| number(code) < least);
        rare.map(|code| format!("{} with code {code:02X}: only {}", COMMANDS[command], number(code)))
            .collect()
    }

    fn rare_comparisons(&self) -> Vec<String> {
        let number = |name: &str| *self.situations.get(name).unwrap_or(&0);
        let rare = LEAST_COMPARED.iter().filter(|(name, least)| number(name) < *least);
        rare.map(|(name, _)| format!("{name}: only {}", number(name))).collect()
    }
}

/// The row of the table that a message belongs to.
pub fn command_of(message: &[u8]) -> usize {
    let whole = (4..=64).contains(&message.len()) && message[..3] == second::message::OEM && message[3] <= 10;
    if whole {
        usize::from(message[3])
    } else {
        FRAME
    }
}
