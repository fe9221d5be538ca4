//! Texts for the reader of configurations: configurations with every kind of offence, whose places are known from the
//! printing; any values of the grammar; and damage.

use second::harness::Random;

// ---- Values to print ----

#[derive(Clone)]
pub enum Value {
    String(Vec<u8>),
    List(Vec<Value>),
    Object(Object),
    /// Printed as it is, whether or not the grammar has it.
    Raw(&'static str),
    /// A value whose place is an offence.
    Offending(Box<Value>),
}

#[derive(Clone)]
pub struct Object {
    pub members: Vec<Member>,
    /// Whether the closing brace is the place of an offence.
    end_offends: bool,
}

#[derive(Clone)]
pub struct Member {
    key: Vec<u8>,
    key_offends: bool,
    value: Value,
}

fn string(text: &str) -> Value {
    Value::String(text.as_bytes().to_vec())
}

fn member(key: &str, value: Value) -> Member {
    Member {
        key: key.as_bytes().to_vec(),
        key_offends: false,
        value,
    }
}

fn object(members: Vec<Member>) -> Value {
    Value::Object(Object {
        members,
        end_offends: false,
    })
}

fn offending(value: Value) -> Value {
    Value::Offending(Box::new(value))
}

impl Object {
    fn place(&self, key: &str) -> Option<usize> {
        self.members.iter().position(|member| member.key == key.as_bytes())
    }

    /// The first member with this key.
    fn get(&mut self, key: &str) -> Option<&mut Member> {
        let place = self.place(key)?;
        Some(&mut self.members[place])
    }

    fn insert(&mut self, front: bool, member: Member) {
        let place = if front { 0 } else { self.members.len() };
        self.members.insert(place, member);
    }
}

/// White space between all tokens: none, or some by chance.
pub struct Spaces<'r> {
    random: Option<&'r mut Random>,
}

impl<'r> Spaces<'r> {
    pub fn none() -> Spaces<'r> {
        Spaces { random: None }
    }

    pub fn some(random: &'r mut Random) -> Spaces<'r> {
        Spaces { random: Some(random) }
    }

    fn print(&mut self, text: &mut Vec<u8>) {
        if let Some(random) = &mut self.random {
            let count = random.pick(&[0, 0, 1, 1, 4]);
            text.extend((0..count).map(|_| random.pick(b" \n\t\r")));
        }
    }
}

/// A printed value, and the places of its offences.
#[derive(Default)]
pub struct Printed {
    pub text: Vec<u8>,
    pub offences: Vec<usize>,
}

pub fn printed(value: &Value, mut spaces: Spaces) -> Printed {
    let mut printed = Printed::default();
    spaces.print(&mut printed.text);
    printed.value(value, &mut spaces);
    printed
}

impl Printed {
    fn token(&mut self, token: &[u8], offends: bool, spaces: &mut Spaces) {
        if offends {
            self.offences.push(self.text.len());
        }
        self.text.extend(token);
        spaces.print(&mut self.text);
    }

    fn quoted(&mut self, bytes: &[u8], offends: bool, spaces: &mut Spaces) {
        self.token(b"\"", offends, &mut Spaces::none());
        self.text.extend(bytes);
        self.token(b"\"", false, spaces);
    }

    fn value(&mut self, value: &Value, spaces: &mut Spaces) {
        match value {
            Value::String(bytes) => self.quoted(bytes, false, spaces),
            Value::Raw(text) => self.token(text.as_bytes(), false, spaces),
            Value::Offending(value) => {
                self.offences.push(self.text.len());
                self.value(value, spaces);
            }
            Value::List(values) => {
                self.token(b"[", false, spaces);
                for (place, value) in values.iter().enumerate() {
                    self.comma(place, spaces);
                    self.value(value, spaces);
                }
                self.token(b"]", false, spaces);
            }
            Value::Object(object) => {
                self.token(b"{", false, spaces);
                for (place, member) in object.members.iter().enumerate() {
                    self.comma(place, spaces);
                    self.quoted(&member.key, member.key_offends, spaces);
                    self.token(b":", false, spaces);
                    self.value(&member.value, spaces);
                }
                self.token(b"}", object.end_offends, spaces);
            }
        }
    }

    fn comma(&mut self, place: usize, spaces: &mut Spaces) {
        if place > 0 {
            self.token(b",", false, spaces);
        }
    }
}

// ---- Configurations ----

pub const ACTIONS: [&str; 3] = ["preparation", "verification", "update"];

/// An entry whose actions are reboots or not.
pub fn entry(name: &str, reboots: [bool; 3]) -> Value {
    let action = |place: usize| {
        let members = match reboots[place] {
            true => vec![member("type", string("reboot"))],
            false => vec![
                member("type", string("systemd")),
                member("unit", string(&format!("{name}.{place}"))),
            ],
        };
        member(ACTIONS[place], object(members))
    };
    let handler = vec![member("type", string("file")), member("path", string("/tmp/x"))];
    object(vec![
        member("blob", string(name)),
        member("handler", object(handler)),
        member("actions", object((0..3).map(action).collect())),
    ])
}

/// The configuration of one entry that the offences are applied to, without reboots or with one.
pub fn one_entry(reboot: bool) -> Value {
    Value::List(vec![entry("/flash/a", [false, reboot, false])])
}

pub fn three_entries() -> Value {
    Value::List(vec![
        entry("/flash/a", [false, false, false]),
        entry("", [true, false, true]),
        entry("b", [false, false, true]),
    ])
}

/// How members may be ordered in every object.
#[derive(Clone, Copy, Debug)]
pub enum Order {
    AsIs,
    Reversed,
    Rotated,
    Shuffled,
}

pub const ORDERS: [Order; 4] = [Order::AsIs, Order::Reversed, Order::Rotated, Order::Shuffled];

pub fn reorder(value: &mut Value, order: Order, random: &mut Random) {
    match value {
        Value::List(values) => values.iter_mut().for_each(|value| reorder(value, order, random)),
        Value::Object(object) => {
            for member in &mut object.members {
                reorder(&mut member.value, order, random);
            }
            match order {
                Order::AsIs => {}
                Order::Reversed => object.members.reverse(),
                Order::Rotated => {
                    let one = object.members.len().min(1);
                    object.members.rotate_left(one);
                }
                Order::Shuffled => random.shuffle(&mut object.members),
            }
        }
        Value::Offending(value) => reorder(value, order, random),
        Value::String(_) | Value::Raw(_) => {}
    }
}

// ---- Offences ----

/// The kinds of offence that are combined with one another.
pub const KINDS: [&str; 9] = [
    "unknown key",
    "repeated key",
    "missing key",
    "wrong kind of value",
    "wrong word",
    "unit beside reboot",
    "entry that is no object",
    "ninth entry",
    "no list",
];

#[derive(Clone, Debug)]
pub enum Change {
    Unknown { front: bool },
    Repeated { key: &'static str, other_value: bool },
    Missing { key: &'static str },
    WrongKind { key: &'static str, other: usize },
    WrongWord { key: &'static str, word: &'static str },
    UnitBesideReboot { front: bool },
    EntryKind { other: usize },
    NinthEntry,
    NoList { other: usize },
}

type Keys = &'static [&'static str];

/// A change to one object of an entry: the path of keys to it is empty for the entry itself.
#[derive(Clone, Debug)]
pub struct Edit {
    entry: usize,
    path: Keys,
    pub change: Change,
}

impl Edit {
    pub fn kind(&self) -> &'static str {
        KINDS[match self.change {
            Change::Unknown { .. } => 0,
            Change::Repeated { .. } => 1,
            Change::Missing { .. } => 2,
            Change::WrongKind { .. } => 3,
            Change::WrongWord { .. } => 4,
            Change::UnitBesideReboot { .. } => 5,
            Change::EntryKind { .. } => 6,
            Change::NinthEntry => 7,
            Change::NoList { .. } => 8,
        }]
    }

    /// Two changes to one object may undo each other: a key left out is no longer repeated.
    pub fn is_apart_from(&self, other: &Edit) -> bool {
        self.entry != other.entry || self.path != other.path
    }

    /// Makes the change and notes its offence; `false` if there is nothing to change.
    pub fn apply(&self, top: &mut Value) -> bool {
        self.try_apply(top).is_some()
    }

    fn try_apply(&self, top: &mut Value) -> Option<()> {
        let Value::List(entries) = top else { return None };
        match self.change {
            Change::NinthEntry => {
                let first = entries.first()?.clone();
                entries.resize(8, first.clone());
                entries.push(offending(first));
            }
            Change::NoList { other } => *top = no_list(top, other)?,
            Change::EntryKind { other } => {
                let entry = entries.get_mut(self.entry)?;
                *entry = other_kind(entry, other)?;
            }
            _ => {
                let mut object = as_object(entries.get_mut(self.entry)?)?;
                for key in self.path {
                    object = as_object(&mut object.get(key)?.value)?;
                }
                change_object(object, &self.change)?;
            }
        }
        Some(())
    }
}

fn as_object(value: &mut Value) -> Option<&mut Object> {
    match value {
        Value::Object(object) => Some(object),
        _ => None,
    }
}

fn change_object(object: &mut Object, change: &Change) -> Option<()> {
    match *change {
        Change::Unknown { front } => {
            let mut unknown = member("mode", string("replace"));
            unknown.key_offends = true;
            object.insert(front, unknown);
        }
        Change::Repeated { key, other_value } => {
            let mut repeated = object.get(key)?.clone();
            repeated.key_offends = true;
            if other_value {
                repeated.value = Value::List(vec![repeated.value, string("reboot")]);
            }
            object.insert(false, repeated);
        }
        Change::Missing { key } => {
            object.members.remove(object.place(key)?);
            object.end_offends = true;
        }
        Change::WrongKind { key, other } => {
            let member = object.get(key)?;
            member.value = other_kind(&member.value, other)?;
        }
        Change::WrongWord { key, word } => object.get(key)?.value = offending(string(word)),
        Change::UnitBesideReboot { front } => {
            object.get("type")?.value = string("reboot");
            if let Some(place) = object.place("unit") {
                object.members.remove(place);
            }
            let mut unit = member("unit", string("u"));
            unit.key_offends = true;
            object.insert(front, unit);
        }
        Change::EntryKind { .. } | Change::NinthEntry | Change::NoList { .. } => return None,
    }
    Some(())
}

/// An offending value of another kind, one of two.
fn other_kind(value: &Value, other: usize) -> Option<Value> {
    let new = match (value, other) {
        (Value::String(_), 0) => object(Vec::new()),
        (Value::Object(_), 0) => string("reboot"),
        (Value::String(_) | Value::Object(_), _) => Value::List(vec![value.clone()]),
        _ => return None,
    };
    Some(offending(new))
}

/// The first entry alone, an object around the list, or a string.
fn no_list(top: &Value, other: usize) -> Option<Value> {
    let Value::List(entries) = top else { return None };
    let new = match other {
        0 => match entries.first()? {
            Value::Object(entry) => Value::Object(entry.clone()),
            _ => return None,
        },
        1 => object(vec![member("blob", top.clone())]),
        _ => string("[]"),
    };
    Some(offending(new))
}

/// The objects of an entry, by the paths to them, with their keys: those of strings, and those of objects.
const OBJECTS: [(Keys, Keys, Keys); 6] = [
    (&[], &["blob"], &["handler", "actions"]),
    (&["handler"], &["type", "path"], &[]),
    (&["actions"], &[], &ACTIONS),
    (&["actions", "preparation"], &["type", "unit"], &[]),
    (&["actions", "verification"], &["type", "unit"], &[]),
    (&["actions", "update"], &["type", "unit"], &[]),
];

/// Every change to a configuration of so many entries, whether or not it finds something to change.
pub fn edits(entries: usize) -> Vec<Edit> {
    let mut edits = Vec::new();
    for entry in 0..entries {
        for (path, strings, inner) in OBJECTS {
            let mut add = |change| edits.push(Edit { entry, path, change });
            for front in [true, false] {
                add(Change::Unknown { front });
            }
            for key in strings.iter().chain(inner).copied() {
                add(Change::Missing { key });
                for other in [0, 1] {
                    let other_value = other == 1;
                    add(Change::Repeated { key, other_value });
                    add(Change::WrongKind { key, other });
                }
            }
            let wrong_words: &[&str] = match path {
                ["handler"] => &["reboot", "File", ""],
                ["actions", _] => &["skip", "file", "systemd "],
                _ => &[],
            };
            for word in wrong_words.iter().copied() {
                add(Change::WrongWord { key: "type", word });
            }
            if path.len() == 2 {
                add(Change::UnitBesideReboot { front: true });
                add(Change::UnitBesideReboot { front: false });
            }
        }
        // These two change no object of the entry; so they are apart from those that do.
        for other in [0, 1] {
            let (path, change): (Keys, _) = (&["an entry"], Change::EntryKind { other });
            edits.push(Edit { entry, path, change });
        }
    }
    let of_whole = [
        Change::NinthEntry,
        Change::NoList { other: 0 },
        Change::NoList { other: 1 },
        Change::NoList { other: 2 },
    ];
    for change in of_whole {
        let path = &["the whole"];
        edits.push(Edit { entry: 0, path, change });
    }
    edits
}

// ---- Random texts ----

const PRINTABLE: &[u8] = b"ab/-. :,{}[]'09~!#^_@";
/// What values begin with that the grammar does not have.
const RAW: [&str; 14] = [
    "0", "-", "-1.5", "9e9", "true", "false", "null", "tru", "fals", "nul", "truex", "nil", "+1", "'a'",
];

fn random_string(random: &mut Random) -> Vec<u8> {
    let length = random.pick(&[0, 1, 2, 5, 12]);
    match random.below(4) {
        0 => random
            .pick(&["blob", "type", "unit", "reboot", "systemd", "file"])
            .into(),
        _ => (0..length).map(|_| random.pick(PRINTABLE)).collect(),
    }
}

/// Any value of the grammar, nested up to so many levels; now and then one that the grammar does not have.
pub fn random_value(random: &mut Random, levels: u64, raw_percent: u64) -> Value {
    if random.chance(raw_percent) {
        return Value::Raw(random.pick(&RAW));
    }
    if levels == 0 || random.chance(25) {
        return Value::String(random_string(random));
    }
    let count = random.pick(&[0, 1, 1, 2, 3]);
    if random.chance(50) {
        let values = (0..count).map(|_| random_value(random, levels - 1, raw_percent));
        return Value::List(values.collect());
    }
    let members = (0..count).map(|_| Member {
        key: random_string(random),
        key_offends: false,
        value: random_value(random, levels - 1, raw_percent),
    });
    Value::Object(Object {
        members: members.collect(),
        end_offends: false,
    })
}

/// A configuration in any order, with any strings and up to three offences.
pub fn random_config(random: &mut Random) -> Value {
    let any = random.between(0, 10) as usize;
    let count = random.pick(&[0, 1, 1, 2, 3, 8, 9, any]);
    let mut value = Value::List((0..count).map(|_| random_entry(random)).collect());
    let order = random.pick(&ORDERS);
    reorder(&mut value, order, random);
    let offences = random.pick(&[0, 0, 1, 1, 2, 3]);
    let edits = edits(count);
    for _ in 0..offences {
        random.pick(&edits).apply(&mut value);
    }
    value
}

fn random_entry(random: &mut Random) -> Value {
    let reboots = [0; 3].map(|_: u64| random.chance(35));
    let mut entry = entry("x", reboots);
    random_strings(&mut entry, random);
    entry
}

/// Strings that are free become any.
fn random_strings(value: &mut Value, random: &mut Random) {
    let Value::Object(object) = value else { return };
    for member in &mut object.members {
        match &mut member.value {
            Value::String(bytes) if member.key != b"type" => *bytes = random_string(random),
            inner => random_strings(inner, random),
        }
    }
}

const DAMAGE: &[u8] = b"{}[]\":, tfn-0\\\n\x00\x7F\x80";

/// A few bytes replaced, put in, left out, doubled or exchanged.
pub fn damage(random: &mut Random, text: &mut Vec<u8>) {
    for _ in 0..random.pick(&[0, 1, 1, 2, 3]) {
        let place = random.below(text.len() as u64 + 1) as usize;
        let (likely, any) = (random.pick(DAMAGE), random.byte());
        let byte = random.pick(&[likely, likely, any]);
        if place == text.len() {
            text.push(byte);
            continue;
        }
        match random.below(6) {
            0 => text[place] = byte,
            1 => text.insert(place, byte),
            2 => drop(text.remove(place)),
            3 => text.insert(place, text[place]),
            4 => {
                let other = random.below(text.len() as u64) as usize;
                text.swap(place, other);
            }
            _ => text.truncate(place),
        }
    }
}

const TOKENS: [&str; 22] = [
    "{",
    "}",
    "[",
    "]",
    ",",
    ":",
    "\"\"",
    "\"a\"",
    "\"blob\"",
    "\"type\"",
    "\"",
    " ",
    "\n",
    "true",
    "false",
    "null",
    "-",
    "0",
    "t",
    "\\",
    "x",
    "[{\"blob\":",
];

/// Bytes of a small alphabet, tokens in any order, or any bytes.
pub fn rubbish(random: &mut Random) -> Vec<u8> {
    let length = random.below(30) as usize;
    match random.below(5) {
        0 => random.bytes(length),
        1 => (0..length).map(|_| random.pick(DAMAGE)).collect(),
        2 => (0..length).flat_map(|_| random.pick(&TOKENS).bytes()).collect(),
        _ => likely_tokens(random, length),
    }
}

/// Tokens that mostly go on where the one before allows it.
fn likely_tokens(random: &mut Random, length: usize) -> Vec<u8> {
    let mut text = Vec::new();
    let mut last = "";
    for _ in 0..length {
        let likely: &[&str] = match last {
            "" | ":" => &["[", "{", "\"a\"", "0", "true"],
            "[" => &["[", "{", "\"a\"", "]", "false"],
            "{" => &["\"a\"", "\"a\"", "}"],
            "," => &["\"a\"", "\"a\"", "[", "{", "null"],
            _ => &[",", "]", "}", ":"],
        };
        last = if random.chance(88) {
            random.pick(likely)
        } else {
            random.pick(&TOKENS)
        };
        text.extend(last.bytes());
    }
    text
}
