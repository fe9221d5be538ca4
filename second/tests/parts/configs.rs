//! Reading configurations: the three files of document 004 and all that is near them, nesting, every offence and every
//! two, any texts, limits, and lent fields of other lengths. Each result is compared with a plain reading that the test
//! makes itself and, where offences were put in, with their places as they were printed.

use super::config_reading::{reading, Reading};
use super::config_texts::{
    self, damage, edits, one_entry, printed, random_config, random_value, reorder, Edit, Order, Printed, Spaces, Value,
    ORDERS,
};
use super::pair::Pair;
use super::tally::{offends_twice, Tally, READ_CONFIG};
use super::{Share, WORKERS};
use second::config::FIELDS;
use second::harness::{Implementation, Random, Second, OTHER};

const RANDOM: u64 = 60_000;
const RUBBISH: u64 = 150_000;
const LENGTH_ROUNDS: u64 = 150;

/// The three files of document 004.
const FILES: [&[u8]; 3] = [
    include_bytes!("../configs/config-bios.json"),
    include_bytes!("../configs/config-static-bmc-reboot.json"),
    include_bytes!("../configs/config-static-bmc.json"),
];

/// A report shows no more bytes of a text.
const SHOWN_BYTES: usize = 2000;

// ---- One text ----

fn fail(pair: &Pair, text: &[u8], what: &str) -> ! {
    let shown = &text[..text.len().min(SHOWN_BYTES)];
    panic!(
        "{}: {what}\n  {} bytes: {}\n  {shown:02X?}",
        pair.place(),
        text.len(),
        String::from_utf8_lossy(shown)
    );
}

/// What lent fields hold before: every number is another, and none is a place or a length in a text.
fn filling(length: usize) -> Vec<usize> {
    (0..length).map(|place| (1 << 40) + 3 * place).collect()
}

/// Reads in both, compares, tests, counts; gives the code and the number with it.
fn read(pair: &mut Pair, text: &[u8]) -> (u8, usize) {
    let right = reading(text);
    let result = read_into(pair, text, FIELDS, &right);
    pair.tally.situation(right.what);
    result
}

/// The same with fields of any length. The plain reading is for the right one.
fn read_into(pair: &mut Pair, text: &[u8], length: usize, right: &Reading) -> (u8, usize) {
    let before = filling(length);
    let (mut fields, mut other_fields) = (before.clone(), before.clone());
    let lent = text.to_vec();
    let result = Second.read_config(&lent, &mut fields);
    let other_result = { OTHER }.read_config(&lent, &mut other_fields);
    if result != other_result {
        fail(
            pair,
            text,
            &format!("results {result:#X} (second) and {other_result:#X}"),
        );
    }
    if fields != other_fields {
        fail(pair, text, &format!("fields {fields:?} (second) and {other_fields:?}"));
    }
    if lent != text {
        fail(pair, text, "reading leaves the text");
    }
    let code = (result & 0xFF) as u8;
    let number = (result >> 8) as usize;
    if length != FIELDS {
        if result != 0xFF || fields != before {
            fail(pair, text, &format!("{length} fields: result {result:#X}, {fields:?}"));
        }
    } else {
        test(pair, text, right, (code, number), &fields, &before);
    }
    pair.tally.count(READ_CONFIG, code);
    (code, number)
}

/// What holds of a result, by the plain reading and by itself.
fn test(pair: &Pair, text: &[u8], right: &Reading, found: (u8, usize), fields: &[usize], before: &[usize]) {
    let (code, number) = found;
    if found != (right.code, right.number) {
        let wanted = format!("wanted {:02X} and {}, {}", right.code, right.number, right.what);
        fail(pair, text, &format!("{code:02X} and {number}, {wanted}"));
    }
    if code != 0 {
        if fields != before {
            fail(pair, text, "a refusal leaves the fields");
        }
        if number > text.len() {
            fail(pair, text, "the place is in the text or at its end");
        }
        return;
    }
    if fields != right.fields {
        fail(pair, text, &format!("fields {fields:?}, wanted {:?}", right.fields));
    }
    for (place, span) in fields.chunks_exact(2).enumerate() {
        let is_string = is_quoted(text, span[0], span[1]);
        // A reboot has no unit, and an entry that is not there has nothing.
        let is_absent = span == [0, 0] && (place >= 9 * number || [4, 6, 8].contains(&(place % 9)));
        if is_string == is_absent {
            fail(pair, text, &format!("field {place} is {span:?}"));
        }
    }
}

/// Whether so many bytes from there on are printable and stand between quotes.
fn is_quoted(text: &[u8], start: usize, length: usize) -> bool {
    let is_quote = |place: Option<usize>| place.and_then(|place| text.get(place)) == Some(&b'"');
    let end = start + length;
    let printable = |byte: &u8| (0x20..0x7F).contains(byte) && *byte != b'"' && *byte != b'\\';
    let all_printable = text.get(start..end).is_some_and(|bytes| bytes.iter().all(printable));
    is_quote(start.checked_sub(1)) && is_quote(Some(end)) && all_printable
}

/// The same for a text whose result is known without reading it.
fn expect(pair: &mut Pair, text: &[u8], wanted: (u8, usize)) {
    let found = read(pair, text);
    if found != wanted {
        fail(pair, text, &format!("{found:X?}, wanted {wanted:X?}"));
    }
}

/// The worker's share of cases that are the same in every run.
fn each<T>(share: Share, context: &str, cases: impl Iterator<Item = T>, mut one: impl FnMut(&mut Pair, T)) -> Tally {
    let mut pair = Pair::new(share.seed_for(0));
    pair.note(context);
    for (place, case) in cases.enumerate() {
        if place as u64 % WORKERS == share.worker {
            one(&mut pair, case);
            pair.tally.states += 1;
        }
    }
    pair.tally
}

// ---- Where a text can go on ----

/// The fault's place is the first byte that cannot go on: what is before it can be made a whole text, and no other
/// bytes behind it make the fault another, but that a word may be begun and not finished.
fn cannot_go_on(pair: &mut Pair, random: &mut Random, text: &[u8], fault: (u8, usize)) {
    let (code, place) = fault;
    if [0x00, 0xF7].contains(&code) {
        return;
    }
    make_whole(pair, &text[..place]);
    if place == text.len() {
        return;
    }
    pair.tally
        .situation("Read config: a fault where the text before it goes on");
    let tail = config_texts::rubbish(random);
    let mut other = text[..=place].to_vec();
    let is_word = b"tfn".contains(&text[place]);
    other.extend(tail);
    let found = read(pair, &other);
    let same = found == fault || is_word && found.1 == place && [0xF1, 0xF3, 0xF4, 0xF5].contains(&found.0);
    if !same {
        fail(pair, &other, &format!("{found:X?}, but {fault:X?} with another end"));
    }
}

/// Puts bytes behind a text until it is whole: of these the first that leaves it a text that is only cut.
fn make_whole(pair: &mut Pair, text: &[u8]) {
    let mut whole = text.to_vec();
    // At each of eight levels a key, a colon, a value and a bracket are enough; and a string may be open.
    for _ in 0..60 {
        let (code, place) = read(pair, &whole);
        if [0x00, 0xF7].contains(&code) {
            return;
        }
        if (code, place) != (0xF1, whole.len()) {
            fail(pair, &whole, &format!("{code:02X} at {place}: this goes on"));
        }
        let goes_on = |byte: &u8| {
            let more = [&whole[..], &[*byte]].concat();
            let found = reading(&more);
            [0x00, 0xF7].contains(&found.code) || (found.code, found.number) == (0xF1, more.len())
        };
        let next = b"\":]}".iter().copied().find(goes_on);
        match next {
            Some(byte) => whole.push(byte),
            None => fail(pair, &whole, "nothing goes on"),
        }
    }
    fail(pair, &whole, "is never whole");
}

// ---- The files of document 004 ----

/// Whole, cut at every length, and with every byte left out, doubled, or moved behind the next.
pub fn files(share: Share) -> Tally {
    let places = FILES
        .iter()
        .flat_map(|file| (0..=file.len()).map(move |place| (*file, place)));
    let mut random = Random::new(share.seed);
    each(share, "files of document 004", places, |pair, (file, place)| {
        expect(pair, file, (0, 1));
        let last = file.len() - 1;
        // What is behind the last bracket is a line's end.
        let wanted = if place < last { (0xF1, place) } else { (0, 1) };
        expect(pair, &file[..place], wanted);
        let Some(byte) = file.get(place).copied() else { return };
        let (before, behind) = (&file[..place], &file[place + 1..]);
        let mut changed = vec![[before, behind].concat(), [before, &[byte, byte], behind].concat()];
        if let [next, behind @ ..] = behind {
            changed.push([before, &[*next, byte], behind].concat());
        }
        for text in changed {
            let found = read(pair, &text);
            cannot_go_on(pair, &mut random, &text, found);
        }
    })
}

/// Every byte replaced by each of the 256.
pub fn every_byte(share: Share) -> Tally {
    let places = FILES
        .iter()
        .flat_map(|file| (0..file.len()).map(move |place| (*file, place)));
    each(share, "changed byte", places, |pair, (file, place)| {
        let mut text = file.to_vec();
        for byte in 0..=255 {
            text[place] = byte;
            read(pair, &text);
        }
    })
}

// ---- Nesting ----

/// Brackets by a pattern of `[` and `{`, as deep as asked for, and what closes them.
fn nested(pattern: &str, levels: usize) -> (String, String) {
    let (mut open, mut close) = (String::new(), String::new());
    for bracket in pattern.chars().cycle().take(levels) {
        let (opening, closing) = if bracket == '[' { ("[", ']') } else { ("{\"a\":", '}') };
        open.push_str(opening);
        close.insert(0, closing);
    }
    (open, close)
}

const PATTERNS: [&str; 6] = ["[", "{", "[{", "{[", "[[{", "{{{["];
const INSIDE: [&str; 22] = [
    "",
    "\"\"",
    "\"s\"",
    "[]",
    "{}",
    "[",
    "{",
    "0",
    "-",
    "true",
    "false",
    "null",
    "tru",
    "fals",
    "nul",
    "\"",
    "\"a\",\"b\"",
    "\"a\",0",
    "\"a\",[",
    "\"a\":\"b\"",
    "[],{}",
    ",",
];
/// What stands around the nested brackets, and how many levels that makes.
const AROUND: [(&str, &str, usize); 7] = [
    ("", "", 0),
    (" \n", "\t ", 0),
    ("[", "]", 1),
    ("[{\"blob\":", "}]", 2),
    ("[{\"x\":\"y\",\"handler\": ", "}]", 2),
    ("[{\"actions\":{\"update\":", "}}]", 3),
    ("[{\"actions\":{\"update\":{\"type\":[\"reboot\",", "]}}}]", 5),
];

/// Up to ten levels of lists, objects and both, by themselves and in entries; closed, not closed, closed too often or
/// by the wrong bracket; with every kind of value inside.
pub fn nesting(share: Share) -> Tally {
    let cases = (1..=10).flat_map(|levels| PATTERNS.iter().map(move |pattern| (levels, *pattern)));
    let mut random = Random::new(share.seed ^ 1);
    each(share, "nesting", cases, |pair, (levels, pattern)| {
        for (before, behind, outer) in AROUND {
            let (open, close) = nested(pattern, levels);
            // Each bracket is the first byte of its level, so that the place of the ninth is known.
            let (fitting, _) = nested(pattern, 8 - outer);
            let ninth = (levels + outer > 8).then_some((0xF6, before.len() + fitting.len()));
            for inside in INSIDE {
                let begun = format!("{before}{open}{inside}");
                for end in endings(&close) {
                    for text in [format!("{begun}{end}{behind}"), format!("{begun}{end}")] {
                        nested_text(pair, &mut random, text.as_bytes(), ninth);
                    }
                }
            }
        }
    })
}

/// What closes all brackets, all but one, one, each by the wrong one, none, and one too many.
fn endings(close: &str) -> [String; 6] {
    let other = |bracket| if bracket == ']' { '}' } else { ']' };
    [
        close.to_string(),
        close[1..].to_string(),
        close[..1].to_string(),
        close.chars().map(other).collect(),
        String::new(),
        format!("{close}]"),
    ]
}

fn nested_text(pair: &mut Pair, random: &mut Random, text: &[u8], wanted: Option<(u8, usize)>) {
    let found = read(pair, text);
    if wanted.is_some_and(|wanted| wanted != found) {
        fail(pair, text, &format!("{found:X?}, wanted {wanted:X?}"));
    }
    if random.chance(20) {
        cannot_go_on(pair, random, text, found);
    }
}

// ---- Offences ----

/// Compact or with white space.
fn print(value: &Value, spaced: bool, random: &mut Random) -> Printed {
    if spaced {
        printed(value, Spaces::some(random))
    } else {
        printed(value, Spaces::none())
    }
}

/// What a configuration of so many entries gives whose offences are at these places.
fn wanted(entries: usize, offences: &[usize]) -> (u8, usize) {
    match offences.iter().min() {
        Some(place) => (0xF7, *place),
        None => (0, entries),
    }
}

/// A configuration in one of several orders, with white space or not.
#[derive(Clone, Copy)]
struct Form {
    order: Order,
    spaced: bool,
}

fn forms() -> impl Iterator<Item = Form> + Clone {
    let forms = |order| [false, true].map(|spaced| Form { order, spaced });
    ORDERS.into_iter().flat_map(forms)
}

/// Makes these edits, one after another, and reads what was printed.
fn with_edits(pair: &mut Pair, mut value: Value, entries: usize, edits: &[&Edit], form: Form, random: &mut Random) {
    reorder(&mut value, form.order, random);
    let all = edits.iter().filter(|edit| edit.apply(&mut value)).count() == edits.len();
    let Printed { text, offences } = print(&value, form.spaced, random);
    match edits {
        // Two changes to one object may undo each other; of all others the places are known.
        [one, other] if !one.is_apart_from(other) => drop(read(pair, &text)),
        _ => expect(pair, &text, wanted(entries, &offences)),
    }
    if let ([one, other], true) = (edits, all) {
        pair.tally.situation(&offends_twice(one.kind(), other.kind()));
    }
}

/// Every offence alone, in a configuration of one entry and of three, in every form.
pub fn offences(share: Share) -> Tally {
    let starts = [
        (one_entry(false), 1),
        (one_entry(true), 1),
        (config_texts::three_entries(), 3),
    ];
    let cases = starts.into_iter().flat_map(|(value, entries)| {
        let with_none = std::iter::once(None);
        let all = with_none.chain(edits(entries).into_iter().map(Some));
        all.map(move |edit| (value.clone(), entries, edit))
    });
    let mut random = Random::new(share.seed ^ 2);
    each(share, "one offence", cases, |pair, (value, entries, edit)| {
        pair.note(&format!("one offence: {edit:?}"));
        let edits: Vec<&Edit> = edit.iter().collect();
        for form in forms() {
            with_edits(pair, value.clone(), entries, &edits, form, &mut random);
        }
    })
}

/// Every two offences, in both orders, in a configuration of one entry, in every form.
pub fn two_offences(share: Share) -> Tally {
    let edits = edits(1);
    let cases = [false, true]
        .into_iter()
        .flat_map(|reboot| edits.iter().map(move |one| (reboot, one)));
    let mut random = Random::new(share.seed ^ 3);
    each(share, "two offences", cases, |pair, (reboot, one)| {
        pair.note(&format!("two offences, one of them {one:?}"));
        for other in &edits {
            for form in forms() {
                with_edits(pair, one_entry(reboot), 1, &[one, other], form, &mut random);
            }
        }
    })
}

/// Every two offences, in both orders, in a configuration of three entries; the forms take turns.
pub fn three_entries(share: Share) -> Tally {
    let edits = edits(3);
    let mut forms = forms().cycle();
    let mut random = Random::new(share.seed ^ 4);
    each(share, "two offences", edits.iter(), |pair, one| {
        pair.note(&format!("two offences in three entries, one of them {one:?}"));
        for other in &edits {
            let form = forms.next().expect("a cycle has no end");
            let value = config_texts::three_entries();
            with_edits(pair, value, 3, &[one, other], form, &mut random);
        }
    })
}

// ---- Random texts ----

/// Configurations and other values of the grammar, with white space or not, as printed and then damaged.
pub fn random(share: Share) -> Tally {
    share.run(share.of(RANDOM), |pair, place, seed| {
        let mut random = Random::new(seed);
        pair.note(&format!("random text, seed {seed:#X}"));
        pair.tally.states += 1;
        let value = match place % 3 {
            0 => {
                let levels = random.between(1, 10);
                let raw_percent = random.pick(&[0, 0, 3]);
                random_value(&mut random, levels, raw_percent)
            }
            _ => random_config(&mut random),
        };
        let spaced = random.chance(50);
        let mut text = print(&value, spaced, &mut random).text;
        read(pair, &text);
        damage(&mut random, &mut text);
        let found = read(pair, &text);
        if random.chance(20) {
            cannot_go_on(pair, &mut random, &text, found);
        }
    })
}

/// Texts that are made of pieces in any order.
pub fn rubbish(share: Share) -> Tally {
    share.run(share.of(RUBBISH), |pair, _, seed| {
        let mut random = Random::new(seed);
        pair.note(&format!("rubbish, seed {seed:#X}"));
        pair.tally.states += 1;
        let text = config_texts::rubbish(&mut random);
        let found = read(pair, &text);
        if random.chance(20) {
            cannot_go_on(pair, &mut random, &text, found);
        }
    })
}

// ---- Limits ----

const MEBIBYTE: usize = 1 << 20;

/// A text and, where it is known without reading, what it must give.
type Case = (Vec<u8>, Option<(u8, usize)>);

/// Texts of no bytes, of 0 to 12 entries, with long strings, much white space, and very many values, members or
/// offences.
pub fn limits(share: Share) -> Tally {
    let mut cases: Vec<Case> = vec![(Vec::new(), Some((0xF1, 0)))];
    for count in 0..=12 {
        let value = Value::List(vec![config_texts::entry("b", [false, true, false]); count]);
        let text = printed(&value, Spaces::none()).text;
        // All entries are of the same length, and a comma or a bracket is behind each.
        let ninth = 1 + 8 * ((text.len() - 1) / count.max(1));
        cases.push((text, Some(if count <= 8 { (0, count) } else { (0xF7, ninth) })));
    }
    long_cases(&mut cases);
    each(
        share,
        "limits",
        cases.into_iter(),
        |pair, (text, wanted)| match wanted {
            Some(wanted) => expect(pair, &text, wanted),
            None => drop(read(pair, &text)),
        },
    )
}

fn long_cases(cases: &mut Vec<Case>) {
    let mut add = |text: String, wanted| cases.push((text.into_bytes(), wanted));
    let file = String::from_utf8_lossy(FILES[1]).into_owned();
    for length in [255, 256, 65_535, 65_536, MEBIBYTE] {
        let (white, long) = (" \n\t\r".repeat(length / 4), "s".repeat(length));
        add(white.clone(), Some((0xF1, white.len())));
        add(format!("{white}{file}{white}"), Some((0, 1)));
        add(format!("{white}[{white}]{white}"), Some((0, 0)));
        add(format!("[{white}0"), Some((0xF2, white.len() + 1)));
        add(file.replace(": ", &format!(":{white}")), Some((0, 1)));
        add(file.replace("/flash/", &long), Some((0, 1)));
        add(file.replace("target", &long), Some((0, 1)));
        add(file.replace("systemd", &long), None);
        add(file.replace("unit", &long), None);
        add(format!("[\"{long}"), Some((0xF1, length + 2)));
        add(format!("[\"{long}\\\"]"), Some((0xF1, length + 2)));
        add(format!("[\"{long}\"]"), Some((0xF7, 1)));
        add("[".repeat(length), Some((0xF6, 8)));
        add("{\"\":".repeat(length / 4), Some((0xF6, 32)));
        add(format!("[{}[]]", "[],".repeat(length / 3)), Some((0xF7, 1)));
        add(format!("[{}{{}}]", "{},".repeat(length / 3)), Some((0xF7, 2)));
        add(
            format!("[{{{}\"\":\"\"}}]", "\"blob\":\"\",".repeat(length / 10)),
            Some((0xF7, 12)),
        );
        add(
            format!("[{{{}\"\":\"\"}}]", "\"x\":\"\",".repeat(length / 7)),
            Some((0xF7, 2)),
        );
        let unit_first = "\"unit\":\"u\",".repeat(length / 11);
        let actions = format!("\"actions\":{{\"update\":{{{unit_first}\"type\":\"reboot\"}}}}");
        add(format!("[{{{actions}}}]"), Some((0xF7, 23)));
    }
}

// ---- Fields of other lengths ----

/// Fields of other lengths are refused whatever the text, and before it.
pub fn lengths(share: Share) -> Tally {
    share.run(share.of(LENGTH_ROUNDS), |pair, _, seed| {
        let mut random = Random::new(seed);
        pair.note(&format!("lengths of fields, seed {seed:#X}"));
        pair.tally.states += 1;
        let good = FILES[random.below(3) as usize].to_vec();
        let value = random_config(&mut random);
        let any = print(&value, true, &mut random).text;
        for text in [
            good,
            any,
            Vec::new(),
            b"[]".to_vec(),
            b"[0]".to_vec(),
            config_texts::rubbish(&mut random),
        ] {
            let right = reading(&text);
            for length in [0, 1, 18, 72, 143, 145, 288, random.below(400) as usize] {
                read_into(pair, &text, length, &right);
                if length != FIELDS && right.code == 0 {
                    pair.tally.situation("Read config: refused for the fields, a good text");
                } else if length != FIELDS {
                    pair.tally.situation("Read config: refused for the fields, a bad text");
                }
            }
        }
    })
}
