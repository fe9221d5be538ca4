//! Names (rules 4.1-4.7).

/// A name as a slot holds it: padded by zeros.
pub type Padded = [u8; 32];

pub const BASE: &[u8] = b"/scan/";
const MOST_CHARACTERS: usize = 31;
const MOST_AFTER_BASE: usize = 25;

/// The flash names; their order is the order of the blobs 16 to 20.
#[derive(Clone, Copy, Debug, PartialEq, Eq)]
pub enum Flash {
    Image,
    Hash,
    Verify,
    Update,
    Cleanup,
}

impl Flash {
    pub const ALL: [Flash; 5] = [Flash::Image, Flash::Hash, Flash::Verify, Flash::Update, Flash::Cleanup];

    pub fn name(self) -> &'static [u8] {
        match self {
            Flash::Image => b"/flash/image",
            Flash::Hash => b"/flash/hash",
            Flash::Verify => b"/flash/verify",
            Flash::Update => b"/flash/update",
            Flash::Cleanup => b"/flash/cleanup",
        }
    }

    /// The blob number (rule 5.8).
    pub fn blob(self) -> u32 {
        match self {
            Flash::Image => 16,
            Flash::Hash => 17,
            Flash::Verify => 18,
            Flash::Update => 19,
            Flash::Cleanup => 20,
        }
    }

    pub fn of_blob(blob: u32) -> Option<Flash> {
        Flash::ALL.into_iter().find(|flash| flash.blob() == blob)
    }
}

#[derive(Clone, Copy, Debug, PartialEq, Eq)]
pub enum Name {
    Store(Padded),
    Flash(Flash),
    Base,
    Unknown,
}

/// Decodes the bytes that fill the rest of a body; `None` is a wrong name form (CC).
///
/// Reading 3: a character is any byte but NUL, so a name with other bytes has a good form and is unknown.
pub fn decode(rest: &[u8]) -> Option<Name> {
    let (last, characters) = rest.split_last()?;
    let form = *last == 0 && !characters.contains(&0) && !characters.is_empty() && characters.len() <= MOST_CHARACTERS;
    form.then(|| classify(characters))
}

fn classify(characters: &[u8]) -> Name {
    if is_store_name(characters) {
        return Name::Store(pad(characters));
    }
    if characters == BASE {
        return Name::Base;
    }
    match Flash::ALL.into_iter().find(|flash| flash.name() == characters) {
        Some(flash) => Name::Flash(flash),
        None => Name::Unknown,
    }
}

/// Whether it is a store name (rule 4.3).
pub fn is_store_name(characters: &[u8]) -> bool {
    match characters.strip_prefix(BASE) {
        Some(own) => {
            !own.is_empty() && own.len() <= MOST_AFTER_BASE && own.iter().all(|character| character.is_ascii_alphanumeric())
        }
        None => false,
    }
}

/// The characters before the first zero.
pub fn characters(padded: &[u8]) -> &[u8] {
    padded.split(|byte| *byte == 0).next().unwrap_or(&[])
}

/// A slot's name field (rule 6.11); at least one zero is the NUL.
pub fn is_padded_store_name(padded: &[u8]) -> bool {
    let own = characters(padded);
    is_store_name(own) && padded.iter().skip(own.len()).all(|byte| *byte == 0)
}

pub fn pad(characters: &[u8]) -> Padded {
    let mut padded = [0; 32];
    for (place, character) in padded.iter_mut().zip(characters) {
        *place = *character;
    }
    padded
}
