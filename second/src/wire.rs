//! The Protocol Buffers wire encoding, for any message: fields one behind another, each a key and a value.
//!
//! A walk reads them from the front and ends at the first fault, which it gives as a completion code.

use crate::code::Code;

/// No number has more bytes, also where it is not in shortest form (reading 26).
const MOST_NUMBER_BYTES: usize = 10;
/// Set in every byte of a number but the last.
const MORE_FOLLOW: u8 = 0x80;
const GROUP_VALUES: u64 = 128;

/// The kinds of value that are read; other wire types have none.
#[derive(Clone, Copy, Debug, PartialEq, Eq)]
pub enum Kind {
    Number,
    EightBytes,
    Counted,
    FourBytes,
}

impl Kind {
    fn of_wire_type(wire_type: u64) -> Option<Kind> {
        match wire_type {
            0 => Some(Kind::Number),
            1 => Some(Kind::EightBytes),
            2 => Some(Kind::Counted),
            5 => Some(Kind::FourBytes),
            _ => None,
        }
    }

    fn wire_type(self) -> u64 {
        match self {
            Kind::Number => 0,
            Kind::EightBytes => 1,
            Kind::Counted => 2,
            Kind::FourBytes => 5,
        }
    }
}

#[derive(Clone, Copy, Debug, PartialEq, Eq)]
pub enum Value<'f> {
    Number(u64),
    EightBytes([u8; 8]),
    /// The bytes behind their length.
    Counted(&'f [u8]),
    FourBytes([u8; 4]),
}

#[derive(Clone, Copy, Debug, PartialEq, Eq)]
pub struct Field<'f> {
    pub number: u64,
    pub value: Value<'f>,
}

/// What a message knows: the kind that a field with this number must have, or `None` if it may be any.
pub type Known = fn(u64) -> Option<Kind>;

/// The walk over a message's fields. A fault is the last that it gives.
pub struct Fields<'f> {
    rest: &'f [u8],
    known: Known,
}

impl<'f> Fields<'f> {
    pub fn new(message: &'f [u8], known: Known) -> Fields<'f> {
        Fields { rest: message, known }
    }

    /// One field. The key is tested whole before the value is looked at (reading 25).
    fn field(&mut self) -> Result<Field<'f>, Code> {
        let key = self.number()?;
        let kind = Kind::of_wire_type(key & 7).ok_or(Code::WIRE_TYPE)?;
        let number = key >> 3;
        if number == 0 {
            return Err(Code::FIELD_ZERO);
        }
        if (self.known)(number).is_some_and(|right| right != kind) {
            return Err(Code::FIELD_TYPE);
        }
        Ok(Field { number, value: self.value(kind)? })
    }

    fn value(&mut self, kind: Kind) -> Result<Value<'f>, Code> {
        Ok(match kind {
            Kind::Number => Value::Number(self.number()?),
            Kind::EightBytes => Value::EightBytes(self.fixed()?),
            Kind::Counted => Value::Counted(self.counted()?),
            Kind::FourBytes => Value::FourBytes(self.fixed()?),
        })
    }

    /// Groups of seven bits, the lowest first; so they are put together from the last back to the first.
    fn number(&mut self) -> Result<u64, Code> {
        let longest = self.rest.iter().take(MOST_NUMBER_BYTES);
        let before_last = longest.take_while(|byte| **byte >= MORE_FOLLOW).count();
        let length = before_last.saturating_add(1);
        if length > MOST_NUMBER_BYTES {
            return Err(Code::WIRE_NUMBER);
        }
        let (groups, rest) = self.rest.split_at_checked(length).ok_or(Code::WIRE_NUMBER)?;
        self.rest = rest;
        groups.iter().rev().try_fold(0, |higher, byte| with_group(higher, *byte)).ok_or(Code::WIRE_NUMBER)
    }

    fn fixed<const N: usize>(&mut self) -> Result<[u8; N], Code> {
        let (bytes, rest) = self.rest.split_first_chunk::<N>().ok_or(Code::PAST_END)?;
        self.rest = rest;
        Ok(*bytes)
    }

    fn counted(&mut self) -> Result<&'f [u8], Code> {
        let length = usize::try_from(self.number()?).map_err(|_| Code::PAST_END)?;
        let (bytes, rest) = self.rest.split_at_checked(length).ok_or(Code::PAST_END)?;
        self.rest = rest;
        Ok(bytes)
    }
}

/// `None` if the number no longer fits into 64 bits.
fn with_group(higher: u64, byte: u8) -> Option<u64> {
    higher.checked_mul(GROUP_VALUES)?.checked_add(u64::from(byte & !MORE_FOLLOW))
}

impl<'f> Iterator for Fields<'f> {
    type Item = Result<Field<'f>, Code>;

    fn next(&mut self) -> Option<Result<Field<'f>, Code>> {
        if self.rest.is_empty() {
            return None;
        }
        let field = self.field();
        if field.is_err() {
            self.rest = &[];
        }
        Some(field)
    }
}

/// Appends a number in its shortest form.
pub fn push_number(bytes: &mut Vec<u8>, number: u64) {
    let mut left = number;
    while left >= GROUP_VALUES {
        let [lowest, ..] = left.to_le_bytes();
        bytes.push(lowest | MORE_FOLLOW);
        left >>= 7;
    }
    let [last, ..] = left.to_le_bytes();
    bytes.push(last);
}

/// Appends a field whose value is counted bytes.
pub fn push_counted(bytes: &mut Vec<u8>, field: u64, value: &[u8]) {
    push_number(bytes, (field << 3) | Kind::Counted.wire_type());
    push_number(bytes, u64::try_from(value.len()).unwrap_or(u64::MAX));
    bytes.extend(value);
}
