//! The message frame: decoding requests and building responses.

use crate::code::Code;
use crate::crc::crc;

pub const OEM: [u8; 3] = [0xCF, 0xC2, 0x00];
pub const MOST_BYTES: usize = 64;
const HEAD_BYTES: usize = 4;
const CRC_BYTES: usize = 2;
/// What a Read response has room for (rule 3.2).
pub const MOST_FIELD_BYTES: usize = 58;

pub const COUNT: u8 = 0;
pub const ENUMERATE: u8 = 1;
pub const OPEN: u8 = 2;
pub const READ: u8 = 3;
pub const WRITE: u8 = 4;
pub const COMMIT: u8 = 5;
pub const CLOSE: u8 = 6;
pub const DELETE: u8 = 7;
pub const STAT: u8 = 8;
pub const SESSION_STAT: u8 = 9;
pub const WRITE_META: u8 = 10;

#[derive(Clone, Copy, Debug, PartialEq, Eq)]
pub enum Request<'r> {
    Count,
    Enumerate { index: u32 },
    Open { flags: u16, name: &'r [u8] },
    Read { session: u16, offset: u32, requested: u32 },
    Write { session: u16, offset: u32, data: &'r [u8] },
    Commit { session: u16, length: u8, data: &'r [u8] },
    Close { session: u16 },
    Delete { name: &'r [u8] },
    Stat { name: &'r [u8] },
    SessionStat { session: u16 },
    WriteMeta { session: u16 },
}

/// The checks that need no state, in their order (rule 7.13).
pub fn decode(message: &[u8]) -> Result<Request<'_>, Code> {
    if message.len() > MOST_BYTES {
        return Err(Code::LENGTH);
    }
    let (head, body) = message.split_at_checked(HEAD_BYTES).ok_or(Code::LENGTH)?;
    let (subcommand, oem) = head.split_last().ok_or(Code::LENGTH)?;
    if oem != OEM {
        return Err(Code::FIELD);
    }
    if *subcommand > WRITE_META {
        return Err(Code::SUBCOMMAND);
    }
    if !body_length_right(*subcommand, body.len()) {
        return Err(Code::LENGTH);
    }
    let fields = checked_fields(body)?;
    // Every field is there by its body length, so the cursor cannot run out.
    read_fields(*subcommand, Cursor { rest: fields }).ok_or(Code::LENGTH)
}

/// Which body lengths a subcommand takes (rule 3.1).
fn body_length_right(subcommand: u8, length: usize) -> bool {
    match subcommand {
        COUNT => length == 0,
        ENUMERATE => length == 6,
        OPEN => length >= 5,
        READ => length == 12,
        WRITE | WRITE_META => length >= 8,
        COMMIT => length >= 5,
        CLOSE | SESSION_STAT => length == 4,
        DELETE | STAT => length >= 3,
        _ => false,
    }
}

/// The fields behind a right CRC, where there is a body (rule 1.5).
fn checked_fields(body: &[u8]) -> Result<&[u8], Code> {
    if body.is_empty() {
        return Ok(body);
    }
    let (sent, fields) = body.split_at_checked(CRC_BYTES).ok_or(Code::LENGTH)?;
    if sent == crc(fields).to_le_bytes() {
        Ok(fields)
    } else {
        Err(Code::FIELD)
    }
}

fn read_fields(subcommand: u8, mut cursor: Cursor<'_>) -> Option<Request<'_>> {
    Some(match subcommand {
        COUNT => Request::Count,
        ENUMERATE => Request::Enumerate { index: cursor.u32()? },
        OPEN => Request::Open { flags: cursor.u16()?, name: cursor.rest },
        READ => Request::Read { session: cursor.u16()?, offset: cursor.u32()?, requested: cursor.u32()? },
        WRITE => Request::Write { session: cursor.u16()?, offset: cursor.u32()?, data: cursor.rest },
        COMMIT => Request::Commit { session: cursor.u16()?, length: cursor.u8()?, data: cursor.rest },
        CLOSE => Request::Close { session: cursor.u16()? },
        DELETE => Request::Delete { name: cursor.rest },
        STAT => Request::Stat { name: cursor.rest },
        SESSION_STAT => Request::SessionStat { session: cursor.u16()? },
        WRITE_META => Request::WriteMeta { session: cursor.u16()? },
        _ => return None,
    })
}

/// A cursor over the body, field by field; numbers are little-endian (rule 1.1).
struct Cursor<'r> {
    rest: &'r [u8],
}

impl Cursor<'_> {
    fn take<const N: usize>(&mut self) -> Option<[u8; N]> {
        let (taken, rest) = self.rest.split_first_chunk::<N>()?;
        self.rest = rest;
        Some(*taken)
    }

    fn u8(&mut self) -> Option<u8> {
        self.take::<1>().map(u8::from_le_bytes)
    }

    fn u16(&mut self) -> Option<u16> {
        self.take::<2>().map(u16::from_le_bytes)
    }

    fn u32(&mut self) -> Option<u32> {
        self.take::<4>().map(u32::from_le_bytes)
    }
}

/// A response of at most 64 bytes.
pub struct Response {
    bytes: [u8; MOST_BYTES],
    length: usize,
}

impl Response {
    /// A response without fields: the header alone (rule 1.6).
    pub fn bare(subcommand: u8) -> Response {
        let mut response = Response { bytes: [0; MOST_BYTES], length: 0 };
        response.append(&OEM);
        response.append(&[subcommand]);
        response
    }

    /// A response with its CRC, also where the fields are empty (Read, rule 1.7).
    pub fn with_fields(subcommand: u8, fields: &[u8]) -> Response {
        let mut response = Response::bare(subcommand);
        response.append(&crc(fields).to_le_bytes());
        response.append(fields);
        response
    }

    fn append(&mut self, more: &[u8]) {
        let free = self.bytes.iter_mut().skip(self.length);
        for (place, byte) in free.zip(more) {
            *place = *byte;
        }
        self.length = self.length.saturating_add(more.len()).min(MOST_BYTES);
    }

    pub fn bytes(&self) -> &[u8] {
        self.bytes.get(..self.length).unwrap_or(&self.bytes)
    }
}
