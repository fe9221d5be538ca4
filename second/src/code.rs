//! The completion codes (rules 7.1-7.11, those of store files in document 02, request b, and those of flash
//! configurations in request d).

#[derive(Clone, Copy, Debug, PartialEq, Eq)]
pub struct Code(pub u8);

impl Code {
    /// 00: success.
    pub const SUCCESS: Code = Code(0x00);
    /// FF: the state is not sound, or a lent buffer has another length.
    pub const NOT_SOUND: Code = Code(0xFF);
    /// C7: wrong length of the message or its body, or a record of a tray that is cut.
    pub const LENGTH: Code = Code(0xC7);
    /// CC: a wrong OEM number, CRC, form of name, flags, length byte or verdict on a job.
    pub const FIELD: Code = Code(0xCC);
    /// C1: unknown subcommand.
    pub const SUBCOMMAND: Code = Code(0xC1);
    /// CB: blob or session not there.
    pub const ABSENT: Code = Code(0xCB);
    /// C9: index of an Enumerate, offset of a Write or part of a saved store out of range.
    pub const RANGE: Code = Code(0xC9);
    /// C8: a Write past the capacity, or bytes behind a tray's 64th record.
    pub const CAPACITY: Code = Code(0xC8);
    /// C4: rows or slots are used up.
    pub const NO_SPACE: Code = Code(0xC4);
    /// C0: the blob or the flash is in use, or a job runs.
    pub const BUSY: Code = Code(0xC0);
    /// D5: this blob or session does not do that, or no job runs that could end.
    pub const NOT_SUPPORTED: Code = Code(0xD5);
    /// E0: a store session is open while a store is to be loaded.
    pub const STORE_OPEN: Code = Code(0xE0);
    /// E1: a wire type other than the four that are read.
    pub const WIRE_TYPE: Code = Code(0xE1);
    /// E2: a field with the number 0.
    pub const FIELD_ZERO: Code = Code(0xE2);
    /// E3: a known field with another wire type than its own.
    pub const FIELD_TYPE: Code = Code(0xE3);
    /// E4: a number that is cut, or longer than ten bytes, or larger than 64 bits.
    pub const WIRE_NUMBER: Code = Code(0xE4);
    /// E5: counted bytes or a fixed value that reach past the end of their message.
    pub const PAST_END: Code = Code(0xE5);
    /// E6: the store file's base is missing or another.
    pub const STORE_BASE: Code = Code(0xE6);
    /// E7: a blob of the store file has no name, or one that is no store name.
    pub const STORE_NAME: Code = Code(0xE7);
    /// E8: two blobs of the store file have the same name.
    pub const STORE_REPEAT: Code = Code(0xE8);
    /// E9: a blob of the store file has more data than a slot holds.
    pub const STORE_DATA: Code = Code(0xE9);
    /// EA: the store file has more blobs than there are slots.
    pub const STORE_BLOBS: Code = Code(0xEA);
    /// F1: a configuration that is no text of the grammar, for none of the reasons that have numbers of their own.
    pub const CONFIG_GRAMMAR: Code = Code(0xF1);
    /// F2: a number in a configuration.
    pub const CONFIG_NUMBER: Code = Code(0xF2);
    /// F3: `true` in a configuration.
    pub const CONFIG_TRUE: Code = Code(0xF3);
    /// F4: `false` in a configuration.
    pub const CONFIG_FALSE: Code = Code(0xF4);
    /// F5: `null` in a configuration.
    pub const CONFIG_NULL: Code = Code(0xF5);
    /// F6: a bracket inside eight others.
    pub const CONFIG_DEPTH: Code = Code(0xF6);
    /// F7: a text of the grammar that is no configuration.
    pub const CONFIG_PROFILE: Code = Code(0xF7);

    pub fn number(self) -> u32 {
        u32::from(self.0)
    }
}
