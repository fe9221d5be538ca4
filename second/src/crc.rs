//! The CRC, by the rental firm's rule (rule 2.6): the register starts with all bits set; each data bit, high bit first, is shifted in at its low end; then sixteen
//! zero bits. The library's rule has another start and combines the data in at the top (rules 2.1 to 2.4), so that the two are independent.

const POLYNOMIAL: u16 = 0x1021;
const START: u16 = 0xFFFF;

/// What eight bits combine in while they leave at the top: made bit by bit, and looked up for speed.
const COMBINED_IN: [u16; 256] = combined_in();

/// The CRC of the bytes; no bytes give 0x1D0F.
pub fn crc(bytes: &[u8]) -> u16 {
    let sixteen_zero_bits = [0, 0];
    bytes.iter().chain(&sixteen_zero_bits).fold(START, |register, byte| byte_in(register, *byte))
}

/// A byte comes in at the low end, and as many bits leave at the top.
fn byte_in(register: u16, byte: u8) -> u16 {
    let [leaving, kept] = register.to_be_bytes();
    let combined_in = COMBINED_IN.get(usize::from(leaving)).copied().unwrap_or(0);
    u16::from_be_bytes([kept, byte]) ^ combined_in
}

/// A bit comes in at the low end; if a 1 leaves at the top, the polynomial is combined in.
const fn bit_in(register: u16, bit: bool) -> u16 {
    let one_leaves = register & 0x8000 != 0;
    let shifted = register << 1 | bit as u16;
    if one_leaves {
        shifted ^ POLYNOMIAL
    } else {
        shifted
    }
}

/// What eight zero bits make of a register that has these bits at its top and zeros below.
const fn eight_zero_bits(leaving: u8) -> u16 {
    let mut register = u16::from_be_bytes([leaving, 0]);
    let mut bits_left: u8 = 8;
    while bits_left > 0 {
        register = bit_in(register, false);
        bits_left = bits_left.saturating_sub(1);
    }
    register
}

/// Evaluated by the compiler only, so the index cannot fail at run time.
#[allow(clippy::indexing_slicing, clippy::arithmetic_side_effects)]
const fn combined_in() -> [u16; 256] {
    let mut entries = [0; 256];
    let mut leaving = 0;
    while leaving < 256 {
        entries[leaving] = eight_zero_bits(leaving as u8);
        leaving += 1;
    }
    entries
}
