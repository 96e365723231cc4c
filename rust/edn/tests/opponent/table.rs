//! What each of the 256 byte values is.

/// Blank: 09, 0a, 0d, 20.
pub const BLANK: u8 = 1;
/// A letter or a digit.
pub const NAME: u8 = 2;

const fn flags(b: u8) -> u8 {
    match b {
        b'\t' | b'\n' | b'\r' | b' ' => BLANK,
        b'0'..=b'9' | b'a'..=b'z' | b'A'..=b'Z' => NAME,
        _ => 0,
    }
}

static FLAGS: [u8; 256] = {
    let mut table = [0; 256];
    let mut b = 0;
    while b < 256 {
        table[b] = flags(b as u8);
        b += 1;
    }
    table
};

#[inline(always)]
pub fn is(b: u8, flag: u8) -> bool {
    FLAGS[b as usize] & flag != 0
}

/// The value of a hex digit, and more than 15 for every other byte.
pub static HEX: [u8; 256] = {
    let mut table = [0xff; 256];
    let mut b = 0;
    while b < 256 {
        table[b] = match b as u8 {
            d @ b'0'..=b'9' => d - b'0',
            d @ b'a'..=b'f' => d - b'a' + 10,
            d @ b'A'..=b'F' => d - b'A' + 10,
            _ => 0xff,
        };
        b += 1;
    }
    table
};

/// The byte at a place, and 0, which is no part of any token, at the end.
#[inline(always)]
pub fn byte(text: &[u8], at: usize) -> u8 {
    text.get(at).copied().unwrap_or(0)
}
