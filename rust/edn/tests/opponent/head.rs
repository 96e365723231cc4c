//! Heads of CBOR items.
use super::table::{byte, is, NAME};

pub const UNSIGNED: u8 = 0;
pub const NEGATIVE: u8 = 1;
pub const BYTES: u8 = 2;
pub const TEXT: u8 = 3;
pub const ARRAY: u8 = 4;
pub const MAP: u8 = 5;
pub const TAG: u8 = 6;
pub const SIMPLE: u8 = 7;

/// The additional information that says how many bytes follow.
pub const ONE_BYTE: u8 = 24;
pub const TWO_BYTES: u8 = 25;
pub const FOUR_BYTES: u8 = 26;
pub const EIGHT_BYTES: u8 = 27;
/// The additional information of an indefinite length.
pub const OPEN: u8 = 31;
pub const BREAK: u8 = 0xff;

/// How a head is to be written.
#[derive(Clone, Copy, PartialEq, Eq)]
pub enum Indicator {
    Absent,
    /// `_i`: 0 to 23 in the initial byte.
    Small,
    /// `_0` to `_3`.
    One,
    Two,
    Four,
    Eight,
    /// `_` alone.
    Indefinite,
    Unknown,
}

/// The indicator that stands here, if any, and where it ends.
#[inline(always)]
pub fn indicator(text: &[u8], at: usize) -> (Indicator, usize) {
    if byte(text, at) != b'_' {
        return (Indicator::Absent, at);
    }
    named(text, at + 1)
}

/// The same, behind `_`.
#[inline(always)]
fn named(text: &[u8], from: usize) -> (Indicator, usize) {
    let mut end = from;
    while is(byte(text, end), NAME) {
        end += 1;
    }
    let indicator = match &text[from..end] {
        b"" => Indicator::Indefinite,
        b"i" => Indicator::Small,
        b"0" => Indicator::One,
        b"1" => Indicator::Two,
        b"2" => Indicator::Four,
        b"3" => Indicator::Eight,
        _ => Indicator::Unknown,
    };
    (indicator, end)
}

/// How many bytes of a head follow its initial one.
#[derive(Clone, Copy, PartialEq, Eq, PartialOrd, Ord)]
pub enum Size {
    None,
    One,
    Two,
    Four,
    Eight,
}

impl Size {
    #[inline(always)]
    pub fn shortest(argument: u64) -> Size {
        match argument {
            0..=23 => Size::None,
            24..=0xff => Size::One,
            0x100..=0xffff => Size::Two,
            0x1_0000..=0xffff_ffff => Size::Four,
            _ => Size::Eight,
        }
    }

    /// The size that an indicator asks for, if it allows this argument.
    #[inline(always)]
    pub fn marked(indicator: Indicator, argument: u64) -> Option<Size> {
        let least = Size::shortest(argument);
        let size = match indicator {
            Indicator::Absent => least,
            Indicator::Small => Size::None,
            Indicator::One => Size::One,
            Indicator::Two => Size::Two,
            Indicator::Four => Size::Four,
            Indicator::Eight => Size::Eight,
            Indicator::Indefinite | Indicator::Unknown => return None,
        };
        (least <= size).then_some(size)
    }
}

/// Writes a head; where it ends.
#[inline(always)]
pub fn put(out: &mut [u8], to: usize, major: u8, size: Size, argument: u64) -> usize {
    let initial = major << 5;
    match size {
        Size::None => exact(out, to, initial | argument as u8, []),
        Size::One => exact(out, to, initial | ONE_BYTE, [argument as u8]),
        Size::Two => exact(out, to, initial | TWO_BYTES, (argument as u16).to_be_bytes()),
        Size::Four => exact(out, to, initial | FOUR_BYTES, (argument as u32).to_be_bytes()),
        Size::Eight => exact(out, to, initial | EIGHT_BYTES, argument.to_be_bytes()),
    }
}

#[inline(always)]
fn exact<const N: usize>(out: &mut [u8], to: usize, initial: u8, argument: [u8; N]) -> usize {
    let end = to + 1 + N;
    let head = &mut out[to..end];
    head[0] = initial;
    head[1..].copy_from_slice(&argument);
    end
}

#[inline(always)]
pub fn put_shortest(out: &mut [u8], to: usize, major: u8, argument: u64) -> usize {
    put(out, to, major, Size::shortest(argument), argument)
}

/// Puts a head before a content that was written behind one reserved byte at `start`; the end of both.
#[inline(always)]
pub fn put_before(out: &mut [u8], start: usize, end: usize, major: u8, size: Size, argument: u64) -> usize {
    let bytes = match size {
        Size::None => 0,
        Size::One => 1,
        Size::Two => 2,
        Size::Four => 4,
        Size::Eight => 8,
    };
    if bytes > 0 {
        out.copy_within(start + 1..end, start + 1 + bytes);
    }
    put(out, start, major, size, argument);
    end + bytes
}
