//! What every operation answers.

#[derive(Clone, Copy, Debug, PartialEq, Eq)]
pub struct Refusal {
    pub number: u8,
    pub place: usize,
}

pub type Answer<T> = Result<T, Refusal>;

#[cold]
pub fn refuse<T>(number: u8, place: usize) -> Answer<T> {
    Err(Refusal { number, place })
}

pub const TOO_LONG: u8 = 1;
pub const NOT_UTF8: u8 = 2;
// The numbers that a token earns by itself; its place is its first byte.
pub const NO_TOKEN: u8 = 3;
pub const UNKNOWN_WORD: u8 = 4;
pub const DOTS: u8 = 5;
pub const FLOAT: u8 = 6;
pub const TOO_LARGE: u8 = 7;
pub const CONTENT: u8 = 8;
pub const INDICATOR: u8 = 9;
pub const TOO_DEEP: u8 = 10;
pub const FORM: u8 = 11;
pub const MIXED_CHUNKS: u8 = 12;
pub const TYPED_ARRAY: u8 = 13;
pub const NO_ROOM: u8 = 14;
// The numbers of heads, and of paths.
pub const TOO_SHORT: u8 = 15;
pub const NOT_WELL_FORMED: u8 = 16;
pub const NOWHERE: u8 = 17;
