//! Heads as they stand in bytes, and what is wrong with those that are none.
use super::head::{BREAK, BYTES, EIGHT_BYTES, FOUR_BYTES, MAP, ONE_BYTE, OPEN, TEXT, TWO_BYTES};
use super::refusal::{Answer, Refusal, FLOAT, NOT_UTF8, NOT_WELL_FORMED, TOO_DEEP, TOO_SHORT};
use super::LEVELS;
use std::str::from_utf8;

/// The argument of the head at a place, and where the head ends; nothing where the bytes end before.
#[inline(always)]
pub fn argument(bytes: &[u8], at: usize) -> Option<(u64, usize)> {
    let (&initial, rest) = bytes[at..].split_first()?;
    match initial & 31 {
        ONE_BYTE => Some((*rest.first()? as u64, at + 2)),
        TWO_BYTES => Some((u16::from_be_bytes(*rest.first_chunk()?) as u64, at + 3)),
        FOUR_BYTES => Some((u32::from_be_bytes(*rest.first_chunk()?) as u64, at + 5)),
        EIGHT_BYTES => Some((u64::from_be_bytes(*rest.first_chunk()?), at + 9)),
        information => Some((information as u64, at + 1)),
    }
}

/// The content of the string with a definite length at a place, if it is all there, and where it ends.
#[inline(always)]
pub fn content(bytes: &[u8], at: usize) -> Option<(&[u8], usize)> {
    let (length, from) = argument(bytes, at)?;
    let content = bytes[from..].get(..usize::try_from(length).ok()?)?;
    Some((content, from + content.len()))
}

/// Whether a content is UTF-8. Most texts are short and ASCII, which is seen sooner.
#[inline(always)]
pub fn is_text(content: &[u8]) -> bool {
    content.is_ascii() || from_utf8(content).is_ok()
}

/// The refusal of the head at a place, which is no right one. `chunk_of` is the major type that a chunk is to have.
#[cold]
#[inline(never)]
pub fn fault(bytes: &[u8], at: usize, chunk_of: Option<u8>) -> Refusal {
    let number = match bytes.get(at) {
        None => TOO_SHORT,
        Some(&b) => number(bytes, at, b, chunk_of),
    };
    Refusal { number, place: at }
}

fn number(bytes: &[u8], at: usize, initial: u8, chunk_of: Option<u8>) -> u8 {
    let (major, information) = (initial >> 5, initial & 31);
    let low_simple = initial == 0xf8 && bytes.get(at + 1).is_some_and(|&b| b < 0x20);
    let wrong_chunk = chunk_of.is_some_and(|m| m != major || information == OPEN);
    if (28..OPEN).contains(&information) || information == OPEN && !(BYTES..=MAP).contains(&major) || low_simple || wrong_chunk {
        return NOT_WELL_FORMED;
    }
    if matches!(initial, 0xf9..=0xfb) {
        return FLOAT;
    }
    let string = (BYTES..=TEXT).contains(&major) && information != OPEN;
    let there = if string { content(bytes, at).is_some() } else { information == OPEN || argument(bytes, at).is_some() };
    if !there {
        return TOO_SHORT;
    }
    if string {
        NOT_UTF8
    } else {
        TOO_DEEP
    }
}

/// The end of the chunked string that begins at a place. Every chunk is handed on.
#[inline(always)]
pub fn chunks(bytes: &[u8], at: usize, mut each: impl FnMut(usize, &[u8])) -> Answer<usize> {
    let major = bytes[at] >> 5;
    let mut at = at + 1;
    loop {
        let found = match bytes.get(at) {
            Some(&BREAK) => return Ok(at + 1),
            Some(&b) if b >> 5 == major && b & 31 <= EIGHT_BYTES => content(bytes, at),
            _ => None,
        };
        match found {
            Some((chunk, end)) if major == BYTES || is_text(chunk) => {
                each(at, chunk);
                at = end;
            }
            _ => return Err(fault(bytes, at, Some(major))),
        }
    }
}

/// Whether one more level may be opened.
#[inline(always)]
pub fn may_open(depth: usize) -> bool {
    depth < LEVELS
}
