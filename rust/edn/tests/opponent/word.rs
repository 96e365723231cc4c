//! Words and simple values.
use super::head::{self, SIMPLE};
use super::refusal::{CONTENT, FLOAT, UNKNOWN_WORD};
use super::table::{byte, is, NAME};
use super::Cursor;

const FALSE: u8 = 20;
const TRUE: u8 = 21;
const NULL: u8 = 22;
const UNDEFINED: u8 = 23;

/// A word or a `simple(n)`; or the number of its refusal.
#[inline(always)]
pub fn word(text: &[u8], out: &mut [u8], c: Cursor) -> Result<Cursor, u8> {
    let (value, at) = known(text, c.at)?;
    Ok(Cursor { at, to: head::put_shortest(out, c.to, SIMPLE, value as u64) })
}

/// The value and the end.
#[inline(always)]
fn known(text: &[u8], start: usize) -> Result<(u8, usize), u8> {
    let rest = &text[start..];
    let (value, length) = match rest.first_chunk() {
        Some(b"true") => (TRUE, 4),
        Some(b"null") => (NULL, 4),
        Some(b"fals") if byte(rest, 4) == b'e' => (FALSE, 5),
        _ => return longer_word(text, start),
    };
    let end = start + length;
    let next = byte(text, end);
    if is(next, NAME) || next == b'\'' {
        return Err(refused(text, start));
    }
    Ok((value, end))
}

fn longer_word(text: &[u8], start: usize) -> Result<(u8, usize), u8> {
    let rest = &text[start..];
    if rest.starts_with(b"simple(") {
        return simple(text, start + b"simple(".len());
    }
    let end = start + b"undefined".len();
    let next = byte(text, end);
    if rest.starts_with(b"undefined") && !is(next, NAME) && next != b'\'' {
        return Ok((UNDEFINED, end));
    }
    Err(refused(text, start))
}

/// The content of `simple(` and its end. In any other shape it is a word, and an unknown one.
fn simple(text: &[u8], from: usize) -> Result<(u8, usize), u8> {
    let mut end = from;
    let mut value = 0u32;
    while byte(text, end).is_ascii_digit() {
        value = (value * 10 + (text[end] - b'0') as u32).min(1000);
        end += 1;
    }
    let zero_first = text.get(from) == Some(&b'0') && end > from + 1;
    if end == from || zero_first || byte(text, end) != b')' {
        return Err(UNKNOWN_WORD);
    }
    match value {
        0..=23 | 32..=255 => Ok((value as u8, end + 1)),
        _ => Err(CONTENT),
    }
}

/// Why a word that is none of the known ones is refused.
#[cold]
fn refused(text: &[u8], start: usize) -> u8 {
    let rest = &text[start..];
    let length = rest.iter().position(|&b| !is(b, NAME)).unwrap_or(rest.len());
    match &rest[..length] {
        b"NaN" | b"Infinity" => FLOAT,
        _ => UNKNOWN_WORD,
    }
}
