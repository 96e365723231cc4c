//! The refusal of a token that the form does not allow: what the token earns by itself comes first.
use super::head::{indicator, Indicator, TAG};
use super::number::number;
use super::prefixed::prefixed;
use super::quoted::quoted;
use super::refusal::{refuse, Answer, Refusal, DOTS, FORM, INDICATOR, NO_TOKEN, TOO_DEEP};
use super::scan::comment;
use super::table::{byte, is, BLANK};
use super::word::word;
use super::{Cursor, LEVELS};

/// The refusal of the token at the cursor.
#[cold]
#[inline(never)]
pub fn unexpected(text: &[u8], out: &mut [u8], c: Cursor, depth: usize) -> Refusal {
    let number = if c.at == text.len() { FORM } else { earned(text, out, c, depth).unwrap_or(FORM) };
    Refusal { number, place: c.at }
}

/// What a token earns by itself. The result is lost in any case, so a literal is read as if it were wanted.
fn earned(text: &[u8], out: &mut [u8], c: Cursor, depth: usize) -> Option<u8> {
    let too_deep = (depth >= LEVELS).then_some(TOO_DEEP);
    let b = text[c.at];
    let twice = byte(text, c.at + 1) == b;
    match b {
        b'"' | b'\'' => quoted(text, out, c).err(),
        b'a'..=b'z' | b'A'..=b'Z' => lettered(text, out, c).err(),
        b'-' | b'0'..=b'9' => match number(text, c.at, b == b'-') {
            Err(number) => Some(number),
            Ok(n) if n.major == TAG => too_deep,
            Ok(_) => None,
        },
        b'[' | b'{' if indicator(text, c.at + 1).0 == Indicator::Unknown => Some(INDICATOR),
        b'[' | b'{' => too_deep,
        b'<' if twice => too_deep,
        b'(' if byte(text, c.at + 1) == b'_' => None,
        _ => no_item(text, c.at, b, twice),
    }
}

fn lettered(text: &[u8], out: &mut [u8], c: Cursor) -> Result<Cursor, u8> {
    prefixed(text, out, c).unwrap_or_else(|| word(text, out, c))
}

/// The same of what begins no item.
fn no_item(text: &[u8], at: usize, b: u8, twice: bool) -> Option<u8> {
    match b {
        b']' | b'}' | b')' | b',' | b':' => None,
        b'>' if twice => match indicator(text, at + 2).0 {
            Indicator::Unknown | Indicator::Indefinite => Some(INDICATOR),
            _ => None,
        },
        b'.' if text[at..].starts_with(b"...") => Some(DOTS),
        _ => Some(NO_TOKEN),
    }
}

/// Refuses a blank or a comment where none may stand.
pub fn wrong_gap(text: &[u8], at: usize) -> Answer<()> {
    match byte(text, at) {
        b if is(b, BLANK) => refuse(FORM, at),
        b'/' | b'#' => match comment(text, at) {
            Some(_) => refuse(FORM, at),
            None => refuse(NO_TOKEN, at),
        },
        _ => Ok(()),
    }
}
