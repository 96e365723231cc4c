//! `(_`, strings and `)`: a chunked string.
use super::form::passed;
use super::head::{BREAK, OPEN};
use super::prefixed::prefixed;
use super::quoted::quoted;
use super::refusal::{refuse, Answer, INDICATOR, MIXED_CHUNKS};
use super::table::byte;
use super::unexpected::unexpected;
use super::Cursor;

/// The chunked string that opens at the cursor.
#[inline(never)]
pub fn chunks(text: &[u8], out: &mut [u8], c: Cursor, depth: usize) -> Answer<Cursor> {
    let head = c.to;
    let mut c = Cursor { at: c.at + b"(_".len(), to: head + 1 };
    let mut kind = None;
    loop {
        c.at = passed(text, c.at)?;
        let end = match byte(text, c.at) {
            b'"' | b'\'' => Some(quoted(text, out, c)),
            _ => prefixed(text, out, c),
        };
        let Some(end) = end else { return Err(unexpected(text, out, c, depth)) };
        let end = end.or_else(|number| refuse(number, c.at))?;
        let major = out[c.to] >> 5;
        if out[c.to] & OPEN == OPEN {
            return refuse(INDICATOR, c.at);
        }
        if *kind.get_or_insert(major) != major {
            return refuse(MIXED_CHUNKS, c.at);
        }
        c = Cursor { at: passed(text, end.at)?, to: end.to };
        match byte(text, c.at) {
            b',' => c.at += 1,
            b')' => {
                out[head] = major << 5 | OPEN;
                out[c.to] = BREAK;
                return Ok(Cursor { at: c.at + 1, to: c.to + 1 });
            }
            _ => return Err(unexpected(text, out, c, depth)),
        }
    }
}
