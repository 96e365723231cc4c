//! `h'..'`.
use super::head::BYTES;
use super::quoted::finish;
use super::refusal::{CONTENT, NO_TOKEN};
use super::scan::find;
use super::table::{byte, is, BLANK, HEX};
use super::Cursor;

/// The literal whose `h` stands at the cursor.
#[inline(always)]
pub fn hexadecimal(text: &[u8], out: &mut [u8], c: Cursor) -> Result<Cursor, u8> {
    let content = c.at + b"h'".len();
    let Some(end) = digits(text, out, Cursor { at: content, to: c.to + 1 }) else { return Err(fault(text, content)) };
    finish(text, out, c.to, end, BYTES, false)
}

/// Why a literal whose content is no good is refused: it may have no end either, which comes first.
#[cold]
pub fn fault(text: &[u8], content: usize) -> u8 {
    let mut i = content;
    loop {
        i = find(text, i, [b'\'', b'\\']);
        match byte(text, i) {
            b'\'' => return CONTENT,
            b if is(b, BLANK) => i += 1,
            _ => return NO_TOKEN,
        }
    }
}

/// Decodes up to the closing quote and passes it.
#[inline(always)]
fn digits(text: &[u8], out: &mut [u8], mut c: Cursor) -> Option<Cursor> {
    loop {
        c = pairs(text, out, c);
        match byte(text, c.at) {
            b'\'' => return Some(Cursor { at: c.at + 1, to: c.to }),
            b' ' | b'\n' | b'\r' | b'\t' | b'/' | b'#' => c.at = gap(text, c.at)?,
            b => {
                // a pair with a gap in it
                let at = gap(text, c.at + 1)?;
                let (high, low) = (HEX[b as usize], HEX[byte(text, at) as usize]);
                if high | low > 15 {
                    return None;
                }
                out[c.to] = high << 4 | low;
                c = Cursor { at: at + 1, to: c.to + 1 };
            }
        }
    }
}

/// Decodes the pairs of digits that stand here.
#[inline(always)]
fn pairs(text: &[u8], out: &mut [u8], c: Cursor) -> Cursor {
    let mut count = 0;
    for (pair, byte) in text[c.at..].chunks_exact(2).zip(&mut out[c.to..]) {
        let (high, low) = (HEX[pair[0] as usize], HEX[pair[1] as usize]);
        if high | low > 15 {
            break;
        }
        *byte = high << 4 | low;
        count += 1;
    }
    Cursor { at: c.at + 2 * count, to: c.to + count }
}

/// Passes blanks and comments; nothing where a comment does not end inside the literal.
#[inline(always)]
fn gap(text: &[u8], mut at: usize) -> Option<usize> {
    loop {
        match byte(text, at) {
            b' ' | b'\n' | b'\r' | b'\t' => at += 1,
            b'/' => at = comment::<b'/'>(text, at + 1)?,
            b'#' => at = comment::<b'\n'>(text, at + 1)?,
            _ => return Some(at),
        }
    }
}

#[inline(always)]
fn comment<const END: u8>(text: &[u8], mut at: usize) -> Option<usize> {
    loop {
        at = if END == b'/' { find(text, at, [b'/', b'\'', b'\\']) } else { find(text, at, [b'\'', b'\\']) };
        match byte(text, at) {
            b if b == END => return Some(at + 1),
            b if is(b, BLANK) => at += 1,
            _ => return None,
        }
    }
}
