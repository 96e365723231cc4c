//! `b64'..'`.
use super::head::BYTES;
use super::hexadecimal::fault;
use super::quoted::finish;
use super::table::{byte, is, BLANK};
use super::Cursor;

/// The six bits of each letter, in either alphabet, and more for what is no letter.
static LETTERS: [u8; 256] = {
    let mut table = [NONE; 256];
    let mut b = 0;
    while b < 256 {
        table[b] = match b as u8 {
            l @ b'A'..=b'Z' => l - b'A',
            l @ b'a'..=b'z' => l - b'a' + 26,
            l @ b'0'..=b'9' => l - b'0' + 52,
            b'+' | b'-' => 62,
            b'/' | b'_' => 63,
            _ => NONE,
        };
        b += 1;
    }
    table
};
const NONE: u8 = 0xff;

/// The literal whose `b64` stands at the cursor.
#[inline(never)]
pub fn base64(text: &[u8], out: &mut [u8], c: Cursor) -> Result<Cursor, u8> {
    let content = c.at + b"b64'".len();
    let Some(end) = letters(text, out, Cursor { at: content, to: c.to + 1 }) else { return Err(fault(text, content)) };
    finish(text, out, c.to, end, BYTES, false)
}

/// Decodes up to the closing quote and passes it.
#[inline(always)]
fn letters(text: &[u8], out: &mut [u8], mut c: Cursor) -> Option<Cursor> {
    loop {
        c = fours(text, out, c);
        // four letters with something between them, or the last ones
        let mut bits = 0;
        let mut held = 0;
        while held < 4 {
            let b = byte(text, c.at);
            let six = LETTERS[b as usize];
            if six != NONE {
                bits = bits << 6 | six as u32;
                held += 1;
            } else if !is(b, BLANK) {
                return last(text, out, c, bits, held);
            }
            c.at += 1;
        }
        out[c.to..c.to + 3].copy_from_slice(&bits.to_be_bytes()[1..]);
        c.to += 3;
    }
}

/// Decodes the letters that stand here, four into three bytes.
#[inline(always)]
fn fours(text: &[u8], out: &mut [u8], c: Cursor) -> Cursor {
    let mut count = 0;
    let (four, three) = (text[c.at..].as_chunks::<4>().0, out[c.to..].as_chunks_mut::<3>().0);
    for (four, three) in four.iter().zip(three) {
        let [a, b, d, e] = four.map(|letter| LETTERS[letter as usize]);
        if a | b | d | e == NONE {
            break;
        }
        *three = [a << 2 | b >> 4, b << 4 | d >> 2, d << 6 | e];
        count += 1;
    }
    Cursor { at: c.at + 4 * count, to: c.to + 3 * count }
}

/// The letters that are left over, the padding and the quote.
#[inline(always)]
fn last(text: &[u8], out: &mut [u8], mut c: Cursor, bits: u32, held: u32) -> Option<Cursor> {
    let mut padding = 0;
    loop {
        match byte(text, c.at) {
            b'=' => padding += 1,
            b'\'' => break,
            b if is(b, BLANK) => {}
            _ => return None,
        }
        c.at += 1;
    }
    let (bytes, unused) = match held {
        0 => (0, 0),
        2 => (1, 4),
        3 => (2, 2),
        _ => return None,
    };
    let wanted = (4 - held) % 4;
    if bits & ((1 << unused) - 1) != 0 || padding != 0 && padding != wanted {
        return None;
    }
    let whole = (bits >> unused).to_be_bytes();
    out[c.to..c.to + bytes].copy_from_slice(&whole[4 - bytes..]);
    Some(Cursor { at: c.at + 1, to: c.to + bytes })
}
