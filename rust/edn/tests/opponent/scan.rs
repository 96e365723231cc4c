//! Strings and comments searched in words of eight bytes.
use super::table::{byte, is, BLANK};

const ONES: u64 = 0x0101_0101_0101_0101;
const HIGHS: u64 = 0x8080_8080_8080_8080;
const WORD: usize = 8;

/// Marks bytes of a word that are the given one. The lowest mark is exact, those above it may be wrong.
#[inline(always)]
fn equal(w: u64, b: u8) -> u64 {
    let x = w ^ (ONES * b as u64);
    x.wrapping_sub(ONES) & !x
}

/// Marks the bytes under 20 hex and the stops. The lowest mark is exact.
#[inline(always)]
fn marks<const N: usize>(w: u64, stops: [u8; N]) -> u64 {
    let controls = w.wrapping_sub(ONES * 0x20) & !w;
    stops.iter().fold(controls, |m, &s| m | equal(w, s)) & HIGHS
}

/// The first byte from `at` on that is under 20 hex or one of the stops; the end if there is none.
#[inline(always)]
pub fn find<const N: usize>(text: &[u8], at: usize, stops: [u8; N]) -> usize {
    let mut rest = &text[at..];
    while let Some((word, more)) = rest.split_first_chunk::<WORD>() {
        let m = marks(u64::from_le_bytes(*word), stops);
        if m != 0 {
            return text.len() - rest.len() + m.trailing_zeros() as usize / 8;
        }
        rest = more;
    }
    let stop = rest.iter().position(|b| *b < 0x20 || stops.contains(b)).unwrap_or(rest.len());
    text.len() - rest.len() + stop
}

/// The end of the comment that starts here; nothing where it is unfinished or a control byte stands in it.
pub fn comment(text: &[u8], start: usize) -> Option<usize> {
    let slashed = text[start] == b'/';
    let ends = if slashed { b'/' } else { b'\n' };
    let mut i = start + 1;
    loop {
        i = if slashed { find(text, i, [b'/']) } else { find(text, i, []) };
        match *text.get(i)? {
            b if b == ends => return Some(i + 1),
            b if is(b, BLANK) => i += 1,
            _ => return None,
        }
    }
}

/// The next byte that is no blank and in no comment; as a failure, the comment that is none.
#[inline(always)]
pub fn skip(text: &[u8], mut at: usize) -> Result<usize, usize> {
    loop {
        let b = byte(text, at);
        if is(b, BLANK) {
            at += 1;
        } else if b == b'/' || b == b'#' {
            at = comment(text, at).ok_or(at)?;
        } else {
            return Ok(at);
        }
    }
}
