//! Integers and the openings of tags.
use super::head::{indicator, Size, NEGATIVE, TAG, UNSIGNED};
use super::refusal::{FLOAT, INDICATOR, NO_TOKEN, TOO_LARGE};
use super::table::{byte, HEX};

/// So many decimal digits are under 2^64, whichever they are.
const SAFE: usize = 19;
/// What any number over -2^64 .. 2^64 - 1 is taken for.
const TOO_MUCH: u128 = 1 << 66;

pub struct Number {
    pub end: usize,
    pub major: u8,
    pub argument: u64,
    pub size: Size,
}

/// An integer or the opening of a tag; or the number of its refusal.
#[inline(always)]
pub fn number(text: &[u8], start: usize, negative: bool) -> Result<Number, u8> {
    let from = start + negative as usize;
    let (value, end) = decimal(text, from);
    // the rare ones: none at all, a zero with what may follow it, and those that may be over 64 bits
    if end == from || text[from] == b'0' || end - from == SAFE {
        return rare(text, from, end, value, negative);
    }
    let major = if negative { NEGATIVE } else { UNSIGNED };
    let argument = value - negative as u64;
    match byte(text, end) {
        b'.' | b'e' | b'E' => Err(FLOAT),
        b'_' => marked(text, end, major, argument, true),
        b'(' if !negative => Ok(Number { end: end + 1, major: TAG, argument, size: Size::shortest(argument) }),
        _ => Ok(Number { end, major, argument, size: Size::shortest(argument) }),
    }
}

/// The value and the end of the decimal digits that stand here, as many as are safe.
#[inline(always)]
fn decimal(text: &[u8], from: usize) -> (u64, usize) {
    let mut value = 0;
    let mut end = from;
    for b in text[from..].iter().take(SAFE) {
        if !b.is_ascii_digit() {
            break;
        }
        value = value * 10 + (b - b'0') as u64;
        end += 1;
    }
    (value, end)
}

/// A number that begins with a zero, is very long or is none, its first decimal digits being passed.
#[inline(never)]
fn rare(text: &[u8], from: usize, mut end: usize, value: u64, negative: bool) -> Result<Number, u8> {
    if end == from {
        let infinity = negative && text[from..].starts_with(b"Infinity");
        return Err(if infinity { FLOAT } else { NO_TOKEN });
    }
    let mut value = value as u128;
    while let Some(b @ b'0'..=b'9') = text.get(end) {
        value = (value * 10 + (b - b'0') as u128).min(TOO_MUCH);
        end += 1;
    }
    if matches!(byte(text, end), b'.' | b'e' | b'E') {
        return Err(FLOAT);
    }
    let digits = if text[from] == b'0' { zero(text, from, end)? } else { Digits { base: 10, end, value } };
    if negative && digits.value == 0 {
        return Err(NO_TOKEN);
    }
    let major = if negative { NEGATIVE } else { UNSIGNED };
    let argument = u64::try_from(digits.value - negative as u128).map_err(|_| TOO_LARGE)?;
    marked(text, digits.end, major, argument, digits.base == 10)
}

/// The digits of a number.
struct Digits {
    base: u64,
    end: usize,
    value: u128,
}

/// A zero stands alone, unless it and a letter begin a number in another base.
fn zero(text: &[u8], from: usize, end: usize) -> Result<Digits, u8> {
    let other = match byte(text, end) {
        b'x' if end == from + 1 => based::<4>(text, from + 2)?,
        b'o' if end == from + 1 => based::<3>(text, from + 2)?,
        b'b' if end == from + 1 => based::<1>(text, from + 2)?,
        _ => None,
    };
    Ok(other.unwrap_or(Digits { base: 10, end: from + 1, value: 0 }))
}

/// The digits of a base that is a power of two, if there are any.
#[inline(always)]
fn based<const BITS: usize>(text: &[u8], from: usize) -> Result<Option<Digits>, u8> {
    let base = 1 << BITS;
    let mut value = 0u64;
    let mut end = from;
    loop {
        let digit = HEX[byte(text, end) as usize] as u64;
        if digit >= base {
            break;
        }
        value = value << BITS | digit;
        end += 1;
    }
    if end == from {
        return Ok(None);
    }
    if BITS == 4 && matches!(byte(text, end), b'.' | b'p' | b'P') {
        return Err(FLOAT);
    }
    let value = if end - from > 64 / BITS { long_value(&text[from..end], base) } else { value as u128 };
    Ok(Some(Digits { base, end, value }))
}

/// The value of many digits, `TOO_MUCH` for all that are over the limits.
fn long_value(digits: &[u8], base: u64) -> u128 {
    digits.iter().fold(0, |n, &d| (n * base as u128 + HEX[d as usize] as u128).min(TOO_MUCH))
}

/// A number with its indicator, if there is one; only a decimal can open a tag.
#[inline(never)]
fn marked(text: &[u8], end: usize, major: u8, argument: u64, decimal: bool) -> Result<Number, u8> {
    let (indicator, end) = indicator(text, end);
    let size = Size::marked(indicator, argument).ok_or(INDICATOR)?;
    if decimal && major == UNSIGNED && byte(text, end) == b'(' {
        return Ok(Number { end: end + 1, major: TAG, argument, size });
    }
    Ok(Number { end, major, argument, size })
}
