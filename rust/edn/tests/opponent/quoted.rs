//! Strings in quotes.
use super::head::{self, Indicator, Size, BREAK, BYTES, ONE_BYTE, OPEN, TEXT};
use super::refusal::{INDICATOR, NO_TOKEN};
use super::scan::find;
use super::table::{byte, HEX};
use super::Cursor;

/// A string in double or single quotes with its indicator.
#[inline(always)]
pub fn quoted(text: &[u8], out: &mut [u8], c: Cursor) -> Result<Cursor, u8> {
    if text[c.at] == b'"' {
        string::<b'"'>(text, out, c, TEXT)
    } else {
        string::<b'\''>(text, out, c, BYTES)
    }
}

/// Most strings have no escape, and their length is known before they are copied.
#[inline(always)]
pub fn string<const QUOTE: u8>(text: &[u8], out: &mut [u8], c: Cursor, major: u8) -> Result<Cursor, u8> {
    let end = find(text, c.at + 1, [QUOTE, b'\\']);
    let plain = &text[c.at + 1..end];
    if byte(text, end) == QUOTE && byte(text, end + 1) != b'_' {
        let to = head::put_shortest(out, c.to, major, plain.len() as u64);
        let past = to + plain.len();
        out[to..past].copy_from_slice(plain);
        return Ok(Cursor { at: end + 1, to: past });
    }
    other::<QUOTE>(text, out, c, major, end)
}

/// A string of any kind, of which nothing stops before `stop`: the content is written behind one byte, which is kept for the head.
#[inline(never)]
fn other<const QUOTE: u8>(text: &[u8], out: &mut [u8], c: Cursor, major: u8, stop: usize) -> Result<Cursor, u8> {
    let inner = escaped::<QUOTE>(text, out, Cursor { at: c.at + 1, to: c.to + 1 }, stop).ok_or(NO_TOKEN)?;
    let bare_quotes = inner.at == c.at + 2;
    finish(text, out, c.to, inner, major, bare_quotes)
}

/// The content of a string, plain up to `stop`; behind its closing quote.
#[inline(always)]
fn escaped<const QUOTE: u8>(text: &[u8], out: &mut [u8], mut c: Cursor, mut stop: usize) -> Option<Cursor> {
    loop {
        let plain = &text[c.at..stop];
        let to = c.to + plain.len();
        out[c.to..to].copy_from_slice(plain);
        match *text.get(stop)? {
            b'\\' => c = escape::<QUOTE>(text, out, Cursor { at: stop, to })?,
            b if b == QUOTE => return Some(Cursor { at: stop + 1, to }),
            _ => return None,
        }
        stop = find(text, c.at, [QUOTE, b'\\']);
    }
}

#[inline(always)]
fn escape<const QUOTE: u8>(text: &[u8], out: &mut [u8], c: Cursor) -> Option<Cursor> {
    let b = match *text.get(c.at + 1)? {
        b if b == QUOTE => QUOTE,
        b @ (b'\\' | b'/') => b,
        b'b' => 8,
        b'f' => 12,
        b'n' => b'\n',
        b'r' => b'\r',
        b't' => b'\t',
        b'u' => return unicode(text, out, c),
        _ => return None,
    };
    out[c.to] = b;
    Some(Cursor { at: c.at + 2, to: c.to + 1 })
}

#[inline(always)]
fn unicode(text: &[u8], out: &mut [u8], c: Cursor) -> Option<Cursor> {
    let mut at = c.at + 6;
    let mut code = four(text, c.at + 2)?;
    if let 0xd800..=0xdbff = code {
        if text.get(at..at + 2)? != br"\u" {
            return None;
        }
        let low @ 0xdc00..=0xdfff = four(text, at + 2)? else { return None };
        at += 6;
        code = 0x1_0000 + (code - 0xd800) * 0x400 + (low - 0xdc00);
    }
    let length = char::from_u32(code)?.encode_utf8(&mut out[c.to..c.to + 4]).len();
    Some(Cursor { at, to: c.to + length })
}

#[inline(always)]
fn four(text: &[u8], at: usize) -> Option<u32> {
    let digits: &[u8; 4] = text.get(at..)?.first_chunk()?;
    let d = digits.map(|b| HEX[b as usize] as u32);
    (d[0] | d[1] | d[2] | d[3] < 16).then_some(d[0] << 12 | d[1] << 8 | d[2] << 4 | d[3])
}

/// Gives a string its head, its content being written behind one reserved byte at `start`, and its closing quote passed.
#[inline(always)]
pub fn finish(text: &[u8], out: &mut [u8], start: usize, c: Cursor, major: u8, bare_quotes: bool) -> Result<Cursor, u8> {
    let length = c.to - start - 1;
    if length < ONE_BYTE as usize && byte(text, c.at) != b'_' {
        out[start] = major << 5 | length as u8;
        return Ok(c);
    }
    let (indicator, at) = head::indicator(text, c.at);
    if indicator == Indicator::Indefinite {
        if !bare_quotes {
            return Err(INDICATOR);
        }
        out[start..start + 2].copy_from_slice(&[major << 5 | OPEN, BREAK]);
        return Ok(Cursor { at, to: start + 2 });
    }
    let size = Size::marked(indicator, length as u64).ok_or(INDICATOR)?;
    Ok(Cursor { at, to: head::put_before(out, start, c.to, major, size, length as u64) })
}
