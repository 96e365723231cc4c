//! Strings written as text.
use super::scan::find;

/// Two hex digits of each byte.
static DIGITS: [[u8; 2]; 256] = {
    let mut table = [[0; 2]; 256];
    let mut b = 0;
    while b < 256 {
        table[b] = [b"0123456789abcdef"[b >> 4], b"0123456789abcdef"[b & 15]];
        b += 1;
    }
    table
};

/// Writes `h'..'`; where it ends.
#[inline(always)]
pub fn hex(content: &[u8], out: &mut [u8], to: usize) -> usize {
    let end = to + 2 * content.len() + 3;
    let room = &mut out[to..end];
    room[..2].copy_from_slice(b"h'");
    for (pair, &b) in room[2..].as_chunks_mut().0.iter_mut().zip(content) {
        *pair = DIGITS[b as usize];
    }
    out[end - 1] = b'\'';
    end
}

/// Writes a text in quotes; where it ends.
#[inline(always)]
pub fn text(content: &[u8], out: &mut [u8], to: usize) -> usize {
    out[to] = b'"';
    let mut to = to + 1;
    let mut at = 0;
    loop {
        let stop = find(content, at, [b'"', b'\\']);
        let plain = &content[at..stop];
        out[to..to + plain.len()].copy_from_slice(plain);
        to += plain.len();
        let Some(&b) = content.get(stop) else { break };
        to = escaped(b, out, to);
        at = stop + 1;
    }
    out[to] = b'"';
    to + 1
}

fn escaped(b: u8, out: &mut [u8], to: usize) -> usize {
    if b >= 0x20 {
        out[to..to + 2].copy_from_slice(&[b'\\', b]);
        return to + 2;
    }
    let [high, low] = DIGITS[b as usize];
    out[to..to + 6].copy_from_slice(&[b'\\', b'u', b'0', b'0', high, low]);
    to + 6
}
