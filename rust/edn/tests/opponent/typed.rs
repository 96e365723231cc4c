//! Typed arrays: what tags 64 to 87 ask of their content.
use super::head::{BYTES, OPEN};
use super::item::{chunks, content};

/// The element size of tags that ask nothing, and of the one that is reserved.
pub const UNTYPED: u8 = 0;
const RESERVED: u8 = 0xff;

/// The size that divides the length of a tag's content.
#[inline(always)]
pub fn element(number: u64) -> u8 {
    match number {
        76 => RESERVED,
        64..=87 => 1 << ((number >> 4 & 1) + (number & 3)),
        _ => UNTYPED,
    }
}

/// Whether the item that stands in the bytes, which is a right one, is what a tag asks for.
#[inline(always)]
pub fn fits(element: u8, bytes: &[u8], item: usize) -> bool {
    element == UNTYPED || divides(element, &bytes[item..])
}

#[inline(never)]
fn divides(element: u8, item: &[u8]) -> bool {
    element != RESERVED && byte_length(item).is_some_and(|n| n & (element as usize - 1) == 0)
}

/// The length of a byte string, chunks added; nothing for other items.
fn byte_length(item: &[u8]) -> Option<usize> {
    if item[0] == BYTES << 5 | OPEN {
        let mut sum = 0;
        chunks(item, 0, |_, chunk| sum += chunk.len()).ok()?;
        return Some(sum);
    }
    if item[0] >> 5 != BYTES {
        return None;
    }
    content(item, 0).map(|(content, _)| content.len())
}
