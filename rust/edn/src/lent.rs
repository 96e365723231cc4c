//! The operations on memory that the caller lends: they need neither std nor alloc.
use crate::error::answer;
use crate::{sys, Error, Place};
use core::ops::Range;

/// Reads a text into the front of `out` and answers how many bytes that took. Bytes behind them stay as they are; so do all of them where
/// the text is refused.
///
/// ```
/// let mut out = [0xee; 4];
/// assert_eq!(edn::read_into(b"5_1", &mut out), Ok(3));
/// assert_eq!(out, [0x19, 0x00, 0x05, 0xee]);
///
/// let e = edn::read_into(b"[1, 2, 3, 4]", &mut out).unwrap_err();
/// assert_eq!(e.number(), 14);
/// assert_eq!(out, [0x19, 0x00, 0x05, 0xee]);
/// ```
pub fn read_into(text: &[u8], out: &mut [u8]) -> Result<usize, Error> {
    let mut value = [0u64; 1];
    // SAFETY: each pointer comes from a live slice with its length; what is written is borrowed exclusively, so it overlaps nothing.
    let number = unsafe { sys::edn_read(text.as_ptr(), text.len(), out.as_mut_ptr(), out.len(), value.as_mut_ptr(), value.len()) };
    answer(number, value[0], Place::Text)
}

/// Prints the items of a sheet as text into the front of `out` and answers how many bytes that took. Bytes behind them stay as they are;
/// so do all of them where the sheet is refused.
pub fn print_into(bytes: &[u8], out: &mut [u8]) -> Result<usize, Error> {
    let mut value = [0u64; 1];
    // SAFETY: as in `read_into`.
    let number = unsafe { sys::edn_print(bytes.as_ptr(), bytes.len(), out.as_mut_ptr(), out.len(), value.as_mut_ptr(), value.len()) };
    answer(number, value[0], Place::Bytes)
}

/// Where the item at a path stands in the bytes. The bytes are checked first.
///
/// ```
/// let sheet = edn::read(r#"[1, "a"]"#).unwrap();
/// assert_eq!(edn::locate(&sheet, &[0, 1]), Ok(2..4));
/// ```
pub fn locate(bytes: &[u8], path: &[u16]) -> Result<Range<usize>, Error> {
    let mut value = [0u64; 2];
    // SAFETY: as in `read_into`.
    let number = unsafe { sys::edn_look_up(bytes.as_ptr(), bytes.len(), path.as_ptr(), path.len(), value.as_mut_ptr(), value.len()) };
    let start = answer(number, value[0], Place::Bytes)?;
    Ok(start..value[1] as usize)
}

/// The item at a path: a part of the caller's own bytes, not copied. The bytes are checked first.
///
/// ```
/// let sheet = edn::read(r#"{1: "a", 2: [10, 20]}"#).unwrap();
/// assert_eq!(edn::look_up(&sheet, &[0, 1, 1]), Ok(&[0x14][..]));
/// let e = edn::look_up(&sheet, &[0, 0, 3]).unwrap_err();
/// assert_eq!((e.number(), e.place()), (17, 2)); // step 2 would enter a string
/// ```
pub fn look_up<'a>(bytes: &'a [u8], path: &[u16]) -> Result<&'a [u8], Error> {
    locate(bytes, path).map(|part| &bytes[part])
}

/// Replaces the item at a path, in the first `used` bytes of `buffer`, by the item that `text` spells, and answers how many bytes are used
/// then. Where that is fewer than before, those up to the old end are zeroed; bytes behind stay as they are; so do all of them where the
/// call is refused.
///
/// The text is one item with no blank or comment outside it.
///
/// ```
/// let mut buffer = [0x82, 0x01, 0x61, 0x61, 0xee];
/// assert_eq!(edn::correct_in(&mut buffer, 4, &[0, 1], b"h'0203'"), Ok(5));
/// assert_eq!(buffer, [0x82, 0x01, 0x42, 0x02, 0x03]);
/// ```
pub fn correct_in(buffer: &mut [u8], used: usize, path: &[u16], text: &[u8]) -> Result<usize, Error> {
    let mut value = [0u64; 1];
    // SAFETY: as in `read_into`.
    let number = unsafe {
        sys::edn_correct(
            buffer.as_mut_ptr(),
            buffer.len(),
            used,
            path.as_ptr(),
            path.len(),
            text.as_ptr(),
            text.len(),
            value.as_mut_ptr(),
            value.len(),
        )
    };
    // The bytes and the path are asked before the text, so where they pass it is the text that was refused.
    let in_bytes = number != 0 && buffer.get(..used).is_some_and(|bytes| locate(bytes, path).is_err());
    answer(number, value[0], if in_bytes { Place::Bytes } else { Place::Text })
}

/// Whether bytes are a sheet: items, and nothing else.
///
/// ```
/// assert_eq!(edn::check(&[0x82, 0x01, 0x02]), Ok(()));
/// let e = edn::check(&[0x82, 0x01]).unwrap_err();
/// assert_eq!((e.number(), e.place()), (15, 2));
/// ```
pub fn check(bytes: &[u8]) -> Result<(), Error> {
    let mut value = [0u64; 1];
    // SAFETY: as in `read_into`.
    let number = unsafe { sys::edn_check(bytes.as_ptr(), bytes.len(), value.as_mut_ptr(), value.len()) };
    answer(number, value[0], Place::Bytes).map(|_| ())
}
