//! The operations that return memory of their own: they need alloc.
use crate::{correct_in, print_into, read_into, Error, MOST};
use alloc::string::String;
use alloc::vec;
use alloc::vec::Vec;

/// Reads a text: the bytes of its items, one after the other.
///
/// ```
/// assert_eq!(edn::read("h'03 / cat / 01', 24"), Ok(vec![0x42, 0x03, 0x01, 0x18, 0x18]));
/// assert_eq!(edn::read(""), Ok(vec![]));
/// assert_eq!(edn::read("24_i").unwrap_err().number(), 9);
/// ```
pub fn read(text: impl AsRef<[u8]>) -> Result<Vec<u8>, Error> {
    let mut out = vec![0; MOST];
    let length = read_into(text.as_ref(), &mut out)?;
    out.truncate(length);
    Ok(out)
}

/// Prints the items of a sheet as text. Reading that text gives the same bytes again.
///
/// ```
/// assert_eq!(edn::print([0x9f, 0xff, 0x19, 0x00, 0x05]).unwrap(), "[_ ],\n5_1\n");
/// assert_eq!(edn::print([0xf8, 0x18]).unwrap_err().number(), 16);
/// ```
pub fn print(bytes: impl AsRef<[u8]>) -> Result<String, Error> {
    let mut out = vec![0; MOST];
    let length = print_into(bytes.as_ref(), &mut out)?;
    out.truncate(length);
    Ok(String::from_utf8(out).expect("a printed text is UTF-8"))
}

/// The sheet with the item at a path replaced by the item that `text` spells: the same bytes as reading the edited text of the sheet.
///
/// ```
/// let sheet = edn::read("[1, [2, 3]], 4").unwrap();
/// let sheet = edn::correct(&sheet, &[0, 1, 0], "{}").unwrap();
/// assert_eq!(edn::print(&sheet).unwrap(), "[1, [{}, 3]],\n4\n");
/// ```
pub fn correct(bytes: &[u8], path: &[u16], text: impl AsRef<[u8]>) -> Result<Vec<u8>, Error> {
    let mut buffer = bytes.to_vec();
    buffer.resize(bytes.len().max(MOST), 0);
    let length = correct_in(&mut buffer, bytes.len(), path, text.as_ref())?;
    buffer.truncate(length);
    Ok(buffer)
}
