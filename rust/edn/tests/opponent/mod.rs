//! The operations once more, in plain Rust that is written to be fast: what the library's speed is held against.
//!
//! It is what a good programmer would write: no `unsafe`, one pass from left to right, no length worked out twice, heads put in where
//! they belong once they are known, tables by the byte, the standard library's UTF-8 check, strings and comments searched in words of
//! eight bytes. It has no other tricks with bits or vectors, and writes no byte that is not wanted: there are faster readers, and they
//! are not plain ones.
//!
//! It answers exactly as the library does. Nothing is kept as a tree and nothing is allocated per item: a text is read into a scratch
//! buffer that is made once and used again, so that a refused call writes nothing to the caller's.
#![forbid(unsafe_code)]
#![allow(dead_code)]

mod base64;
mod chunks;
mod correct;
mod decimal;
mod form;
mod head;
mod hexadecimal;
mod item;
mod level;
mod look;
mod number;
mod prefixed;
mod print;
mod quoted;
mod refusal;
mod scan;
mod show;
mod stage;
mod table;
mod typed;
mod unexpected;
mod walk;
mod word;

pub use refusal::Answer;

use level::{Level, Levels};
use print::{Page, Pages};
use refusal::{refuse, NOT_UTF8, NO_ROOM, TOO_LONG};
use stage::{Stage, Stages};
use walk::Walk;

/// The most bytes that a text, a sheet or a result may have.
pub const MOST: usize = 65_535;
/// The most levels of arrays, maps, tags and `<<`.
pub const LEVELS: usize = 16;
/// Room for the encoding of any text, of which three bytes give nine at most (`0_3`); and for a whole text with one more string behind it,
/// of which each byte gives six at most (`\\u0000`).
const SCRATCH: usize = 7 * (MOST + 1) + 64;

/// Where a step of the reading stands: the next byte of the text, and the next byte of the result.
#[derive(Clone, Copy)]
struct Cursor {
    at: usize,
    to: usize,
}

/// The operations, and the memory that they work in.
pub struct Opponent {
    scratch: Box<[u8]>,
    levels: Levels,
    stages: Stages,
    pages: Pages,
}

impl Opponent {
    pub fn new() -> Self {
        Opponent {
            scratch: vec![0; SCRATCH].into_boxed_slice(),
            levels: [Level::SHEET; LEVELS + 1],
            stages: [Stage::TOP; LEVELS + 1],
            pages: [Page::TOP; LEVELS + 1],
        }
    }

    /// Reads a text into the front of `out`; the length.
    pub fn read(&mut self, text: &[u8], out: &mut [u8]) -> Answer<usize> {
        utf8(text)?;
        let length = form::sheet(text, &mut self.scratch, &mut self.levels)?;
        self.put(length, out)
    }

    /// Whether bytes are a sheet.
    pub fn check(&mut self, bytes: &[u8]) -> Answer<()> {
        limited(bytes)?;
        Walk::new(bytes, &mut self.stages).run().map(|_| ())
    }

    /// The start and the end of the item at a path.
    pub fn look_up(&mut self, bytes: &[u8], path: &[u16]) -> Answer<(usize, usize)> {
        limited(bytes)?;
        look::look_up(bytes, path, &mut self.stages)
    }

    /// Prints into the front of `out`; the length.
    pub fn print(&mut self, bytes: &[u8], out: &mut [u8]) -> Answer<usize> {
        limited(bytes)?;
        let length = print::print(bytes, &mut self.scratch, &mut self.pages)?;
        self.put(length, out)
    }

    /// The result goes to the caller in one piece, once nothing can be refused any more.
    fn put(&self, length: usize, out: &mut [u8]) -> Answer<usize> {
        if length > MOST || length > out.len() {
            return refuse(NO_ROOM, 0);
        }
        out[..length].copy_from_slice(&self.scratch[..length]);
        Ok(length)
    }
}

fn limited(input: &[u8]) -> Answer<()> {
    if input.len() > MOST {
        return refuse(TOO_LONG, 0);
    }
    Ok(())
}

fn utf8(text: &[u8]) -> Answer<()> {
    limited(text)?;
    match std::str::from_utf8(text) {
        Ok(_) => Ok(()),
        Err(e) => refuse(NOT_UTF8, e.valid_up_to()),
    }
}
