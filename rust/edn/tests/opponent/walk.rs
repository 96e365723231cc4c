//! Bytes walked over head by head, and checked.
use super::head::{BREAK, BYTES, OPEN};
use super::item::{argument, chunks, content, fault, is_text, may_open};
use super::refusal::{refuse, Answer, TYPED_ARRAY};
use super::stage::{Stage, Stages};
use super::typed;

/// The length of integers, short byte strings and simple values, by their initial byte; 0 for all others.
static LENGTHS: [u8; 256] = {
    let mut table = [0; 256];
    let mut b = 0;
    while b < 256 {
        table[b] = match b as u8 {
            0x00..=0x17 | 0x20..=0x37 | 0xe0..=0xf7 => 1,
            0x18 | 0x38 => 2,
            0x19 | 0x39 => 3,
            0x1a | 0x3a => 5,
            0x1b | 0x3b => 9,
            b @ 0x40..=0x57 => 1 + b - 0x40,
            _ => 0,
        };
        b += 1;
    }
    table
};

/// Where a walk stopped.
#[derive(PartialEq, Eq)]
pub enum Stop {
    Paused,
    Ended,
}

pub struct Walk<'a> {
    pub bytes: &'a [u8],
    pub stages: &'a mut Stages,
    pub at: usize,
    pub depth: usize,
}

impl<'a> Walk<'a> {
    pub fn new(bytes: &'a [u8], stages: &'a mut Stages) -> Self {
        stages[0] = Stage::TOP;
        Walk { bytes, stages, at: 0, depth: 0 }
    }

    /// Walks on, up to where a stage pauses or the bytes end.
    #[inline(never)]
    pub fn run(&mut self) -> Answer<Stop> {
        // in registers meanwhile
        let mut walk = Walk { bytes: self.bytes, stages: &mut *self.stages, at: self.at, depth: self.depth };
        let stop = walk.on();
        (self.at, self.depth) = (walk.at, walk.depth);
        stop
    }

    #[inline(always)]
    fn on(&mut self) -> Answer<Stop> {
        let mut left = self.stages[self.depth].left;
        loop {
            while left > 0 {
                let Some(&b) = self.bytes.get(self.at) else { return self.ended() };
                left = match LENGTHS[b as usize] {
                    0 => self.other(b, left)?,
                    length => self.whole(length as usize, left)?,
                };
            }
            if self.stages[self.depth].pauses {
                return Ok(Stop::Paused);
            }
            left = self.close()?;
        }
    }

    fn ended(&self) -> Answer<Stop> {
        if self.depth > 0 {
            return self.fault();
        }
        Ok(Stop::Ended)
    }

    fn fault<T>(&self) -> Answer<T> {
        Err(fault(self.bytes, self.at, None))
    }

    /// Passes an item of which the initial byte says all; how many are left.
    #[inline(always)]
    fn whole(&mut self, length: usize, left: u32) -> Answer<u32> {
        if length > self.bytes.len() - self.at {
            return self.fault();
        }
        self.at += length;
        Ok(left - 1)
    }

    /// Passes another item, or enters it; how many are left where this leads to.
    #[inline(always)]
    fn other(&mut self, b: u8, left: u32) -> Answer<u32> {
        match b {
            0x60..=0x77 => self.short_text((b - 0x60) as usize)?,
            0x58..=0x5b | 0x78..=0x7b => self.string(b)?,
            0x80..=0x9b | 0x9f | 0xa0..=0xbb | 0xbf | 0xc0..=0xdb => return self.open(b, left - 1),
            0x5f | 0x7f => self.at = chunks(self.bytes, self.at, |_, _| {})?,
            0xf8 if self.bytes.get(self.at + 1).is_some_and(|&b| b >= 0x20) => self.at += 2,
            BREAK if self.stages[self.depth].may_break(left) => {
                self.at += 1;
                self.stages[self.depth].pauses = false;
                return Ok(0);
            }
            _ => return self.fault(),
        }
        Ok(left - 1)
    }

    #[inline(always)]
    fn short_text(&mut self, length: usize) -> Answer<()> {
        match self.bytes[self.at + 1..].get(..length) {
            Some(text) if is_text(text) => self.at += 1 + length,
            _ => return self.fault(),
        }
        Ok(())
    }

    #[inline(always)]
    fn string(&mut self, b: u8) -> Answer<()> {
        match content(self.bytes, self.at) {
            Some((content, end)) if b >> 5 == BYTES || is_text(content) => self.at = end,
            _ => return self.fault(),
        }
        Ok(())
    }

    /// Opens an array, a map or a tag, `left` items being left behind it; how many it has.
    #[inline(always)]
    pub fn open(&mut self, b: u8, left: u32) -> Answer<u32> {
        let start = self.at;
        let found = if b & 31 == OPEN { Some((0, start + 1)) } else { argument(self.bytes, start) };
        let Some((argument, end)) = found.filter(|_| may_open(self.depth)) else { return self.fault() };
        self.stages[self.depth].left = left;
        self.depth += 1;
        let stage = if b < 0xc0 { Stage::counted(b, argument) } else { Stage { left: 1, element: typed::element(argument), ..Stage::TOP } };
        self.stages[self.depth] = Stage { start: start as u32, content: end as u32, ..stage };
        self.at = end;
        Ok(stage.left)
    }

    /// Closes what is open here; how many items are left around it.
    #[inline(always)]
    fn close(&mut self) -> Answer<u32> {
        let here = &self.stages[self.depth];
        if !typed::fits(here.element, self.bytes, here.content as usize) {
            return refuse(TYPED_ARRAY, here.start as usize);
        }
        self.depth -= 1;
        Ok(self.stages[self.depth].left)
    }
}
