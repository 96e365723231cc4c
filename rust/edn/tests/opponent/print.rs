//! Bytes to text: one walk that checks and writes.
use super::decimal::decimal;
use super::head::{BREAK, BYTES, EIGHT_BYTES, FOUR_BYTES, ONE_BYTE, OPEN, TWO_BYTES};
use super::item::{argument, chunks, content, fault, is_text, may_open};
use super::refusal::{refuse, Answer, TYPED_ARRAY};
use super::show::{hex, text};
use super::stage::Stage;
use super::typed;
use super::{LEVELS, MOST};

/// What is open, with what is written in it.
#[derive(Clone, Copy)]
pub struct Page {
    stage: Stage,
    /// Whether nothing is written in it yet.
    fresh: bool,
    /// Behind each item but the last; in a map, behind each value.
    separator: &'static [u8; 2],
    closer: u8,
}

impl Page {
    pub const TOP: Page = Page { stage: Stage::TOP, fresh: true, separator: b",\n", closer: 0 };
}

pub type Pages = [Page; LEVELS + 1];

/// Writes the text of bytes to the front of `out`; its length, or some number over the most that a text may have.
pub fn print(bytes: &[u8], out: &mut [u8], pages: &mut Pages) -> Answer<usize> {
    pages[0] = Page::TOP;
    let printing = Printing { bytes, out, pages, at: 0, to: 0, depth: 0, over: false };
    printing.run()
}

struct Printing<'a> {
    bytes: &'a [u8],
    out: &'a mut [u8],
    pages: &'a mut Pages,
    at: usize,
    to: usize,
    depth: usize,
    /// Whether more was written than a text may have; the rest is written over it, to be checked.
    over: bool,
}

impl Printing<'_> {
    #[inline(always)]
    fn run(mut self) -> Answer<usize> {
        loop {
            while self.pages[self.depth].stage.left > 0 {
                let Some(&b) = self.bytes.get(self.at) else { return self.ended() };
                let page = &mut self.pages[self.depth];
                if b == BREAK && page.stage.may_break(page.stage.left) {
                    self.at += 1;
                    break;
                }
                self.separate();
                self.item(b)?;
            }
            self.close()?;
        }
    }

    /// Writes what stands before an item, and counts it.
    #[inline(always)]
    fn separate(&mut self) {
        if self.to > MOST {
            self.over = true;
            self.to = 0;
        }
        let page = &mut self.pages[self.depth];
        let value = page.stage.map && page.stage.left % 2 == 1;
        page.stage.left -= 1;
        if page.fresh {
            page.fresh = false;
            return;
        }
        let separator = if value { b": " } else { page.separator };
        self.say(separator);
    }

    #[inline(always)]
    fn ended(mut self) -> Answer<usize> {
        if self.depth > 0 {
            return self.fault();
        }
        if !self.bytes.is_empty() {
            self.put(b'\n');
        }
        Ok(if self.over { MOST + 1 } else { self.to })
    }

    #[inline(always)]
    fn fault<T>(&self) -> Answer<T> {
        Err(fault(self.bytes, self.at, None))
    }

    #[inline(always)]
    fn put(&mut self, b: u8) {
        self.out[self.to] = b;
        self.to += 1;
    }

    #[inline(always)]
    fn say<const N: usize>(&mut self, s: &[u8; N]) {
        self.out[self.to..self.to + N].copy_from_slice(s);
        self.to += N;
    }

    #[inline(always)]
    fn item(&mut self, b: u8) -> Answer<()> {
        match b {
            0x00..=0x1b => self.integer(b, false),
            0x20..=0x3b => self.integer(b, true),
            0x40..=0x5b | 0x60..=0x7b => self.string(b),
            0x80..=0x9b | 0x9f => self.counted(b, b'[', b']'),
            0xa0..=0xbb | 0xbf => self.counted(b, b'{', b'}'),
            0xc0..=0xdb => self.tag(),
            0x5f | 0x7f => self.chunked(b),
            0xe0..=0xf8 => self.simple(b),
            _ => self.fault(),
        }
    }

    #[inline(always)]
    fn integer(&mut self, b: u8, negative: bool) -> Answer<()> {
        let Some((n, end)) = argument(self.bytes, self.at) else { return self.fault() };
        self.at = end;
        if negative {
            self.put(b'-');
        }
        if negative && n == u64::MAX {
            self.say(b"18446744073709551616");
        } else {
            self.to = decimal(self.out, self.to, n + negative as u64);
        }
        self.mark(b, n);
        Ok(())
    }

    /// The indicator of a head, where it is not the shortest.
    #[inline(always)]
    fn mark(&mut self, initial: u8, argument: u64) {
        match initial & 31 {
            OPEN => self.put(b'_'),
            ONE_BYTE if argument < 24 => self.say(b"_0"),
            TWO_BYTES if argument <= 0xff => self.say(b"_1"),
            FOUR_BYTES if argument <= 0xffff => self.say(b"_2"),
            EIGHT_BYTES if argument <= 0xffff_ffff => self.say(b"_3"),
            _ => {}
        }
    }

    #[inline(always)]
    fn string(&mut self, b: u8) -> Answer<()> {
        match content(self.bytes, self.at) {
            Some((content, end)) if b >> 5 == BYTES || is_text(content) => {
                self.show(b, content);
                self.at = end;
                Ok(())
            }
            _ => self.fault(),
        }
    }

    /// Writes a string, whose head and content are right.
    #[inline(always)]
    fn show(&mut self, b: u8, content: &[u8]) {
        self.to = match b >> 5 {
            BYTES => hex(content, self.out, self.to),
            _ => text(content, self.out, self.to),
        };
        self.mark(b, content.len() as u64);
    }

    #[inline(always)]
    fn chunked(&mut self, b: u8) -> Answer<()> {
        let bytes = self.bytes;
        if bytes.get(self.at + 1) == Some(&BREAK) {
            self.at += 2;
            self.say(if b >> 5 == BYTES { b"''_" } else { b"\"\"_" });
            return Ok(());
        }
        self.say(b"(_ ");
        let mut first = true;
        self.at = chunks(bytes, self.at, |head, chunk| {
            if !first {
                self.say(b", ");
            }
            first = false;
            self.show(bytes[head], chunk);
        })?;
        self.put(b')');
        Ok(())
    }

    #[inline(always)]
    fn counted(&mut self, b: u8, open: u8, closer: u8) -> Answer<()> {
        let start = self.at;
        let found = if b & 31 == OPEN { Some((0, start + 1)) } else { argument(self.bytes, start) };
        let Some((argument, end)) = found.filter(|_| may_open(self.depth)) else { return self.fault() };
        let stage = Stage::counted(b, argument);
        self.put(open);
        let bare = self.to;
        self.mark(b, argument);
        if self.to > bare {
            self.put(b' ');
        }
        self.depth += 1;
        self.pages[self.depth] = Page { stage, fresh: true, separator: b", ", closer };
        self.at = end;
        Ok(())
    }

    #[inline(always)]
    fn tag(&mut self) -> Answer<()> {
        let start = self.at;
        let found = argument(self.bytes, start);
        let Some((number, end)) = found.filter(|_| may_open(self.depth)) else { return self.fault() };
        self.to = decimal(self.out, self.to, number);
        self.mark(self.bytes[start], number);
        self.put(b'(');
        let stage = Stage { left: 1, element: typed::element(number), start: start as u32, content: end as u32, ..Stage::TOP };
        self.depth += 1;
        self.pages[self.depth] = Page { stage, closer: b')', ..Page::TOP };
        self.at = end;
        Ok(())
    }

    #[inline(always)]
    fn close(&mut self) -> Answer<()> {
        let page = &self.pages[self.depth];
        let stage = &page.stage;
        if !typed::fits(stage.element, self.bytes, stage.content as usize) {
            return refuse(TYPED_ARRAY, stage.start as usize);
        }
        let closer = page.closer;
        self.put(closer);
        self.depth -= 1;
        Ok(())
    }

    #[inline(always)]
    fn simple(&mut self, b: u8) -> Answer<()> {
        match b {
            0xf4 => self.say(b"false"),
            0xf5 => self.say(b"true"),
            0xf6 => self.say(b"null"),
            0xf7 => self.say(b"undefined"),
            _ => return self.numbered(b),
        }
        self.at += 1;
        Ok(())
    }

    #[inline(always)]
    fn numbered(&mut self, b: u8) -> Answer<()> {
        let wide = b == 0xf8;
        let value = if wide { self.bytes.get(self.at + 1).copied().filter(|&v| v >= 0x20) } else { Some(b & 31) };
        let Some(value) = value else { return self.fault() };
        self.say(b"simple(");
        self.to = decimal(self.out, self.to, value as u64);
        self.put(b')');
        self.at += 1 + wide as usize;
        Ok(())
    }
}
