//! How items are put together to sheets.
use super::chance::Chance;
use std::fmt::Write;

/// A text that is being written.
pub struct Page {
    pub chance: Chance,
    pub out: String,
    /// How long it may get.
    size: usize,
}

/// No part of a page is longer than this.
const LONGEST_PART: usize = 1_200;
const SEED: u64 = 0x0ed4_0001;

impl Page {
    pub fn of(size: usize, variant: usize) -> Page {
        Page { chance: Chance::new(SEED + variant as u64), out: String::with_capacity(size + LONGEST_PART), size }
    }

    pub fn say(&mut self, s: &str) {
        self.out.push_str(s);
    }

    /// As many parts as there is room for, with commas between them, inside what opens and closes.
    pub fn filled(mut self, part: fn(&mut Page), open: &str, close: &str) -> String {
        self.say(open);
        part(&mut self);
        loop {
            let good = self.out.len();
            self.say(", ");
            part(&mut self);
            if self.out.len() + close.len() > self.size {
                self.out.truncate(good);
                break;
            }
        }
        self.say(close);
        self.out
    }

    /// One string of so many bytes.
    pub fn sentence(mut self, length: usize) -> String {
        self.say("\"");
        self.prose(length - 2);
        self.say("\"");
        self.out
    }

    /// An item of a flat sheet.
    pub fn flat(&mut self) {
        match self.chance.below(10) {
            0..=3 => self.decimal(),
            4..=6 => {
                let length = self.chance.between(2, 24);
                self.quoted(length);
            }
            7 | 8 => {
                let length = self.chance.between(2, 16);
                self.hex(length);
            }
            _ => {
                let word = self.chance.pick(&["true", "false", "null"]);
                self.say(word);
            }
        }
    }

    pub fn long_string(&mut self) {
        let length = self.chance.between(380, 420);
        match self.chance.once_in(2) {
            true => self.quoted(length),
            false => self.hex(length),
        }
    }

    /// An item of a nested sheet: `[1, {2: [3, "four"], 5: 6(h'07')}, [_ 8, [9]]]` and the like.
    pub fn record(&mut self) {
        let levels = self.chance.between(2, 5);
        self.part(levels);
    }

    fn part(&mut self, levels: usize) {
        match if levels == 0 { 9 } else { self.chance.below(10) } {
            0..=2 => self.array(levels - 1, "["),
            3 => self.array(levels - 1, "[_ "),
            4 | 5 => self.map(levels - 1),
            6 => self.tag(levels - 1),
            7 | 8 => self.decimal(),
            _ => self.brief(),
        }
    }

    /// A short item without parts.
    fn brief(&mut self) {
        match self.chance.below(5) {
            0 => {
                let length = self.chance.between(1, 4);
                self.hex(length);
            }
            1 | 2 => {
                let length = self.chance.between(2, 9);
                self.quoted(length);
            }
            _ => self.decimal(),
        }
    }

    fn array(&mut self, levels: usize, open: &str) {
        self.say(open);
        for i in 0..self.chance.below(5) {
            self.say(if i > 0 { ", " } else { "" });
            self.part(levels);
        }
        self.say("]");
    }

    fn map(&mut self, levels: usize) {
        self.say("{");
        for i in 0..self.chance.between(1, 3) {
            self.say(if i > 0 { ", " } else { "" });
            write!(self.out, "{}: ", self.chance.below(40)).unwrap();
            self.part(levels);
        }
        self.say("}");
    }

    fn tag(&mut self, levels: usize) {
        if self.chance.once_in(3) {
            let tag = self.chance.pick(&[64, 65, 69, 72, 77]);
            write!(self.out, "{tag}(").unwrap();
            let elements = self.chance.between(1, 4);
            self.hex(2 * elements);
        } else {
            write!(self.out, "{}(", self.chance.below(60)).unwrap();
            self.part(levels);
        }
        self.say(")");
    }

    /// A short `<<`.
    pub fn tiny(&mut self) {
        self.say("<<");
        for i in 0..self.chance.below(4) {
            self.say(if i > 0 { ", " } else { "" });
            self.brief();
        }
        self.say(">>");
    }

    /// An item among blanks and comments.
    pub fn commented(&mut self) {
        let lead = self.chance.pick(&["", "\n", "\n    ", "\r\n\t\t", "        "]);
        self.say(lead);
        if self.chance.once_in(2) {
            self.comment();
        }
        self.say("\n  ");
        self.brief();
        if self.chance.once_in(3) {
            self.say(" ");
            self.comment();
        }
    }
}
