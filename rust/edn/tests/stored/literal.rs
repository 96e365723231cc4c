//! Literals of data sheets.
use super::shape::Page;
use std::fmt::Write;

/// What the words of texts are drawn from.
#[rustfmt::skip]
const NAMES: &[&str] = &[
    "catalyst", "batch", "lot", "palladium", "on", "carbon", "purity", "mesh", "supplier", "flask", "of", "the", "sample", "dried", "at", "reduced",
    "pressure", "stored", "under", "argon", "density", "melting", "point", "see", "note", "catalogue", "number", "grade", "technical", "moisture",
    "sensitive", "titration", "yield", "percent", "solvent", "ethanol", "toluene", "retest", "date", "operator", "scanner", "station",
];
const ALPHABETS: [&[u8; 64]; 2] = [
    b"ABCDEFGHIJKLMNOPQRSTUVWXYZabcdefghijklmnopqrstuvwxyz0123456789+/",
    b"ABCDEFGHIJKLMNOPQRSTUVWXYZabcdefghijklmnopqrstuvwxyz0123456789-_",
];
#[rustfmt::skip]
const ESCAPES: &[&str] = &["\\n", "\\t", "\\\"", "\\\\", "\\/", "\\r", "\\b", "\\f", "\\u00b0", "\\u00B5", "\\u2103", "\\ud83e\\uddea", "\\u0007", "\u{b5}", "\u{b0}"];

impl Page {
    pub fn decimal(&mut self) {
        let (bits, sign) = (self.chance.pick(&[5, 8, 12, 16, 24, 32]), self.chance.once_in(4));
        let n = self.chance.number(bits) + sign as u64;
        self.say(if sign { "-" } else { "" });
        write!(self.out, "{n}").unwrap();
    }

    pub fn integer(&mut self) {
        let base = self.chance.below(8);
        let n = self.chance.number(if base == 4 { 16 } else { 64 });
        if n > 0 && self.chance.once_in(4) {
            self.say("-");
        }
        let written = match base {
            0 | 1 => format!("0x{n:x}"),
            2 => format!("0x{n:X}"),
            3 => format!("0o{n:o}"),
            4 => format!("0b{n:b}"),
            _ => n.to_string(),
        };
        self.say(&written);
        let least = match n {
            0..=23 => 0,
            24..=0xff => 1,
            0x100..=0xffff => 2,
            0x1_0000..=0xffff_ffff => 3,
            _ => 4,
        };
        let wide = self.chance.between(least, 4);
        if self.chance.once_in(2) {
            self.say(["_i", "_0", "_1", "_2", "_3"][wide]);
        }
    }

    /// Words of a text, up to so many bytes.
    pub fn prose(&mut self, most: usize) {
        let end = self.out.len() + most;
        while self.out.len() < end {
            let word = self.chance.pick(NAMES);
            self.say(&word[..word.len().min(end - self.out.len())]);
            if self.out.len() < end {
                self.say(" ");
            }
        }
    }

    pub fn quoted(&mut self, length: usize) {
        let quote = if self.chance.once_in(5) { "'" } else { "\"" };
        self.say(quote);
        self.prose(length);
        self.say(quote);
    }

    pub fn hex(&mut self, bytes: usize) {
        self.say("h'");
        let upper = self.chance.once_in(6);
        for _ in 0..bytes {
            let b = self.chance.next() as u8;
            write!(self.out, "{}", if upper { format!("{b:02X}") } else { format!("{b:02x}") }).unwrap();
        }
        self.say("'");
    }

    pub fn hex_with_gaps(&mut self) {
        self.say("h'");
        let group = self.chance.pick(&[1, 1, 2, 4, 8]);
        for i in 1..=self.chance.between(4, 64) {
            let b = self.chance.next() as u8;
            write!(self.out, "{b:02x}").unwrap();
            if i % group == 0 {
                self.say(" ");
            }
            if self.chance.once_in(12) {
                let note = self.chance.pick(&["/ length /", "# checksum\n", "\n    ", "/ lot number as the supplier prints it / "]);
                self.say(note);
            }
        }
        self.say("'");
    }

    pub fn base64(&mut self) {
        let alphabet = self.chance.pick(&ALPHABETS);
        let (groups, broken) = (self.chance.between(2, 60), self.chance.once_in(3));
        self.say("b64'");
        for i in 1..=groups * 4 {
            let letter = alphabet[self.chance.below(64)];
            self.out.push(letter as char);
            if broken && i % 76 == 0 {
                self.say("\n  ");
            }
        }
        let end = self.chance.pick(&["", "", "Bw", "Bw==", "BwY", "BwY="]);
        self.say(end);
        self.say("'");
    }

    pub fn escapes(&mut self) {
        self.say("\"");
        for _ in 0..self.chance.between(1, 12) {
            let length = self.chance.between(0, 9);
            self.prose(length);
            let escape = self.chance.pick(ESCAPES);
            self.say(escape);
        }
        self.say("\"");
    }

    pub fn word(&mut self) {
        match self.chance.below(6) {
            0 => {
                let n = self.chance.below(256 - 8);
                write!(self.out, "simple({})", if n < 24 { n } else { n + 8 }).unwrap();
            }
            _ => {
                let word = self.chance.pick(&["true", "false", "null", "undefined"]);
                self.say(word);
            }
        }
    }

    pub fn comment(&mut self) {
        let length = self.chance.between(3, 50);
        if self.chance.once_in(2) {
            self.say("/ ");
            self.prose(length);
            self.say(" /");
        } else {
            self.say("# ");
            self.prose(length);
            self.say("\n");
        }
    }
}
