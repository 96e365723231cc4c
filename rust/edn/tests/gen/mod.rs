//! Inputs for the tests, good and damaged, from a seed: the same seed gives the same inputs.
#![allow(dead_code)]

pub struct Rng(u64);

impl Rng {
    /// The same inputs in each run; EDN_SEED, a number, gives others.
    pub fn new(seed: u64) -> Self {
        let more: u64 = std::env::var("EDN_SEED").ok().and_then(|s| s.parse().ok()).unwrap_or(0);
        Rng(seed.wrapping_add(more.wrapping_mul(1_000_003)))
    }

    pub fn next(&mut self) -> u64 {
        self.0 = self.0.wrapping_add(0x9e37_79b9_7f4a_7c15);
        let mut z = self.0;
        z = (z ^ (z >> 30)).wrapping_mul(0xbf58_476d_1ce4_e5b9);
        z = (z ^ (z >> 27)).wrapping_mul(0x94d0_49bb_1331_11eb);
        z ^ (z >> 31)
    }

    /// 0 to n - 1.
    pub fn below(&mut self, n: usize) -> usize {
        (self.next() % n as u64) as usize
    }

    /// Once in n times.
    pub fn once(&mut self, n: usize) -> bool {
        self.below(n) == 0
    }

    pub fn pick<'a, T: ?Sized>(&mut self, of: &[&'a T]) -> &'a T {
        of[self.below(of.len())]
    }

    /// A number of any size, those at the edges of heads often.
    pub fn number(&mut self) -> u64 {
        const EDGES: [u64; 13] = [0, 1, 23, 24, 255, 256, 65_535, 65_536, 0xffff_ffff, 0x1_0000_0000, u64::MAX - 1, u64::MAX, 1 << 63];
        match self.below(4) {
            0 => EDGES[self.below(EDGES.len())],
            1 => self.next() >> self.below(64),
            _ => self.below(30) as u64,
        }
    }

    /// The length of a short string, seldom one past 23 or 255.
    fn length(&mut self) -> usize {
        match self.below(60) {
            0 => 20 + self.below(10),
            1 => 250 + self.below(12),
            _ => self.below(9),
        }
    }
}

/// Pieces that tokens are made of, whole and broken.
#[rustfmt::skip]
pub const PIECES: &[&str] = &[
    "[", "]", "{", "}", "(", ")", ",", ":", "<<", ">>", "<", ">", "(_", "(_ ", "[_", "{_", "_", "__", "_i", "_0", "_1", "_2", "_3", "_4", "_x", "0", "1",
    "23", "24", "255", "256", "65535", "65536", "4294967295", "4294967296", "18446744073709551615", "18446744073709551616", "-", "-1", "-0", "-24",
    "-18446744073709551616", "-18446744073709551617", "01", "0x", "0x0", "0xff", "0xFG", "-0x1", "-0x0", "0o17", "0o8", "0b101", "0b2", "0x10000000000000000",
    "-0x10000000000000000", "-0x10000000000000001", "1.", "1.5", "1e", "5E3", "0x1p", "0x1.8", "0x1e5", "00.5", "-00.5", ".5", "+1", "Infinity", "-Infinity", "NaN",
    "-NaN", "NaN1", "Infinityx", "-Infinityx", "NaN'a'", "...", "..", "....", ".", "\"\"", "\"a\"", "\"\\n\"", "\"\\u00fc\"", "\"\\ud83d\\ude00\"", "\"\\ud83d\"",
    "\"\\ude00\"", "\"\\x\"", "\"'\"", "\"\\'\"", "'\\\"'", "\"", "'", "''", "'a'", "'\\''", "''_", "\"\"_", "'a'_", "h''", "h'00'", "h'0'", "h'0 1'", "h'0/x/1'",
    "h'0#x\n1'", "h'#x'", "h'/x'", "h'zz'", "h'...'", "h'\\'", "h'", "h", "H'01'", "b64''", "b64'AQI'", "b64'AQI='", "b64'AQJ='", "b64'A'", "b64'AQ=='", "b64'AQ='",
    "b64'AQ= ='", "b64'-_+/'", "b64'_w'", "b64'/x/'", "b64", "true", "false", "null", "undefined", "True", "nul", "simple", "simple(", "simple(0)", "simple(23)",
    "simple(24)", "simple(31)", "simple(32)", "simple(255)", "simple(256)", "simple(01)", "simple( 1)", "simple(1", "simple()", "simple(99999999999999999999)", "x",
    "x'", "x'a'", "true'a'", "/c/", "//", "/", "#c\n", "#c", "/\t\n/", "/\u{1}/", "#\u{b}\n", " ", "\t", "\n", "\r", "\r\n", "\u{c}", "\u{7f}", "\u{fc}", "1(", "64(",
    "65(", "66(", "76(", "80(", "83(", "87(", "88(", "1_1(", "1_(", "1_i(", "24_i(", "18446744073709551616(", "0x41(", "65(_ ", ">>_1", ">>_", ">>_x", ">>_0", ">>_i",
    "ip'1'", "dt'x'", "#", "$", "%", "@", "^", "~", "`", "|", "\\", ";", "=", "*", "&", "!", "?",
];

/// Writes texts.
pub struct Text<'r> {
    pub rng: &'r mut Rng,
    pub out: Vec<u8>,
    /// Write nothing that is refused by itself, apart from depth.
    pub clean: bool,
    /// No more items once this many bytes are written.
    pub most: usize,
}

impl Text<'_> {
    fn say(&mut self, s: &str) {
        self.out.extend_from_slice(s.as_bytes());
    }

    pub fn gap(&mut self) {
        if self.rng.below(5) > 0 {
            return;
        }
        for _ in 0..=self.rng.below(2) {
            let g = self.rng.pick(&[" ", " ", " ", "\n", "\t", "\r\n", "/ cat /", "# dog \n", "//", "/ü\n/", "#\u{1f600}\t\n", "/'\"[/"]);
            self.say(g);
        }
    }

    fn indicator(&mut self) {
        match self.rng.below(24) {
            0..=2 => {
                let i = self.rng.pick(&["_3", "_2", "_1"]);
                self.say(i);
            }
            3 if !self.clean => {
                let i = self.rng.pick(&["_i", "_0", "_", "_4", "_x", "_00", "_ii"]);
                self.say(i);
            }
            _ => {}
        }
    }

    fn integer(&mut self) {
        let n = self.rng.number();
        let minus = n > 0 && self.rng.once(3);
        if minus {
            self.say("-");
        }
        let s = match self.rng.below(10) {
            0 => format!("0x{n:x}"),
            1 => format!("0x00{n:X}"),
            2 => format!("0o{n:o}"),
            3 => format!("0b{n:b}"),
            _ => format!("{n}"),
        };
        self.say(&s);
        if n > 65_535 {
            return;
        }
        self.indicator();
    }

    fn quoted(&mut self, q: &str) {
        self.say(q);
        for _ in 0..self.rng.length() {
            let other = if q == "'" { "\"" } else { "'" };
            #[rustfmt::skip]
            let s = self.rng.pick(&[
                "a", "b", "Z", "0", " ", "\\\\", "\\/", "\\b", "\\f", "\\n", "\\r", "\\t", "\\u0000", "\\u00Fc", "\\u6c34", "\\ud83d\\ude00", "ü", "水", "\u{1f600}",
                "\u{7f}", "/", "#", other,
            ]);
            self.say(s);
            if self.rng.once(12) {
                self.say("\\");
                self.say(q);
            }
        }
        self.say(q);
    }

    fn hex(&mut self) {
        let n = self.rng.length();
        self.hex_of(n);
    }

    pub fn hex_of(&mut self, n: usize) {
        self.say("h'");
        let gaps = self.rng.once(3);
        for _ in 0..2 * n {
            if gaps {
                self.hex_gap();
            }
            let d = *self.rng.pick(&[&b'0', &b'1', &b'7', &b'9', &b'a', &b'f', &b'A', &b'F']);
            self.out.push(d);
        }
        if gaps {
            self.hex_gap();
        }
        self.say("'");
    }

    fn hex_gap(&mut self) {
        if self.rng.once(6) {
            let g = self.rng.pick(&[" ", "\n", "/x/", "#0\n", "\t", "\r", "/0ü/"]);
            self.say(g);
        }
    }

    fn base64(&mut self) {
        const LETTERS: &[u8] = b"ABCDEFGHIJKLMNOPQRSTUVWXYZabcdefghijklmnopqrstuvwxyz0123456789+/-_";
        self.say("b64'");
        let n = self.rng.length();
        for _ in 0..n / 3 * 4 {
            let l = LETTERS[self.rng.below(LETTERS.len())];
            self.out.push(l);
            if self.rng.once(9) {
                self.say(" ");
            }
        }
        let end = match n % 3 {
            0 => "",
            1 => self.rng.pick(&["AQ", "AQ==", "_w", "-g= =", "Ag == "]),
            _ => self.rng.pick(&["AQI", "AQI=", "//8", "__8 ="]),
        };
        self.say(end);
        self.say("'");
    }

    fn byte_string(&mut self) {
        match self.rng.below(4) {
            0 => self.quoted("'"),
            1 => self.base64(),
            _ => self.hex(),
        }
    }

    fn comma(&mut self) {
        self.gap();
        self.say(",");
        self.gap();
    }

    fn full(&self) -> bool {
        self.out.len() >= self.most
    }

    fn count(&mut self, width: usize) -> usize {
        if self.full() {
            0
        } else if self.rng.once(80) {
            22 + self.rng.below(5)
        } else {
            self.rng.below(width + 1)
        }
    }

    /// One item with at most `levels` levels in it; `depth` makes it deep.
    pub fn item(&mut self, levels: usize, width: usize) {
        let kind = if levels == 0 || self.full() { self.rng.below(7) } else { self.rng.below(16) };
        match kind {
            0 | 1 => self.integer(),
            2 => {
                self.quoted("\"");
                self.indicator();
            }
            3 => {
                self.byte_string();
                self.indicator();
            }
            4 => {
                let w = self.rng.pick(&["true", "false", "null", "undefined", "simple(0)", "simple(22)", "simple(32)", "simple(255)"]);
                self.say(w);
            }
            5 => {
                let s = self.rng.pick(&["''_", "\"\"_"]);
                self.say(s);
            }
            6 => self.chunks(),
            7..=9 => {
                self.say("[");
                let indefinite = self.rng.once(4);
                if indefinite {
                    self.say("_ ");
                } else {
                    self.indicator();
                    self.say(" ");
                }
                self.gap();
                let n = self.count(width);
                for i in 0..n {
                    if i > 0 {
                        self.comma();
                    }
                    self.item(levels - 1, width);
                }
                self.gap();
                self.say("]");
            }
            10 | 11 => {
                self.say("{");
                if self.rng.once(4) {
                    self.say("_ ");
                } else {
                    self.indicator();
                    self.say(" ");
                }
                self.gap();
                let n = self.count(width);
                for i in 0..n {
                    if i > 0 {
                        self.comma();
                    }
                    self.item(levels - 1, 2);
                    self.gap();
                    self.say(":");
                    self.gap();
                    self.item(levels - 1, width);
                }
                self.gap();
                self.say("}");
            }
            12 => {
                let n = self.rng.number();
                let n = if (64..=87).contains(&n) { 5 } else { n };
                self.say(&n.to_string());
                if n < 65_536 {
                    self.indicator();
                }
                self.say("(");
                self.gap();
                self.item(levels - 1, width);
                self.gap();
                self.say(")");
            }
            13 => self.typed(levels),
            _ => {
                self.say("<<");
                self.gap();
                let n = self.count(width);
                for i in 0..n {
                    if i > 0 {
                        self.comma();
                    }
                    self.item(levels - 1, width);
                }
                self.gap();
                self.say(">>");
                self.indicator();
            }
        }
    }

    fn chunks(&mut self) {
        self.say("(_ ");
        let text = self.rng.once(2);
        for i in 0..=self.rng.below(4) {
            if i > 0 {
                self.comma();
            }
            if text ^ (!self.clean && self.rng.once(40)) {
                self.quoted("\"");
            } else {
                self.byte_string();
            }
            self.indicator();
        }
        self.gap();
        self.say(")");
    }

    fn typed(&mut self, levels: usize) {
        let tag = 60 + self.rng.below(32);
        if self.clean {
            // content of a length that every element size divides
            let tag = if tag == 76 { 75 } else { tag };
            self.say(&tag.to_string());
            self.say("(");
            let n = self.rng.below(3);
            if self.rng.once(3) {
                self.say("(_ ");
                self.hex_of(16 * n + 3);
                self.say(", ");
                self.hex_of(13);
                self.say(")");
            } else {
                self.hex_of(16 * n);
            }
            self.say(")");
            return;
        }
        self.say(&tag.to_string());
        self.indicator();
        self.say("(");
        self.gap();
        match self.rng.below(5) {
            0 => self.item(levels - 1, 2),
            1 => self.chunks(),
            2 => {
                self.say("<<");
                self.integer();
                self.say(">>");
            }
            _ => {
                let n = self.rng.below(5) * (1 << self.rng.below(5));
                self.hex_of(n);
            }
        }
        self.gap();
        self.say(")");
    }

    pub fn sheet(&mut self, levels: usize, width: usize) {
        self.gap();
        let n = self.rng.below(width + 1);
        for i in 0..n {
            if i > 0 {
                self.comma();
            }
            self.item(levels, width);
        }
        self.gap();
    }

    /// Opens containers until `depth` is reached, with an item inside, and closes them.
    pub fn deep(&mut self, depth: usize) {
        let mut closers = Vec::new();
        for _ in 0..depth {
            let (open, close) = match self.rng.below(6) {
                0 => ("[", "]"),
                1 => ("[_ 1, ", "]"),
                2 => ("{1: ", "}"),
                3 => ("{_ \"k\": ", ", 2: 3}"),
                4 => ("1(", ")"),
                _ => ("<<", ">>"),
            };
            self.say(open);
            closers.push(close);
        }
        self.item(1, 2);
        while let Some(c) = closers.pop() {
            self.say(c);
        }
    }
}

pub fn text(rng: &mut Rng, clean: bool, most: usize) -> Vec<u8> {
    let mut t = Text { rng, out: Vec::new(), clean, most };
    match t.rng.below(8) {
        0 => {
            let depth = 12 + t.rng.below(7);
            t.deep(depth);
        }
        1 => t.sheet(16, 2),
        _ => t.sheet(4, 4),
    }
    t.out
}

pub fn item_text(rng: &mut Rng, clean: bool, levels: usize) -> Vec<u8> {
    let mut t = Text { rng, out: Vec::new(), clean, most: 300 };
    let levels = t.rng.below(levels + 1);
    t.item(levels, 3);
    t.out
}

/// The text of a correction of bytes, and how many of them are said to be used; good or bad.
pub fn correction(rng: &mut Rng, length: usize) -> (Vec<u8>, usize) {
    let mut text = if rng.once(6) { soup(rng) } else { item_text(rng, false, 3) };
    if rng.once(6) {
        damage(rng, &mut text, true);
    }
    let used = match rng.below(30) {
        0 => rng.below(length + 1),
        1 => length + 1 + rng.below(40),
        _ => length,
    };
    (text, used)
}

/// Pieces of tokens in any order, or in the places of a frame.
pub fn soup(rng: &mut Rng) -> Vec<u8> {
    #[rustfmt::skip]
    const FRAMES: &[&str] = &["$,$", "[$,$]", "[_ $]", "[_i$ ]", "{$:$}", "{_ $:$,$:$}", "(_ $,$)", "(_ $,$,$)", "(_$)", "<<$,$>>$", "<<$>>$", "65($)", "$($)", "[[$],$]", "$ $", "$$", "[$$]"];
    #[rustfmt::skip]
    const GOOD: &[&str] = &["1", "-24", "0xff", "24_0", "\"a\"", "'a'", "h'0102'", "b64'AQI'", "''_", "\"\"_", "true", "simple(32)", "[]", "{}", "[_ ]", "<<1>>", "1(2)", "65(h'0102')", "(_ 'a')"];
    let mut out = Vec::new();
    let frame = if rng.once(4) { "$$$$$$" } else { rng.pick(FRAMES) };
    for c in frame.bytes() {
        if c != b'$' {
            out.push(c);
            continue;
        }
        let s = if rng.once(2) { rng.pick(GOOD) } else { rng.pick(PIECES) };
        out.extend_from_slice(s.as_bytes());
        if rng.once(8) {
            out.push(b' ');
        }
    }
    out
}

/// Something changed that should not have been.
pub fn damage(rng: &mut Rng, s: &mut Vec<u8>, textual: bool) {
    for _ in 0..=rng.below(2) {
        let at = rng.below(s.len() + 1);
        let end = (at + 1 + rng.below(6)).min(s.len());
        match rng.below(8) {
            0 => {
                if at < s.len() {
                    s[at] ^= 1 << rng.below(8);
                }
            }
            1 => s.insert(at, rng.next() as u8),
            2 => {
                s.drain(at..end);
            }
            3 => {
                let part = s[at..end].to_vec();
                let to = rng.below(s.len() + 1);
                s.splice(to..to, part);
            }
            4 => s.truncate(at),
            5 if textual => {
                let p = rng.pick(PIECES);
                s.splice(at..at, p.bytes());
            }
            6 if textual => {
                let p = rng.pick(PIECES);
                s.splice(at..end, p.bytes());
            }
            _ => {
                if at < s.len() {
                    s[at] = *rng.pick(&[
                        &0xff, &0x00, &0x1f, &0x5f, &0x7f, &0x9f, &0xbf, &0xf8, &0xf9, &0x1c, &0xdf, &0x80, &0xc2, &b'\'', &b'"', &b'/',
                        &b',',
                    ]);
                }
            }
        }
    }
}

// ----------------------------------------------------------------------------------------------------------------------------- bytes

pub struct Bytes<'r> {
    pub rng: &'r mut Rng,
    pub out: Vec<u8>,
    pub clean: bool,
    pub most: usize,
}

impl Bytes<'_> {
    pub fn head(&mut self, major: u8, n: u64) {
        let least = match n {
            0..=23 => 0,
            24..=0xff => 1,
            0x100..=0xffff => 2,
            0x1_0000..=0xffff_ffff => 3,
            _ => 4,
        };
        let width = if self.rng.once(8) { least + self.rng.below(5 - least) } else { least };
        let m = major << 5;
        match width {
            0 => self.out.push(m | n as u8),
            w => {
                self.out.push(m | (23 + w as u8));
                let b = n.to_be_bytes();
                self.out.extend_from_slice(&b[8 - (1 << (w - 1))..]);
            }
        }
    }

    fn string(&mut self, major: u8, n: usize) {
        self.head(major, n as u64);
        for _ in 0..n {
            let b =
                if major == 3 { *self.rng.pick(&[&b'a', &b'"', &b'\\', &0x00, &0x1f, &0x7f, &b' ', &b'z']) } else { self.rng.next() as u8 };
            self.out.push(b);
        }
        if major == 3 && n >= 4 && self.rng.once(2) {
            let at = self.out.len() - 4;
            let s = self.rng.pick(&["a水", "ü\u{b}b", "\u{1f600}", "öß"]);
            self.out[at..].copy_from_slice(s.as_bytes());
        }
        if major == 3 && n > 0 && !self.clean && self.rng.once(30) {
            *self.out.last_mut().unwrap() = 0xc3;
        }
    }

    pub fn item(&mut self, levels: usize, width: usize) {
        let full = self.out.len() >= self.most;
        let kind = if levels == 0 || full { self.rng.below(8) } else { self.rng.below(16) };
        match kind {
            0 | 1 => {
                let n = self.rng.number();
                let m = self.rng.below(2) as u8;
                self.head(m, n);
            }
            2 | 3 => {
                let n = self.rng.length();
                self.string(kind as u8, n);
            }
            4 => {
                let m = 2 + self.rng.below(2) as u8;
                self.chunks(m);
            }
            5 => self.out.push(0xe0 | self.rng.below(24) as u8),
            6 => {
                let n = 32 + self.rng.below(224) as u8;
                self.out.extend_from_slice(&[0xf8, n]);
            }
            7 => {
                if !self.clean && self.rng.once(6) {
                    #[rustfmt::skip]
                    let bad: &[u8] = self.rng.pick(&[
                        &[0xf9, 0, 0][..], &[0xfa, 1, 2, 3, 4], &[0xfb, 0, 0, 0, 0, 0, 0, 0, 0], &[0xf8, 0x18], &[0xff], &[0x1c], &[0x1f], &[0x3f], &[0xdf], &[0xfc],
                        &[0x9b, 0xff, 0xff, 0xff, 0xff, 0xff, 0xff, 0xff, 0xff], &[0xbb, 0x80, 0, 0, 0, 0, 0, 0, 0], &[0x5b, 0xff, 0xff, 0xff, 0xff, 0xff, 0xff, 0xff, 0xff],
                        &[0x7a, 0, 1, 0, 0], &[0x5f, 0x61, 0x61, 0xff], &[0x7f, 0x7f, 0xff, 0xff], &[0xbf, 0x01, 0xff],
                    ]);
                    self.out.extend_from_slice(bad);
                } else {
                    self.out.push(0xf5);
                }
            }
            8..=12 => {
                let map = kind >= 11;
                let m = 4 + map as u8;
                let n = if self.rng.once(60) { 22 + self.rng.below(5) } else { self.rng.below(width + 1) };
                let indefinite = self.rng.once(3);
                if indefinite {
                    self.out.push(m << 5 | 31);
                } else {
                    self.head(m, n as u64);
                }
                for _ in 0..n {
                    if map {
                        self.item(levels - 1, 2);
                    }
                    self.item(levels - 1, width);
                }
                if indefinite {
                    self.out.push(0xff);
                }
            }
            13 => {
                let n = self.rng.number();
                let n = if (64..=87).contains(&n) { 5 } else { n };
                self.head(6, n);
                self.item(levels - 1, width);
            }
            _ => {
                let tag = 60 + self.rng.below(32) as u64;
                if self.clean {
                    let tag = if tag == 76 { 75 } else { tag };
                    self.head(6, tag);
                    let n = 16 * self.rng.below(3);
                    self.string(2, n);
                } else {
                    self.head(6, tag);
                    match self.rng.below(4) {
                        0 => self.item(levels - 1, 2),
                        1 => self.chunks(2),
                        _ => {
                            let n = self.rng.below(5) * (1 << self.rng.below(5));
                            self.string(2, n);
                        }
                    }
                }
            }
        }
    }

    fn chunks(&mut self, major: u8) {
        self.out.push(major << 5 | 31);
        for _ in 0..self.rng.below(4) {
            let n = self.rng.below(6);
            self.string(major, n);
        }
        self.out.push(0xff);
    }

    pub fn deep(&mut self, depth: usize) {
        let mut breaks = Vec::new();
        for _ in 0..depth {
            match self.rng.below(5) {
                0 => self.out.push(0x81),
                1 => {
                    self.out.extend_from_slice(&[0x9f, 0x01]);
                    breaks.push(0xff);
                }
                2 => self.out.extend_from_slice(&[0xa1, 0x05]),
                3 => {
                    self.out.extend_from_slice(&[0xbf, 0x60]);
                    breaks.push(0xff);
                }
                _ => self.out.push(0xc1),
            }
        }
        self.item(1, 2);
        self.out.extend_from_slice(&breaks);
    }
}

pub fn bytes(rng: &mut Rng, clean: bool, most: usize) -> Vec<u8> {
    let mut b = Bytes { rng, out: Vec::new(), clean, most };
    match b.rng.below(8) {
        0 => {
            let depth = 12 + b.rng.below(7);
            b.deep(depth);
        }
        1 => b.item(16, 2),
        _ => {
            for _ in 0..b.rng.below(5) {
                b.item(4, 4);
            }
        }
    }
    b.out
}

/// Bytes with no plan at all.
pub fn noise(rng: &mut Rng, most: usize) -> Vec<u8> {
    let n = rng.below(most);
    (0..n).map(|_| rng.next() as u8).collect()
}

/// A path: small steps, now and then a wild one.
pub fn path(rng: &mut Rng) -> Vec<u16> {
    let n = if rng.once(12) { rng.below(20) } else { rng.below(5) };
    (0..n).map(|_| if rng.once(30) { rng.next() as u16 } else { rng.below(4).min(rng.below(4)) as u16 }).collect()
}

// ------------------------------------------------------------------------------------------------------------------------- long ones

/// A text near the limit of 65,535 bytes, or one whose bytes are near it.
pub fn long_text(rng: &mut Rng) -> Vec<u8> {
    let mut out = Vec::new();
    let want = match rng.below(3) {
        0 => 65_535 - 3 + rng.below(6),
        1 => 30_000 + rng.below(35_000),
        _ => 1_000 + rng.below(64_000),
    };
    let part: Vec<u8> = match rng.below(8) {
        0 => b"0".to_vec(),
        1 => b"0_3".to_vec(),
        2 => b"[]".to_vec(),
        3 => b"\"abcdefghijklmnop\"".to_vec(),
        4 => {
            let mut p = Vec::new();
            while p.is_empty() {
                p = item_text(rng, true, 8);
            }
            p
        }
        5 => b"h'00112233445566778899aabbccddeeff'".to_vec(),
        6 => b"{1: 2, 3: [4, 5]}".to_vec(),
        _ => b"64(h'01')".to_vec(),
    };
    let depth = rng.below(17);
    let (mut open, mut close) = (Vec::new(), Vec::new());
    for _ in 0..depth {
        let (o, c): (&str, &str) = match rng.below(5) {
            0 => ("[", "]"),
            1 => ("[_ ", "]"),
            2 => ("[_2 ", "]"),
            3 => ("<<", ">>_2"),
            _ => ("<<", ">>"),
        };
        open.extend_from_slice(o.as_bytes());
        close.splice(0..0, c.bytes());
    }
    out.extend_from_slice(&open);
    if rng.once(5) {
        // one long string instead of many items
        let (o, fill, c) =
            [("\"", "x", "\""), ("'", "\\n", "'"), ("h'", "0f", "'"), ("b64'", "AAAA", "'"), ("/", "c", "/ 1")][rng.below(5)];
        out.extend_from_slice(o.as_bytes());
        while out.len() + close.len() + fill.len() + c.len() <= want {
            out.extend_from_slice(fill.as_bytes());
        }
        out.extend_from_slice(c.as_bytes());
    } else {
        out.extend_from_slice(&part);
        while out.len() + close.len() + part.len() < want {
            out.push(b',');
            out.extend_from_slice(&part);
        }
    }
    out.extend_from_slice(&close);
    while out.len() < want {
        out.push(b' ');
    }
    if rng.once(4) {
        damage(rng, &mut out, true);
    }
    out
}

/// Bytes near the limit, or whose text is near it.
pub fn long_bytes(rng: &mut Rng) -> Vec<u8> {
    let want = match rng.below(3) {
        0 => 65_535 - 3 + rng.below(6),
        1 => 18_000 + rng.below(20_000),
        _ => 1_000 + rng.below(64_000),
    };
    let part: Vec<u8> = match rng.below(7) {
        0 => vec![0x00],
        1 => vec![0x1b, 0, 0, 0, 0, 0, 0, 0, 1],
        2 => vec![0x80],
        3 => vec![0xf8, 0x20],
        4 => {
            let mut b = Bytes { rng, out: Vec::new(), clean: true, most: 200 };
            b.item(6, 3);
            b.out
        }
        5 => vec![0x64, b'a', b'"', 0x01, b'z'],
        _ => vec![0xd8, 0x40, 0x41, 0x07],
    };
    let depth = rng.below(17);
    let mut out = vec![0x9f; depth];
    if rng.once(5) {
        let n = want - depth.min(want) - 3;
        let major = 2 + rng.below(2) as u8;
        out.push(major << 5 | 25);
        out.extend_from_slice(&(n.min(65_535) as u16).to_be_bytes());
        out.resize(out.len() + n, b'x');
    } else {
        while out.len() + depth + part.len() <= want {
            out.extend_from_slice(&part);
        }
    }
    out.extend(std::iter::repeat_n(0xff, depth));
    if rng.once(4) {
        damage(rng, &mut out, false);
    }
    out
}
