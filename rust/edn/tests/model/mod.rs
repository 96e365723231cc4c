//! The four operations once more, in plain Rust, written from the customer's document and from nothing else: what the library answers
//! is held against this. It shares no code and no definition with the library.
#![allow(dead_code)]

/// The most bytes that a text, a sheet or a result may have.
pub const MOST: usize = 65_535;
/// The most levels of arrays, maps, tags and `<<`.
pub const LEVELS: usize = 16;

#[derive(Clone, Copy, Debug, PartialEq, Eq)]
pub struct Refusal {
    pub number: u8,
    pub place: usize,
}

pub type Answer<T> = Result<T, Refusal>;

fn refuse<T>(number: u8, place: usize) -> Answer<T> {
    Err(Refusal { number, place })
}

// ---------------------------------------------------------------------------------------------------------------------------- tokens

#[derive(Clone, Copy, Debug, PartialEq, Eq)]
enum Indicator {
    Absent,
    /// `_i`: 0 to 23 in the head itself.
    Small,
    /// `_0` to `_3`: additional information 24 to 27.
    Wide(u8),
    /// `_` alone.
    Indefinite,
    Unknown,
}

#[derive(Debug)]
enum Kind {
    Array(Indicator),
    Map(Indicator),
    Tag(u64, Indicator),
    EmbedOpen,
    EmbedClose(Indicator),
    ChunkOpen,
    CloseArray,
    CloseMap,
    CloseParen,
    Comma,
    Colon,
    Integer { negative: bool, argument: u64, indicator: Indicator },
    Text(Vec<u8>, Indicator),
    Bytes(Vec<u8>, Indicator),
    Simple(u8),
    End,
}

#[derive(Debug)]
struct Token {
    start: usize,
    kind: Kind,
}

fn is_blank(b: u8) -> bool {
    matches!(b, 0x09 | 0x0a | 0x0d | 0x20)
}

/// The additional information that a head with this argument and indicator has, if the indicator allows it.
fn information(indicator: Indicator, argument: u64) -> Option<u8> {
    let least = match argument {
        0..=23 => argument as u8,
        24..=0xff => 24,
        0x100..=0xffff => 25,
        0x1_0000..=0xffff_ffff => 26,
        _ => 27,
    };
    match indicator {
        Indicator::Absent => Some(least),
        Indicator::Small => (least < 24).then_some(least),
        Indicator::Wide(w) => (least < 24 || least <= 24 + w).then_some(24 + w),
        Indicator::Indefinite | Indicator::Unknown => None,
    }
}

/// A head as bytes, and how many of them count.
fn head(major: u8, info: u8, argument: u64) -> ([u8; 9], usize) {
    let mut h = [0u8; 9];
    h[0] = major << 5 | info;
    let n = match info {
        24 => 1,
        25 => 2,
        26 => 4,
        27 => 8,
        _ => 0,
    };
    h[1..1 + n].copy_from_slice(&argument.to_be_bytes()[8 - n..]);
    (h, 1 + n)
}

struct Reader<'a> {
    text: &'a [u8],
    at: usize,
    depth: usize,
    out: Vec<u8>,
    /// Where items stand: kept only when asked for.
    spans: Option<Vec<Span>>,
    path: Vec<u16>,
    /// Keys, tags, `<<` and strings are not entered by a path: above 0 inside one of them.
    hidden: usize,
}

/// An item of a text that a path reaches.
#[derive(Clone, Debug, PartialEq, Eq)]
pub struct Span {
    pub start: usize,
    pub end: usize,
    pub path: Vec<u16>,
}

/// What a tag wants to know of its content: the length, if it is a byte string.
type StringLength = Option<u64>;

impl<'a> Reader<'a> {
    fn new(text: &'a [u8], depth: usize) -> Self {
        Reader { text, at: 0, depth, out: Vec::new(), spans: None, path: Vec::new(), hidden: 0 }
    }

    fn byte(&self, i: usize) -> Option<u8> {
        self.text.get(i).copied()
    }

    /// The end of the comment that starts at `start`.
    fn comment(&self, start: usize) -> Answer<usize> {
        let ends_at = if self.text[start] == b'/' { b'/' } else { b'\n' };
        let mut i = start + 1;
        while let Some(b) = self.byte(i) {
            if b == ends_at {
                return Ok(i + 1);
            }
            if b < 0x20 && !is_blank(b) {
                break;
            }
            i += 1;
        }
        refuse(3, start)
    }

    fn skip(&mut self) -> Answer<()> {
        while let Some(b) = self.byte(self.at) {
            if is_blank(b) {
                self.at += 1;
            } else if b == b'/' || b == b'#' {
                self.at = self.comment(self.at)?;
            } else {
                break;
            }
        }
        Ok(())
    }

    fn run(&self, from: usize, ok: impl Fn(u8) -> bool) -> usize {
        let mut i = from;
        while self.byte(i).is_some_and(&ok) {
            i += 1;
        }
        i
    }

    fn indicator(&mut self) -> Indicator {
        if self.byte(self.at) != Some(b'_') {
            return Indicator::Absent;
        }
        let from = self.at + 1;
        self.at = self.run(from, |b| b.is_ascii_alphanumeric());
        match &self.text[from..self.at] {
            b"" => Indicator::Indefinite,
            b"i" => Indicator::Small,
            [d @ b'0'..=b'3'] => Indicator::Wide(d - b'0'),
            _ => Indicator::Unknown,
        }
    }

    /// The next token, with every refusal from 3 to 10 that it earns by itself.
    fn next(&mut self) -> Answer<Token> {
        self.skip()?;
        let start = self.at;
        let kind = self.cut()?;
        let bad = match &kind {
            Kind::Array(i) | Kind::Map(i) => *i == Indicator::Unknown,
            Kind::Tag(n, i) => information(*i, *n).is_none(),
            Kind::Integer { argument, indicator, .. } => information(*indicator, *argument).is_none(),
            Kind::Text(s, i) | Kind::Bytes(s, i) => match i {
                // only the bare quotes: h'' and b64'' have a prefix, and any escape makes a byte
                Indicator::Indefinite => !s.is_empty() || !matches!(self.text[start], b'"' | b'\''),
                _ => information(*i, s.len() as u64).is_none(),
            },
            _ => false,
        };
        if bad {
            return refuse(9, start);
        }
        let opens = matches!(kind, Kind::Array(_) | Kind::Map(_) | Kind::Tag(..) | Kind::EmbedOpen);
        if opens && self.depth >= LEVELS {
            return refuse(10, start);
        }
        Ok(Token { start, kind })
    }

    fn cut(&mut self) -> Answer<Kind> {
        let start = self.at;
        let Some(b) = self.byte(start) else { return Ok(Kind::End) };
        let second = self.byte(start + 1);
        let mut one = |k| {
            self.at += 1;
            Ok(k)
        };
        match b {
            b']' => one(Kind::CloseArray),
            b'}' => one(Kind::CloseMap),
            b')' => one(Kind::CloseParen),
            b',' => one(Kind::Comma),
            b':' => one(Kind::Colon),
            b'[' => {
                self.at += 1;
                Ok(Kind::Array(self.indicator()))
            }
            b'{' => {
                self.at += 1;
                Ok(Kind::Map(self.indicator()))
            }
            b'<' if second == Some(b'<') => {
                self.at += 2;
                Ok(Kind::EmbedOpen)
            }
            b'>' if second == Some(b'>') => {
                self.at += 2;
                Ok(Kind::EmbedClose(self.indicator()))
            }
            b'(' if second == Some(b'_') => {
                self.at += 2;
                Ok(Kind::ChunkOpen)
            }
            b'"' | b'\'' => {
                let s = self.quoted()?;
                let i = self.indicator();
                Ok(if b == b'"' { Kind::Text(s, i) } else { Kind::Bytes(s, i) })
            }
            b'.' => {
                if self.run(start, |b| b == b'.') - start >= 3 {
                    refuse(5, start)
                } else {
                    refuse(3, start)
                }
            }
            b'-' | b'0'..=b'9' => self.number(),
            _ if b.is_ascii_alphabetic() => self.word(),
            _ => refuse(3, start),
        }
    }

    fn number(&mut self) -> Answer<Kind> {
        let start = self.at;
        let negative = self.text[start] == b'-';
        let digits = start + negative as usize;
        if negative && self.text[digits..].starts_with(b"Infinity") {
            return refuse(6, start);
        }
        let decimals = self.run(digits, |b| b.is_ascii_digit());
        if decimals == digits {
            return refuse(3, start);
        }
        if matches!(self.byte(decimals), Some(b'.' | b'e' | b'E')) {
            return refuse(6, start);
        }
        // the base, where the first digit stands, and the end
        let mut base = 10;
        let (mut from, mut end) = (digits, decimals);
        if self.text[digits] == b'0' {
            end = digits + 1;
            let (b, ok): (u64, fn(u8) -> bool) = match self.byte(digits + 1) {
                Some(b'x') => (16, |b| b.is_ascii_hexdigit()),
                Some(b'o') => (8, |b| (b'0'..=b'7').contains(&b)),
                Some(b'b') => (2, |b| b == b'0' || b == b'1'),
                _ => (10, |_| false),
            };
            let e = self.run(digits + 2, ok);
            if b != 10 && e > digits + 2 {
                base = b;
                from = digits + 2;
                end = e;
                if base == 16 && matches!(self.byte(end), Some(b'.' | b'p' | b'P')) {
                    return refuse(6, start);
                }
            }
        }
        let mut value: u128 = 0;
        for &d in &self.text[from..end] {
            let d = (d as char).to_digit(16).unwrap() as u128;
            value = (value * base as u128 + d).min(1 << 66);
        }
        if negative && value == 0 {
            return refuse(3, start);
        }
        self.at = end;
        let indicator = self.indicator();
        let tag = !negative && base == 10 && self.byte(self.at) == Some(b'(');
        let argument = if negative { value - 1 } else { value };
        let Ok(argument) = u64::try_from(argument) else { return refuse(7, start) };
        if tag {
            self.at += 1;
            return Ok(Kind::Tag(argument, indicator));
        }
        Ok(Kind::Integer { negative, argument, indicator })
    }

    fn word(&mut self) -> Answer<Kind> {
        let start = self.at;
        let end = self.run(start, |b| b.is_ascii_alphanumeric());
        let word = &self.text[start..end];
        let quote = self.byte(end) == Some(b'\'');
        if word == b"NaN" || word == b"Infinity" {
            return refuse(6, start);
        }
        if quote {
            let content = end + 1;
            let decode: fn(&[u8]) -> Option<Vec<u8>> = match word {
                b"h" => hexadecimal,
                b"b64" => base64,
                _ => return refuse(4, start),
            };
            let close = self.run(content, |b| b != b'\'' && b != b'\\' && (b >= 0x20 || is_blank(b)));
            if self.byte(close) != Some(b'\'') {
                return refuse(3, start);
            }
            let Some(bytes) = decode(&self.text[content..close]) else { return refuse(8, start) };
            self.at = close + 1;
            return Ok(Kind::Bytes(bytes, self.indicator()));
        }
        if word == b"simple" && self.byte(end) == Some(b'(') {
            let from = end + 1;
            let to = self.run(from, |b| b.is_ascii_digit());
            let digits = &self.text[from..to];
            if !digits.is_empty() && (digits.len() == 1 || digits[0] != b'0') && self.byte(to) == Some(b')') {
                let n = digits.iter().fold(0u32, |n, d| (n * 10 + (d - b'0') as u32).min(1000));
                if !(n <= 23 || (32..=255).contains(&n)) {
                    return refuse(8, start);
                }
                self.at = to + 1;
                return Ok(Kind::Simple(n as u8));
            }
        }
        self.at = end;
        Ok(Kind::Simple(match word {
            b"false" => 20,
            b"true" => 21,
            b"null" => 22,
            b"undefined" => 23,
            _ => return refuse(4, start),
        }))
    }

    fn quoted(&mut self) -> Answer<Vec<u8>> {
        let start = self.at;
        match self.unquote() {
            Some(s) => Ok(s),
            None => refuse(3, start),
        }
    }

    fn unquote(&mut self) -> Option<Vec<u8>> {
        let quote = self.text[self.at];
        let mut out = Vec::new();
        let mut i = self.at + 1;
        loop {
            let b = self.byte(i)?;
            i += 1;
            if b == quote {
                self.at = i;
                return Some(out);
            }
            if b < 0x20 {
                return None;
            }
            if b != b'\\' {
                out.push(b);
                continue;
            }
            let e = self.byte(i)?;
            i += 1;
            match e {
                b'\\' | b'/' => out.push(e),
                b'b' => out.push(8),
                b'f' => out.push(12),
                b'n' => out.push(10),
                b'r' => out.push(13),
                b't' => out.push(9),
                b'u' => {
                    let unit = self.four(i)?;
                    i += 4;
                    let c = match unit {
                        0xd800..=0xdbff => {
                            if self.byte(i)? != b'\\' || self.byte(i + 1)? != b'u' {
                                return None;
                            }
                            let low = self.four(i + 2)?;
                            i += 6;
                            if !(0xdc00..=0xdfff).contains(&low) {
                                return None;
                            }
                            0x1_0000 + (unit - 0xd800) * 0x400 + (low - 0xdc00)
                        }
                        _ => unit,
                    };
                    let c = char::from_u32(c)?;
                    out.extend_from_slice(c.encode_utf8(&mut [0; 4]).as_bytes());
                }
                _ if e == quote => out.push(e),
                _ => return None,
            }
        }
    }

    fn four(&self, i: usize) -> Option<u32> {
        let mut n = 0;
        for &d in self.text.get(i..i + 4)? {
            n = n * 16 + (d as char).to_digit(16)?;
        }
        Some(n)
    }

    // ------------------------------------------------------------------------------------------------------------------------ form

    fn unexpected<T>(&self, t: &Token) -> Answer<T> {
        if let Kind::EmbedClose(Indicator::Unknown | Indicator::Indefinite) = t.kind {
            return refuse(9, t.start);
        }
        refuse(11, t.start)
    }

    fn emit(&mut self, major: u8, info: u8, argument: u64) {
        let (h, n) = head(major, info, argument);
        self.out.extend_from_slice(&h[..n]);
    }

    /// Puts the head of a finished container before what it holds.
    fn close(&mut self, major: u8, indicator: Indicator, argument: u64, body: usize, opening: usize) -> Answer<()> {
        if indicator == Indicator::Indefinite {
            self.out.insert(body, major << 5 | 31);
            self.out.push(0xff);
            return Ok(());
        }
        let Some(info) = information(indicator, argument) else { return refuse(9, opening) };
        let (h, n) = head(major, info, argument);
        self.out.splice(body..body, h[..n].iter().copied());
        Ok(())
    }

    fn string(&mut self, major: u8, s: &[u8], indicator: Indicator) -> StringLength {
        match information(indicator, s.len() as u64) {
            Some(info) => {
                self.emit(major, info, s.len() as u64);
                self.out.extend_from_slice(s);
            }
            None => self.out.extend_from_slice(&[major << 5 | 31, 0xff]),
        }
        (major == 2).then_some(s.len() as u64)
    }

    /// An item of the text that may stand at the end of a path.
    fn placed(&mut self, t: Token, index: usize) -> Answer<()> {
        let start = t.start;
        if self.spans.is_none() || self.hidden > 0 {
            self.item(t)?;
            return Ok(());
        }
        self.path.push(index as u16);
        self.item(t)?;
        let span = Span { start, end: self.at, path: self.path.clone() };
        self.spans.as_mut().unwrap().push(span);
        self.path.pop();
        Ok(())
    }

    fn concealed(&mut self, t: Token) -> Answer<StringLength> {
        self.hidden += 1;
        let r = self.item(t);
        self.hidden -= 1;
        r
    }

    fn item(&mut self, t: Token) -> Answer<StringLength> {
        let body = self.out.len();
        match t.kind {
            Kind::Integer { negative, argument, indicator } => {
                let info = information(indicator, argument).unwrap();
                self.emit(negative as u8, info, argument);
                Ok(None)
            }
            Kind::Text(s, i) => Ok(self.string(3, &s, i)),
            Kind::Bytes(s, i) => Ok(self.string(2, &s, i)),
            Kind::Simple(n) => {
                self.emit(7, if n < 24 { n } else { 24 }, n as u64);
                Ok(None)
            }
            Kind::Array(i) => {
                self.depth += 1;
                let mut count = 0;
                let mut t2 = self.next()?;
                if !matches!(t2.kind, Kind::CloseArray) {
                    loop {
                        self.placed(t2, count)?;
                        count += 1;
                        t2 = self.next()?;
                        match t2.kind {
                            Kind::Comma => t2 = self.next()?,
                            Kind::CloseArray => break,
                            _ => return self.unexpected(&t2),
                        }
                    }
                }
                self.depth -= 1;
                self.close(4, i, count as u64, body, t.start)?;
                Ok(None)
            }
            Kind::Map(i) => {
                self.depth += 1;
                let mut count = 0;
                let mut t2 = self.next()?;
                if !matches!(t2.kind, Kind::CloseMap) {
                    loop {
                        self.concealed(t2)?;
                        t2 = self.next()?;
                        if !matches!(t2.kind, Kind::Colon) {
                            return self.unexpected(&t2);
                        }
                        t2 = self.next()?;
                        self.placed(t2, count)?;
                        count += 1;
                        t2 = self.next()?;
                        match t2.kind {
                            Kind::Comma => t2 = self.next()?,
                            Kind::CloseMap => break,
                            _ => return self.unexpected(&t2),
                        }
                    }
                }
                self.depth -= 1;
                self.close(5, i, count as u64, body, t.start)?;
                Ok(None)
            }
            Kind::Tag(number, i) => {
                self.emit(6, information(i, number).unwrap(), number);
                self.depth += 1;
                let t2 = self.next()?;
                let content = self.concealed(t2)?;
                let t2 = self.next()?;
                if !matches!(t2.kind, Kind::CloseParen) {
                    return self.unexpected(&t2);
                }
                self.depth -= 1;
                if !typed(number, content) {
                    return refuse(13, t.start);
                }
                Ok(None)
            }
            Kind::EmbedOpen => {
                self.depth += 1;
                self.hidden += 1;
                let mut t2 = self.next()?;
                let indicator;
                if let Kind::EmbedClose(i) = t2.kind {
                    indicator = i;
                } else {
                    loop {
                        self.item(t2)?;
                        t2 = self.next()?;
                        match t2.kind {
                            Kind::Comma => t2 = self.next()?,
                            Kind::EmbedClose(i) => {
                                indicator = i;
                                break;
                            }
                            _ => return self.unexpected(&t2),
                        }
                    }
                }
                self.depth -= 1;
                self.hidden -= 1;
                if indicator == Indicator::Indefinite {
                    return refuse(9, t.start);
                }
                let length = (self.out.len() - body) as u64;
                self.close(2, indicator, length, body, t.start)?;
                Ok(Some(length))
            }
            Kind::ChunkOpen => {
                let mut kind = None;
                let mut length = 0;
                loop {
                    let t2 = self.next()?;
                    let (major, s, i) = match t2.kind {
                        Kind::Text(s, i) => (3, s, i),
                        Kind::Bytes(s, i) => (2, s, i),
                        _ => return self.unexpected(&t2),
                    };
                    if i == Indicator::Indefinite {
                        return refuse(9, t2.start);
                    }
                    match kind {
                        None => {
                            kind = Some(major);
                            self.out.push(major << 5 | 31);
                        }
                        Some(k) if k != major => return refuse(12, t2.start),
                        _ => {}
                    }
                    length += s.len() as u64;
                    self.string(major, &s, i);
                    let t2 = self.next()?;
                    match t2.kind {
                        Kind::Comma => {}
                        Kind::CloseParen => break,
                        _ => return self.unexpected(&t2),
                    }
                }
                self.out.push(0xff);
                Ok((kind == Some(2)).then_some(length))
            }
            _ => self.unexpected(&t),
        }
    }

    fn sheet(&mut self) -> Answer<()> {
        let mut t = self.next()?;
        if matches!(t.kind, Kind::End) {
            return Ok(());
        }
        let mut count = 0;
        loop {
            self.placed(t, count)?;
            count += 1;
            t = self.next()?;
            match t.kind {
                Kind::End => return Ok(()),
                Kind::Comma => t = self.next()?,
                _ => return self.unexpected(&t),
            }
        }
    }

    /// The text of one item and nothing else.
    fn alone(&mut self) -> Answer<()> {
        self.bare()?;
        let t = self.next()?;
        self.item(t)?;
        if self.at == self.text.len() {
            return Ok(());
        }
        self.bare()?;
        let t = self.next()?;
        self.unexpected(&t)
    }

    /// Refuses a blank or a comment that stands here.
    fn bare(&self) -> Answer<()> {
        match self.byte(self.at) {
            Some(b) if is_blank(b) => refuse(11, self.at),
            Some(b'/' | b'#') => {
                self.comment(self.at)?;
                refuse(11, self.at)
            }
            _ => Ok(()),
        }
    }
}

/// The content of `h'..'`.
fn hexadecimal(s: &[u8]) -> Option<Vec<u8>> {
    let mut out = Vec::with_capacity(s.len() / 2);
    let mut high = None;
    let mut i = 0;
    while i < s.len() {
        let b = s[i];
        i += 1;
        if is_blank(b) {
            continue;
        }
        if b == b'/' || b == b'#' {
            let ends_at = if b == b'/' { b'/' } else { b'\n' };
            i += s[i..].iter().position(|&c| c == ends_at)? + 1;
            continue;
        }
        let d = (b as char).to_digit(16)? as u8;
        match high.take() {
            None => high = Some(d),
            Some(h) => out.push(h << 4 | d),
        }
    }
    high.is_none().then_some(out)
}

/// The content of `b64'..'`.
fn base64(s: &[u8]) -> Option<Vec<u8>> {
    let mut letters = 0;
    let mut padding = 0;
    let mut bits: u32 = 0;
    let mut held = 0;
    let mut out = Vec::with_capacity(s.len() * 3 / 4);
    for &b in s {
        if is_blank(b) {
            continue;
        }
        if b == b'=' {
            padding += 1;
            continue;
        }
        if padding > 0 {
            return None;
        }
        let v = match b {
            b'A'..=b'Z' => b - b'A',
            b'a'..=b'z' => b - b'a' + 26,
            b'0'..=b'9' => b - b'0' + 52,
            b'+' | b'-' => 62,
            b'/' | b'_' => 63,
            _ => return None,
        };
        letters += 1;
        bits = bits << 6 | v as u32;
        held += 6;
        if held >= 8 {
            held -= 8;
            out.push((bits >> held) as u8);
            bits &= (1 << held) - 1;
        }
    }
    let wanted = (4 - letters % 4) % 4;
    let ok = letters % 4 != 1 && bits == 0 && (padding == 0 || padding == wanted);
    ok.then_some(out)
}

/// The check of tags 64 to 87, given the length of the content if that is a byte string.
fn typed(tag: u64, content: StringLength) -> bool {
    if !(64..=87).contains(&tag) {
        return true;
    }
    let size = 1u64 << ((tag >> 4 & 1) + (tag & 3));
    tag != 76 && content.is_some_and(|n| n % size == 0)
}

fn utf8(text: &[u8]) -> Answer<()> {
    if text.len() > MOST {
        return refuse(1, 0);
    }
    match std::str::from_utf8(text) {
        Ok(_) => Ok(()),
        Err(e) => refuse(2, e.valid_up_to()),
    }
}

/// The bytes of a text, of any length.
pub fn encode(text: &[u8]) -> Answer<Vec<u8>> {
    utf8(text)?;
    let mut r = Reader::new(text, 0);
    r.sheet()?;
    Ok(r.out)
}

/// The bytes of the text of one item with `depth` levels around it.
pub fn encode_one(text: &[u8], depth: usize) -> Answer<Vec<u8>> {
    utf8(text)?;
    let mut r = Reader::new(text, depth);
    r.alone()?;
    Ok(r.out)
}

/// The items of a text that paths reach.
pub fn spans(text: &[u8]) -> Answer<Vec<Span>> {
    utf8(text)?;
    let mut r = Reader::new(text, 0);
    r.spans = Some(Vec::new());
    r.sheet()?;
    Ok(r.spans.unwrap())
}

/// Reads a text into the front of `out`; the length.
pub fn read(text: &[u8], out: &mut [u8]) -> Answer<usize> {
    put(&encode(text)?, out)
}

fn put(result: &[u8], out: &mut [u8]) -> Answer<usize> {
    if result.len() > MOST || result.len() > out.len() {
        return refuse(14, 0);
    }
    out[..result.len()].copy_from_slice(result);
    Ok(result.len())
}

// ----------------------------------------------------------------------------------------------------------------------------- bytes

struct Head {
    start: usize,
    major: u8,
    info: u8,
    argument: u64,
}

const BREAK: u8 = 0xff;

/// What the walk over the bytes meets, in order.
trait Visit {
    fn open(&mut self, _h: &Head) {}
    fn key(&mut self) {}
    fn value(&mut self) {}
    fn between(&mut self) {}
    fn string(&mut self, _h: &Head, _content: &[u8]) {}
    fn leaf(&mut self, _h: &Head) {}
    fn close(&mut self, _h: &Head, _empty: bool) {}
}

struct Nothing;
impl Visit for Nothing {}

struct Walk<'a, V: Visit> {
    bytes: &'a [u8],
    at: usize,
    depth: usize,
    visit: V,
}

impl<V: Visit> Walk<'_, V> {
    /// The next head; `chunk_of` is the major type that a chunk must have, `breaks` whether a break may stand here.
    fn head(&self, chunk_of: Option<u8>, breaks: bool) -> Answer<Head> {
        let start = self.at;
        let Some(&initial) = self.bytes.get(start) else { return refuse(15, self.bytes.len()) };
        let (major, info) = (initial >> 5, initial & 31);
        if initial == BREAK && breaks {
            return Ok(Head { start, major, info, argument: 0 });
        }
        let rest = &self.bytes[start + 1..];
        let malformed = (28..=30).contains(&info)
            || info == 31 && !(2..=5).contains(&major)
            || initial == 0xf8 && rest.first().is_some_and(|&b| b < 0x20)
            || chunk_of.is_some_and(|m| m != major || info == 31);
        if malformed {
            return refuse(16, start);
        }
        if major == 7 && (25..=27).contains(&info) {
            return refuse(6, start);
        }
        let size = match info {
            24 => 1,
            25 => 2,
            26 => 4,
            27 => 8,
            _ => 0,
        };
        let Some(number) = rest.get(..size) else { return refuse(15, start) };
        let argument = match size {
            0 => info as u64,
            _ => number.iter().fold(0, |n, &b| n << 8 | b as u64),
        };
        if (major == 2 || major == 3) && info != 31 {
            if argument > (rest.len() - size) as u64 {
                return refuse(15, start);
            }
            let content = &rest[size..size + argument as usize];
            if major == 3 && std::str::from_utf8(content).is_err() {
                return refuse(2, start);
            }
        }
        if (4..=6).contains(&major) && self.depth >= LEVELS {
            return refuse(10, start);
        }
        Ok(Head { start, major, info, argument })
    }

    fn pass(&mut self, h: &Head) {
        self.at = h.start
            + match h.info {
                24 => 2,
                25 => 3,
                26 => 5,
                27 => 9,
                _ => 1,
            };
    }

    /// One item; nothing where a break stood.
    fn item(&mut self, breaks: bool) -> Answer<Option<StringLength>> {
        let h = self.head(None, breaks)?;
        self.pass(&h);
        if h.major == 7 && h.info == 31 {
            return Ok(None);
        }
        let mut length = None;
        match h.major {
            2 | 3 if h.info != 31 => {
                let content = &self.bytes[self.at..self.at + h.argument as usize];
                self.at += content.len();
                self.visit.string(&h, content);
                length = (h.major == 2).then_some(h.argument);
            }
            2 | 3 => {
                let mut sum = 0;
                let mut count = 0;
                loop {
                    let c = self.head(Some(h.major), true)?;
                    self.pass(&c);
                    if c.major == 7 {
                        break;
                    }
                    if count == 0 {
                        self.visit.open(&h);
                    } else {
                        self.visit.between();
                    }
                    count += 1;
                    let content = &self.bytes[self.at..self.at + c.argument as usize];
                    self.at += content.len();
                    self.visit.string(&c, content);
                    sum += c.argument;
                }
                self.visit.close(&h, count == 0);
                length = (h.major == 2).then_some(sum);
            }
            4 | 5 => {
                self.depth += 1;
                self.visit.open(&h);
                let mut count = 0;
                while h.info == 31 || count < h.argument {
                    // the separator comes before an item that is there, so the break is looked for first
                    if h.info == 31 && self.bytes.get(self.at) == Some(&BREAK) {
                        self.at += 1;
                        break;
                    }
                    if count > 0 {
                        self.visit.between();
                    }
                    if h.major == 5 {
                        self.visit.key();
                        self.item(false)?;
                        self.visit.value();
                    }
                    self.item(false)?;
                    count += 1;
                }
                self.depth -= 1;
                self.visit.close(&h, count == 0);
            }
            6 => {
                self.depth += 1;
                self.visit.open(&h);
                let content = self.item(false)?.unwrap();
                self.depth -= 1;
                if !typed(h.argument, content) {
                    return refuse(13, h.start);
                }
                self.visit.close(&h, false);
            }
            _ => self.visit.leaf(&h),
        }
        Ok(Some(length))
    }
}

/// The starts and ends of the top items.
fn top(bytes: &[u8]) -> Answer<Vec<(usize, usize)>> {
    if bytes.len() > MOST {
        return refuse(1, 0);
    }
    let mut w = Walk { bytes, at: 0, depth: 0, visit: Nothing };
    let mut items = Vec::new();
    while w.at < bytes.len() {
        let start = w.at;
        w.item(false)?;
        items.push((start, w.at));
    }
    Ok(items)
}

pub fn check(bytes: &[u8]) -> Answer<()> {
    top(bytes).map(|_| ())
}

/// The start and the end of the item at a path.
pub fn look_up(bytes: &[u8], path: &[u16]) -> Answer<(usize, usize)> {
    let items = top(bytes)?;
    let Some(&first) = path.first() else { return refuse(17, 0) };
    let Some(&(mut start, mut end)) = items.get(first as usize) else { return refuse(17, 0) };
    for (step, &index) in path.iter().enumerate().skip(1) {
        let mut w = Walk { bytes, at: start, depth: 0, visit: Nothing };
        let h = w.head(None, false)?;
        w.pass(&h);
        if !(4..=5).contains(&h.major) {
            return refuse(17, step);
        }
        let mut count = 0;
        loop {
            let ended = if h.info == 31 { bytes[w.at] == BREAK } else { count == h.argument };
            if ended {
                return refuse(17, step);
            }
            if h.major == 5 {
                w.item(false)?;
            }
            let from = w.at;
            w.item(false)?;
            if count == index as u64 {
                (start, end) = (from, w.at);
                break;
            }
            count += 1;
        }
    }
    Ok((start, end))
}

/// Puts the encoding of `text` in the place of the item at `path`; the new length.
pub fn correct(buffer: &mut [u8], used: usize, path: &[u16], text: &[u8]) -> Answer<usize> {
    if used > buffer.len() || used > MOST {
        return refuse(1, 0);
    }
    let (start, end) = look_up(&buffer[..used], path)?;
    let new = encode_one(text, path.len() - 1)?;
    let length = used - (end - start) + new.len();
    if length > MOST || length > buffer.len() {
        return refuse(14, 0);
    }
    let tail = buffer[end..used].to_vec();
    buffer[start..start + new.len()].copy_from_slice(&new);
    buffer[start + new.len()..length].copy_from_slice(&tail);
    if length < used {
        buffer[length..used].fill(0);
    }
    Ok(length)
}

struct Printer {
    out: Vec<u8>,
}

impl Printer {
    fn say(&mut self, s: &str) {
        self.out.extend_from_slice(s.as_bytes());
    }

    /// The indicator of a head, where it is not the shortest.
    fn mark(&mut self, h: &Head) {
        let shortest = information(Indicator::Absent, h.argument).unwrap();
        if h.info == 31 {
            self.say("_");
        } else if h.info != shortest {
            let d = h.info - 24;
            self.out.extend_from_slice(&[b'_', b'0' + d]);
        }
    }
}

impl Visit for Printer {
    fn open(&mut self, h: &Head) {
        match h.major {
            2 | 3 => self.say("(_ "),
            6 => {
                self.say(&h.argument.to_string());
                self.mark(h);
                self.say("(");
            }
            _ => {
                self.say(if h.major == 4 { "[" } else { "{" });
                let bare = self.out.len();
                self.mark(h);
                if self.out.len() > bare {
                    self.say(" ");
                }
            }
        }
    }
    fn value(&mut self) {
        self.say(": ");
    }
    fn between(&mut self) {
        self.say(", ");
    }
    fn string(&mut self, h: &Head, content: &[u8]) {
        const DIGITS: &[u8; 16] = b"0123456789abcdef";
        if h.major == 2 {
            self.say("h'");
            for b in content {
                self.out.push(DIGITS[(b >> 4) as usize]);
                self.out.push(DIGITS[(b & 15) as usize]);
            }
            self.say("'");
        } else {
            self.say("\"");
            for &b in content {
                match b {
                    b'"' | b'\\' => self.out.extend_from_slice(&[b'\\', b]),
                    0..=0x1f => {
                        self.say("\\u00");
                        self.out.push(DIGITS[(b >> 4) as usize]);
                        self.out.push(DIGITS[(b & 15) as usize]);
                    }
                    _ => self.out.push(b),
                }
            }
            self.say("\"");
        }
        self.mark(h);
    }
    fn leaf(&mut self, h: &Head) {
        match (h.major, h.argument) {
            (0, n) => {
                self.say(&n.to_string());
                self.mark(h);
            }
            (1, n) => {
                self.say(&format!("-{}", n as u128 + 1));
                self.mark(h);
            }
            (_, 20) => self.say("false"),
            (_, 21) => self.say("true"),
            (_, 22) => self.say("null"),
            (_, 23) => self.say("undefined"),
            (_, n) => self.say(&format!("simple({n})")),
        }
    }
    fn close(&mut self, h: &Head, empty: bool) {
        match h.major {
            2 if empty => self.say("''_"),
            3 if empty => self.say("\"\"_"),
            4 => self.say("]"),
            5 => self.say("}"),
            _ => self.say(")"),
        }
    }
}

/// The printed text, of any length.
pub fn text_of(bytes: &[u8]) -> Answer<Vec<u8>> {
    if bytes.len() > MOST {
        return refuse(1, 0);
    }
    let mut w = Walk { bytes, at: 0, depth: 0, visit: Printer { out: Vec::new() } };
    while w.at < bytes.len() {
        if w.at > 0 {
            w.visit.say(",\n");
        }
        w.item(false)?;
    }
    if !bytes.is_empty() {
        w.visit.say("\n");
    }
    Ok(w.visit.out)
}

/// Prints into the front of `out`; the length.
pub fn print(bytes: &[u8], out: &mut [u8]) -> Answer<usize> {
    put(&text_of(bytes)?, out)
}
