//! Items in items: one loop over the tokens, with what is open around them on a stack.
use super::base64::base64;
use super::chunks::chunks;
use super::head::{self, indicator, Indicator, TAG};
use super::hexadecimal::hexadecimal;
use super::level::{Form, Level, Levels};
use super::number::number;
use super::quoted::quoted;
use super::refusal::{refuse, Answer, INDICATOR, NO_TOKEN, TOO_DEEP};
use super::scan::skip;
use super::table::byte;
use super::unexpected::{unexpected, wrong_gap};
use super::word::word;
use super::Cursor;

/// The bytes of a sheet, at the front of `out`; how many.
pub fn sheet(text: &[u8], out: &mut [u8], levels: &mut Levels) -> Answer<usize> {
    let at = passed(text, 0)?;
    if at == text.len() {
        return Ok(0);
    }
    levels[0] = Level::SHEET;
    Reading { text, out, levels, c: Cursor { at, to: 0 }, depth: 0, top: 0 }.items()
}

/// The bytes of one item without anything around it, `depth` levels down, at the front of `out`; how many.
pub fn alone(text: &[u8], out: &mut [u8], levels: &mut Levels, depth: usize) -> Answer<usize> {
    wrong_gap(text, 0)?;
    levels[depth] = Level::ALONE;
    Reading { text, out, levels, c: Cursor { at: 0, to: 0 }, depth, top: depth }.items()
}

struct Reading<'a> {
    text: &'a [u8],
    out: &'a mut [u8],
    /// Kept in memory: in registers, the level would leave none for the text.
    levels: &'a mut Levels,
    c: Cursor,
    depth: usize,
    /// The level of the outermost items.
    top: usize,
}

impl Reading<'_> {
    /// The items of the level at the top, and all that stand in them.
    #[inline(always)]
    fn items(mut self) -> Answer<usize> {
        loop {
            if self.begin()? && !self.follow()? {
                return Ok(self.c.to);
            }
        }
    }

    /// The token that is to begin an item; whether the item ends with it. If not, the first item inside is to come.
    #[inline(always)]
    fn begin(&mut self) -> Answer<bool> {
        let at = self.c.at;
        let b = byte(self.text, at);
        let leaf = match b {
            b'0'..=b'9' => return self.number(false),
            b'-' => return self.number(true),
            b'"' | b'\'' => quoted(self.text, self.out, self.c),
            b'h' if byte(self.text, at + 1) == b'\'' => hexadecimal(self.text, self.out, self.c),
            b'b' if self.text[at..].starts_with(b"b64'") => base64(self.text, self.out, self.c),
            b'a'..=b'z' | b'A'..=b'Z' => word(self.text, self.out, self.c),
            b'[' => return self.bracket(Level::array),
            b'{' => return self.bracket(Level::map),
            b'<' => return self.embedded(),
            b'(' => return self.chunks(),
            _ => return self.unexpected(),
        };
        self.c = leaf.or_else(|number| refuse(number, at))?;
        Ok(true)
    }

    /// An integer, or the opening of a tag.
    #[inline(always)]
    fn number(&mut self, negative: bool) -> Answer<bool> {
        let opening = self.c.at;
        let n = number(self.text, opening, negative).or_else(|number| refuse(number, opening))?;
        self.c = Cursor { at: n.end, to: head::put(self.out, self.c.to, n.major, n.size, n.argument) };
        if n.major == TAG {
            return self.enter(Level::tag(n.argument, opening, self.c.to));
        }
        Ok(true)
    }

    /// The opening of an array or a map. One byte is kept for its head.
    #[inline(always)]
    fn bracket(&mut self, level: impl Fn(Indicator, usize, usize) -> Level) -> Answer<bool> {
        let c = self.c;
        let (indicator, at) = indicator(self.text, c.at + 1);
        if indicator == Indicator::Unknown {
            return refuse(INDICATOR, c.at);
        }
        self.c = Cursor { at, to: c.to + 1 };
        self.enter(level(indicator, c.at, c.to))
    }

    /// The opening of a `<<`. One byte is kept for its head.
    #[inline(always)]
    fn embedded(&mut self) -> Answer<bool> {
        let c = self.c;
        if byte(self.text, c.at + 1) != b'<' {
            return self.unexpected();
        }
        self.c = Cursor { at: c.at + 2, to: c.to + 1 };
        self.enter(Level::embedded(c.at, c.to))
    }

    #[inline(always)]
    fn chunks(&mut self) -> Answer<bool> {
        if byte(self.text, self.c.at + 1) != b'_' {
            return self.unexpected();
        }
        self.c = chunks(self.text, self.out, self.c, self.depth)?;
        Ok(true)
    }

    /// Enters what was opened; whether it is empty and closed again.
    #[inline(always)]
    fn enter(&mut self, level: Level) -> Answer<bool> {
        self.depth += 1;
        let Some(here) = self.levels.get_mut(self.depth) else { return refuse(TOO_DEEP, level.opening as usize) };
        *here = level;
        self.c.at = passed(self.text, self.c.at)?;
        if byte(self.text, self.c.at) != level.closer || level.form == Form::Tag {
            return Ok(false);
        }
        self.close()?;
        Ok(true)
    }

    /// Behind an item: passes what stands between it and the next one, closing tokens too; whether there is one.
    #[inline(always)]
    fn follow(&mut self) -> Answer<bool> {
        loop {
            let here = &mut self.levels[self.depth];
            here.count += 1;
            if here.form == Form::Alone {
                wrong_gap(self.text, self.c.at)?;
            }
            self.c.at = passed(self.text, self.c.at)?;
            let next = byte(self.text, self.c.at);
            if next == here.separator() {
                self.c.at = passed(self.text, self.c.at + 1)?;
                return Ok(true);
            }
            if self.c.at == self.text.len() && self.depth == self.top {
                return Ok(false);
            }
            if next != here.closer || here.half() {
                return self.unexpected();
            }
            self.close()?;
        }
    }

    /// Closes what is open here, its closing token being at the cursor.
    #[inline(always)]
    fn close(&mut self) -> Answer<()> {
        let here = self.levels[self.depth];
        let c = self.c;
        let closed = match here.form {
            Form::Array | Form::Map => here.close_counted(self.out, c.to).map(|to| Cursor { at: c.at + 1, to }),
            Form::Tag => here.close_tag(self.out).map(|()| Cursor { at: c.at + 1, to: c.to }),
            Form::Embedded if byte(self.text, c.at + 1) == b'>' => {
                let (indicator, at) = indicator(self.text, c.at + 2);
                here.close_embedded(self.out, c.to, indicator).map(|to| Cursor { at, to })
            }
            Form::Embedded | Form::Sheet | Form::Alone => return self.unexpected(),
        };
        self.c = closed.or_else(|number| refuse(number, here.opening as usize))?;
        self.depth -= 1;
        Ok(())
    }

    #[inline(always)]
    fn unexpected<T>(&mut self) -> Answer<T> {
        Err(unexpected(self.text, self.out, self.c, self.depth))
    }
}

/// The next byte that is no blank and in no comment.
#[inline(always)]
pub fn passed(text: &[u8], at: usize) -> Answer<usize> {
    skip(text, at).or_else(|place| refuse(NO_TOKEN, place))
}
