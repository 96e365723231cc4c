//! What is open around the place that is read.
use super::head::{self, Indicator, Size, ARRAY, BREAK, BYTES, MAP, OPEN};
use super::refusal::{INDICATOR, TYPED_ARRAY};
use super::typed::{self, UNTYPED};
use super::LEVELS;

#[derive(Clone, Copy, PartialEq, Eq)]
pub enum Form {
    Sheet,
    /// The text of one item and nothing else.
    Alone,
    Array,
    Map,
    Tag,
    Embedded,
}

/// Bytes that no UTF-8 has.
const NEVER: [u8; 2] = [0xff; 2];

/// What is open, the outermost first.
pub type Levels = [Level; LEVELS + 1];

#[derive(Clone, Copy)]
pub struct Level {
    pub form: Form,
    pub indicator: Indicator,
    /// What closes it: its first byte.
    pub closer: u8,
    /// Of a tag: the size that divides the length of its content.
    element: u8,
    /// What stands behind an even number of items, and behind an odd one.
    separators: [u8; 2],
    /// The place of the opening token.
    pub opening: u32,
    /// The reserved byte of the head; in a tag, the first byte of the content.
    pub head: u32,
    /// Finished items, keys and values each for one.
    pub count: u32,
}

impl Level {
    pub const SHEET: Level = Level {
        form: Form::Sheet,
        indicator: Indicator::Absent,
        closer: 0,
        element: UNTYPED,
        separators: *b",,",
        opening: 0,
        head: 0,
        count: 0,
    };
    pub const ALONE: Level = Level { form: Form::Alone, separators: NEVER, ..Level::SHEET };

    #[inline(always)]
    pub fn array(indicator: Indicator, opening: usize, head: usize) -> Level {
        Level { form: Form::Array, indicator, closer: b']', opening: opening as u32, head: head as u32, ..Level::SHEET }
    }

    #[inline(always)]
    pub fn map(indicator: Indicator, opening: usize, head: usize) -> Level {
        Level { form: Form::Map, closer: b'}', separators: *b",:", ..Level::array(indicator, opening, head) }
    }

    #[inline(always)]
    pub fn tag(number: u64, opening: usize, content: usize) -> Level {
        let element = typed::element(number);
        Level { form: Form::Tag, closer: b')', element, separators: NEVER, ..Level::array(Indicator::Absent, opening, content) }
    }

    #[inline(always)]
    pub fn embedded(opening: usize, head: usize) -> Level {
        Level { form: Form::Embedded, closer: b'>', ..Level::array(Indicator::Absent, opening, head) }
    }

    /// What is to stand between the item that was finished last and the next one.
    #[inline(always)]
    pub fn separator(&self) -> u8 {
        self.separators[self.count as usize % 2]
    }

    /// Whether a key is finished, and its value is not.
    #[inline(always)]
    pub fn half(&self) -> bool {
        self.form == Form::Map && self.count % 2 == 1
    }

    /// Closes an array or a map: the end of its bytes.
    #[inline(always)]
    pub fn close_counted(&self, out: &mut [u8], end: usize) -> Result<usize, u8> {
        let (major, count) = if self.form == Form::Array { (ARRAY, self.count) } else { (MAP, self.count / 2) };
        if self.indicator == Indicator::Absent && count < head::ONE_BYTE as u32 {
            out[self.head as usize] = major << 5 | count as u8;
            return Ok(end);
        }
        if self.indicator == Indicator::Indefinite {
            out[self.head as usize] = major << 5 | OPEN;
            out[end] = BREAK;
            return Ok(end + 1);
        }
        self.patch(out, end, major, self.indicator, count as u64)
    }

    /// Closes a `<<`: the end of its bytes.
    #[inline(always)]
    pub fn close_embedded(&self, out: &mut [u8], end: usize, indicator: Indicator) -> Result<usize, u8> {
        self.patch(out, end, BYTES, indicator, (end - self.head as usize - 1) as u64)
    }

    #[inline(always)]
    fn patch(&self, out: &mut [u8], end: usize, major: u8, indicator: Indicator, argument: u64) -> Result<usize, u8> {
        let size = Size::marked(indicator, argument).ok_or(INDICATOR)?;
        Ok(head::put_before(out, self.head as usize, end, major, size, argument))
    }

    /// Asks a tag's content, which is written, for its length.
    #[inline(always)]
    pub fn close_tag(&self, out: &[u8]) -> Result<(), u8> {
        if typed::fits(self.element, out, self.head as usize) {
            Ok(())
        } else {
            Err(TYPED_ARRAY)
        }
    }
}
