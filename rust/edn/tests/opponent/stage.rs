//! What is open around a place in bytes.
use super::head::{ARRAY, MAP, OPEN};
use super::typed::UNTYPED;
use super::LEVELS;

/// More items than bytes can hold, and an even number of them.
pub const ENDLESS: u32 = 1 << 20;

/// What is open, the outermost first.
pub type Stages = [Stage; LEVELS + 1];

#[derive(Clone, Copy)]
pub struct Stage {
    /// Items still to come, keys and values each for one; up to where a walk is to pause.
    pub left: u32,
    /// Items behind that.
    pub rest: u32,
    pub pauses: bool,
    /// Whether a break ends it.
    pub open: bool,
    pub map: bool,
    /// Of a tag: the size that divides the length of its content.
    pub element: u8,
    /// The head.
    pub start: u32,
    /// The first byte behind the head.
    pub content: u32,
}

impl Stage {
    pub const TOP: Stage = Stage { left: ENDLESS, rest: 0, pauses: false, open: false, map: false, element: UNTYPED, start: 0, content: 0 };

    /// An array or a map. A count that is never reached is as good as any other: the bytes end before.
    #[inline(always)]
    pub fn counted(initial: u8, argument: u64) -> Stage {
        let map = initial >> 5 == MAP;
        let open = initial & 31 == OPEN;
        let count = if open { ENDLESS / 2 } else { argument.min(ENDLESS as u64 / 2) as u32 };
        Stage { left: count << (map as u32), open, map, ..Stage::TOP }
    }

    /// Whether a break may stand here.
    pub fn may_break(&self, left: u32) -> bool {
        self.open && !(self.map && (left + self.rest) % 2 == 1)
    }
}

/// Whether this begins an array or a map.
pub fn is_counted(initial: u8) -> bool {
    matches!(initial >> 5, ARRAY | MAP) && !matches!(initial & 31, 28..=30)
}
