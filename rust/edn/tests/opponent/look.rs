//! The item at a path, found while the bytes are checked.
use super::head::BREAK;
use super::refusal::{refuse, Answer, NOWHERE};
use super::stage::{is_counted, Stages};
use super::walk::{Stop, Walk};

/// The start and the end of the item at a path.
pub fn look_up(bytes: &[u8], path: &[u16], stages: &mut Stages) -> Answer<(usize, usize)> {
    let mut walk = Walk::new(bytes, stages);
    let found = find(&mut walk, path)?;
    // all that is left is checked before the path is
    walk.run()?;
    found.or_else(|step| refuse(NOWHERE, step))
}

/// Walks to the item and over it; as a failure, the step that leads nowhere.
fn find(walk: &mut Walk, path: &[u16]) -> Answer<Result<(usize, usize), usize>> {
    if path.is_empty() {
        return Ok(Err(0));
    }
    for (step, &index) in path.iter().enumerate() {
        if step > 0 && !walk.enter()? || !walk.reach(index)? {
            return Ok(Err(step));
        }
    }
    let start = walk.at;
    walk.pass(1)?;
    Ok(Ok((start, walk.at)))
}

impl Walk<'_> {
    /// Walks over so many items of what is open here; whether there are as many.
    fn pass(&mut self, count: u32) -> Answer<bool> {
        let here = &mut self.stages[self.depth];
        let all = here.left + here.rest;
        if count > all {
            return Ok(false);
        }
        here.left = count;
        here.rest = all - count;
        here.pauses = true;
        if self.run()? == Stop::Ended {
            return Ok(false);
        }
        let here = &mut self.stages[self.depth];
        (here.left, here.rest, here.pauses) = (here.rest, 0, false);
        Ok(true)
    }

    /// Walks up to the element or the value with an index in what is open here; whether it is there.
    fn reach(&mut self, index: u16) -> Answer<bool> {
        let map = self.stages[self.depth].map;
        let before = if map { 2 * index as u32 + 1 } else { index as u32 };
        if before >= self.stages[self.depth].left {
            return Ok(false);
        }
        let depth = self.depth;
        let reached = self.pass(before)?;
        let ended = match depth {
            0 => self.at == self.bytes.len(),
            _ => self.stages[depth].open && self.bytes.get(self.at) == Some(&BREAK),
        };
        Ok(reached && !ended)
    }

    /// Enters the array or the map that stands here; whether one does.
    fn enter(&mut self) -> Answer<bool> {
        match self.bytes.get(self.at) {
            Some(&b) if is_counted(b) => {
                let left = self.stages[self.depth].left;
                self.open(b, left - 1)?;
                Ok(true)
            }
            _ => Ok(false),
        }
    }
}
