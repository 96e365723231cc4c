//! One item of a sheet replaced by what a text spells.
use super::refusal::{refuse, Answer, NO_ROOM, TOO_LONG};
use super::{form, look, utf8, Opponent, MOST};

impl Opponent {
    /// Puts the encoding of `text` in the place of the item at `path`; the new length.
    pub fn correct(&mut self, buffer: &mut [u8], used: usize, path: &[u16], text: &[u8]) -> Answer<usize> {
        if used > buffer.len() || used > MOST {
            return refuse(TOO_LONG, 0);
        }
        let (start, end) = look::look_up(&buffer[..used], path, &mut self.stages)?;
        utf8(text)?;
        let new = form::alone(text, &mut self.scratch, &mut self.levels, path.len() - 1)?;
        let length = used - (end - start) + new;
        if length > MOST || length > buffer.len() {
            return refuse(NO_ROOM, 0);
        }
        buffer.copy_within(end..used, start + new);
        buffer[start..start + new].copy_from_slice(&self.scratch[..new]);
        if length < used {
            buffer[length..used].fill(0);
        }
        Ok(length)
    }
}
