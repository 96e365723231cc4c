//! Why a call was refused, and where.
use crate::Kind;
use core::fmt;

/// What the place of a refusal counts.
#[derive(Clone, Copy, Debug, PartialEq, Eq, Hash)]
pub enum Place {
    /// A byte of the text.
    Text,
    /// A byte of the sheet.
    Bytes,
    /// A step of the path, from 0.
    Step,
    /// Nothing: the refusal is about the whole (too long, no room).
    Whole,
}

/// Why a call was refused, and where. Nothing was written.
#[derive(Clone, Copy, Debug, PartialEq, Eq, Hash)]
pub struct Error {
    kind: Kind,
    place: usize,
    counted: Place,
}

impl Error {
    /// The kind of the refusal.
    pub fn kind(&self) -> Kind {
        self.kind
    }

    /// The number of the refusal, 1 to 17.
    pub fn number(&self) -> u8 {
        self.kind.number()
    }

    /// Where it stands, counted from 0: see [`Error::counted`].
    pub fn place(&self) -> usize {
        self.place
    }

    /// What [`Error::place`] counts.
    pub fn counted(&self) -> Place {
        self.counted
    }

    /// The refusal in two or three words.
    pub fn name(&self) -> &'static str {
        self.kind.name()
    }

    /// What the refusal means and what to do, in a sentence for the people who write sheets.
    ///
    /// ```
    /// let e = edn::read("[1, 2").unwrap_err();
    /// assert_eq!(e.number(), 11);
    /// assert!(e.meaning().contains("bracket"));
    /// ```
    pub fn meaning(&self) -> &'static str {
        self.kind.meaning(self.counted)
    }
}

impl fmt::Display for Error {
    fn fmt(&self, f: &mut fmt::Formatter<'_>) -> fmt::Result {
        write!(f, "refused {} at {}: {}. {}", self.number(), self.place, self.name(), self.meaning())
    }
}

impl core::error::Error for Error {}

/// What a function of the library answered, in Rust's types: its value, or the refusal by its number. `input` is what the call looked at.
pub(crate) fn answer(number: u8, value: u64, input: Place) -> Result<usize, Error> {
    if number == 0 {
        return Ok(value as usize);
    }
    let Some(kind) = Kind::from_number(number) else { not_the_library(number) };
    Err(Error { kind, place: value as usize, counted: kind.counted(input) })
}

/// The library is proved to answer 0 to 17. Another number shows that another archive was linked, of which nothing is known: to hand its
/// answer on under some name would be a guess.
#[cold]
fn not_the_library(number: u8) -> ! {
    panic!("libedn_c.a answered {number}, which is no number of the table: it is not the archive that this package was made for")
}

#[cfg(test)]
mod tests {
    use super::*;

    #[test]
    #[should_panic(expected = "libedn_c.a answered 18, which is no number of the table")]
    fn another_number_is_never_handed_on() {
        let _ = answer(18, 0, Place::Text);
    }
}
