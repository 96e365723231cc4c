//! The kinds of refusal: the customer's table.
use crate::Place;
use core::fmt;

/// The table, said once: the number, the name and the words of each kind.
macro_rules! kinds {
    ($($(#[$about:meta])* $kind:ident = $number:literal, $words:literal;)*) => {
        /// Why a call is refused, in the order of the customer's table.
        ///
        /// ```
        /// use edn::Kind;
        ///
        /// let e = edn::read("[_ 1, ...]").unwrap_err();
        /// assert_eq!(e.kind(), Kind::Dots);
        /// assert_eq!((e.kind().number(), e.kind().name()), (5, "dots"));
        /// ```
        #[derive(Clone, Copy, Debug, PartialEq, Eq, PartialOrd, Ord, Hash)]
        #[non_exhaustive]
        #[repr(u8)]
        pub enum Kind {
            $($(#[$about])* $kind = $number,)*
        }

        impl Kind {
            /// All kinds, in the order of their numbers.
            pub const ALL: &'static [Kind] = &[$(Kind::$kind),*];

            /// The kind of a number of the table, 1 to 17.
            pub const fn from_number(number: u8) -> Option<Kind> {
                match number {
                    $($number => Some(Kind::$kind),)*
                    _ => None,
                }
            }

            /// The kind in two or three words.
            pub const fn name(self) -> &'static str {
                match self {
                    $(Kind::$kind => $words,)*
                }
            }
        }
    };
}

kinds! {
    /// The input is over 65,535 bytes, or the used length over its buffer.
    TooLong = 1, "too long";
    /// The text, or a text string in the bytes, is not UTF-8.
    NotUtf8 = 2, "not UTF-8";
    /// No token begins like this, or one is not finished.
    NoToken = 3, "no such token";
    /// A word or a prefix that the notation does not have.
    UnknownWord = 4, "unknown word";
    /// Three dots or more: something is left out.
    Dots = 5, "dots";
    /// A floating-point number.
    Float = 6, "floating-point number";
    /// A number that a head cannot hold.
    OutOfRange = 7, "number out of range";
    /// The content of `h'..'`, `b64'..'` or `simple(..)`.
    BadContent = 8, "bad content";
    /// An indicator, `_` and what follows, that is unknown, not allowed there, or too small.
    BadIndicator = 9, "bad indicator";
    /// Level 17.
    TooDeep = 10, "too deep";
    /// A token that the form does not allow, or the end of the text.
    NotAllowed = 11, "not allowed here";
    /// Chunks of text and of bytes in one string.
    MixedChunks = 12, "mixed chunks";
    /// A typed array whose content or length is not right.
    BadTypedArray = 13, "bad typed array";
    /// The result is over the buffer or over 65,535 bytes.
    NoRoom = 14, "no room";
    /// The bytes end inside an item.
    EndsInside = 15, "bytes cut off";
    /// The bytes are not well-formed CBOR.
    NotWellFormed = 16, "not well-formed";
    /// The path is empty or leads nowhere.
    NoSuchPath = 17, "no such path";
}

impl Kind {
    /// The number of the kind in the customer's table.
    pub const fn number(self) -> u8 {
        self as u8
    }

    /// What the place of such a refusal counts, where the call looked at `input`.
    pub(crate) fn counted(self, input: Place) -> Place {
        match self {
            Kind::TooLong | Kind::NoRoom => Place::Whole,
            Kind::NoSuchPath => Place::Step,
            _ => input,
        }
    }

    /// What it means and what to do, in a sentence; of bytes it says something else than of a text that people wrote.
    pub(crate) fn meaning(self, counted: Place) -> &'static str {
        match (self, counted) {
            (Kind::TooLong, _) => "This is longer than 65,535 bytes, the most that a sheet may have; split it or shorten it.",
            (Kind::NotUtf8, Place::Bytes) => "A text string in these bytes is not valid UTF-8; the file is damaged, or faulty software made it.",
            (Kind::NotUtf8, _) => "This is not valid UTF-8; save the file as UTF-8.",
            (Kind::NoToken, _) => "Nothing in the notation begins like this, or a string or comment is not finished; look for a missing quote, a wrong backslash or a stray character.",
            (Kind::UnknownWord, _) => "This word or prefix is not known; write text in double quotes, and of words only false, true, null, undefined, simple(n), of prefixes h'..' and b64'..'.",
            (Kind::Dots, _) => "Three dots mean \"left out here\"; write the data.",
            (Kind::Float, Place::Bytes) => "This is a floating-point number, which sheets do not have; the file was not made for this scanner.",
            (Kind::Float, _) => "Floating-point numbers are not taken; write a whole number, in a smaller unit if need be.",
            (Kind::OutOfRange, _) => "This number is outside -18446744073709551616 to 18446744073709551615 (a tag's: 0 to the latter); correct it.",
            (Kind::BadContent, _) => "The content is not right: h'..' holds pairs of hex digits, b64'..' whole base64, simple(..) a number from 0 to 23 or 32 to 255; correct it.",
            (Kind::BadIndicator, _) => "The part from _ on is unknown, not allowed here, or too small for what it marks; leave it out, or write one of _i _0 _1 _2 _3.",
            (Kind::TooDeep, Place::Bytes) => "Arrays, maps and tags stand more than 16 deep here; the file was not made for this scanner.",
            (Kind::TooDeep, _) => "Arrays, maps, tags and << stand more than 16 deep here; write the sheet flatter.",
            (Kind::NotAllowed, _) => "This is not allowed here, or the text ends too early; look for a missing or extra comma, colon or bracket just before.",
            (Kind::MixedChunks, _) => "The parts of a (_ ..) string are all text or all bytes; this one is of the other kind: write it like the first.",
            (Kind::BadTypedArray, _) => "This tag wants a byte string whose length divides by its element's size (tag 76 is reserved); check the tag's number and the data's length.",
            (Kind::NoRoom, _) => "The result is over 65,535 bytes or over the buffer lent for it; shorten the sheet or lend more.",
            (Kind::EndsInside, _) => "The bytes end in the middle of an item; the file is cut off: fetch it again.",
            (Kind::NotWellFormed, _) => "These bytes are not well-formed CBOR; the file is damaged, or is no sheet.",
            (Kind::NoSuchPath, _) => "The path is empty, or this step leads to no item; count from 0, and into arrays and the values of maps only.",
        }
    }
}

impl fmt::Display for Kind {
    fn fmt(&self, f: &mut fmt::Formatter<'_>) -> fmt::Result {
        f.pad(self.name())
    }
}

/// A number that is none of the table.
#[derive(Clone, Copy, Debug, PartialEq, Eq, Hash)]
pub struct NoSuchKind(pub u8);

impl fmt::Display for NoSuchKind {
    fn fmt(&self, f: &mut fmt::Formatter<'_>) -> fmt::Result {
        write!(f, "{} is the number of no refusal", self.0)
    }
}

impl core::error::Error for NoSuchKind {}

impl TryFrom<u8> for Kind {
    type Error = NoSuchKind;

    fn try_from(number: u8) -> Result<Kind, NoSuchKind> {
        Kind::from_number(number).ok_or(NoSuchKind(number))
    }
}
