//! Characters that a terminal obeys, turns the line around by, or shows nothing for: they are never sent to it as they are.
use std::fmt::Write;

/// What stands for one in a message.
pub const INSTEAD: char = '\u{fffd}';

/// Whether a character is one of these: the controls, the direction characters, and those without a shape.
pub fn is_hidden(c: char) -> bool {
    c.is_control()
        || matches!(
            c,
            '\u{ad}'                         // soft hyphen
                | '\u{34f}'                  // grapheme joiner
                | '\u{61c}'                  // Arabic letter mark
                | '\u{115f}'..='\u{1160}'    // Hangul fillers
                | '\u{17b4}'..='\u{17b5}'    // Khmer vowels that are not shown
                | '\u{180b}'..='\u{180f}'    // Mongolian selectors and separator
                | '\u{200b}'..='\u{200f}'    // zero width, left-to-right and right-to-left marks
                | '\u{2028}'..='\u{202e}'    // line and paragraph separators, embeddings and overrides
                | '\u{2060}'..='\u{206f}'    // joiners and operators without a shape, isolates
                | '\u{3164}'                 // Hangul filler
                | '\u{fe00}'..='\u{fe0f}'    // variation selectors
                | '\u{feff}'                 // byte order mark
                | '\u{ffa0}'                 // halfwidth Hangul filler
                | '\u{fff0}'..='\u{fffb}'    // annotations
                | '\u{1bca0}'..='\u{1bca3}'  // shorthand controls
                | '\u{1d173}'..='\u{1d17a}'  // musical controls
                | '\u{e0000}'..='\u{e0fff}'  // tags, more variation selectors
        )
}

/// The character as a message shows it.
pub fn shown(c: char) -> char {
    if is_hidden(c) {
        INSTEAD
    } else {
        c
    }
}

/// A name or an argument as a message shows it.
pub fn clean(s: &str) -> String {
    s.chars().map(shown).collect()
}

/// A printed text with these characters escaped. They stand in its "..." strings only, so reading it gives the same bytes; the newline
/// between items is the one control that stands outside.
pub fn escaped(text: &str) -> String {
    let mut out = String::with_capacity(text.len());
    for c in text.chars() {
        if c == '\n' || !is_hidden(c) {
            out.push(c);
            continue;
        }
        for unit in c.encode_utf16(&mut [0; 2]) {
            let _ = write!(out, "\\u{unit:04x}"); // a String takes everything
        }
    }
    out
}
