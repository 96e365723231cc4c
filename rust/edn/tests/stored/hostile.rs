//! Texts that someone might make to be slow.
use super::{Shape, Sheet};

/// Runs of one thing near any size, and nothing else.
pub fn hostile(size: usize) -> Vec<Shape> {
    let run = |open: &str, part: &str, close: &str| {
        let count = (size - open.len() - close.len()) / part.len();
        format!("{open}{}{close}", part.repeat(count))
    };
    let levels = format!("{}1{}, ", "[".repeat(16), "]".repeat(16));
    let mixed = format!("{}1{}, ", "[{1: <<2(".repeat(4), ")>>}]".repeat(4));
    let texts = [
        ("digits", 7, run("", "7", "")),
        ("zeros in hex", 0, run("0x", "0", "")),
        ("letters", 4, run("", "a", "")),
        ("dots", 5, run("", ".", "")),
        ("one comment", 0, run("/", "c", "/")),
        ("many comments", 0, run("", "//", "")),
        ("blanks", 0, run("", " ", "")),
        ("many escapes", 0, run("\"", "\\n", "\"")),
        ("surrogates", 0, run("'", "\\ud83d\\ude00", "'")),
        ("16 levels", 0, run("", &levels, "0")),
        ("16 levels, mixed", 0, run("", &mixed, "0")),
        ("unended h", 3, run("h'", "0", "")),
        ("unended b64", 3, run("b64'", "A", "")),
        ("unended string", 3, run("\"", "s", "")),
        ("unended comment", 3, run("/", "c", "")),
        ("digits of simple", 8, run("simple(", "9", ")")),
        ("indicator", 9, run("1_", "1", "")),
    ];
    texts.map(|(name, number, text)| Shape { name, sheets: vec![Sheet::new(name, number, text)] }).into()
}
