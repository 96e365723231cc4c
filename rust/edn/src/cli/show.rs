//! How the command line shows a refusal: where it stands, the line itself with a caret, the number, and what to do.
use super::hidden::{shown, INSTEAD};
use edn::{Error, Kind, Place};

/// How many characters of a line, and how many bytes, are shown before and behind the place.
const CHARACTERS_AROUND: usize = 60;
const BYTES_AROUND: usize = 12;
/// What a shown line stands behind.
const INDENT: &str = "    ";

/// How many columns a character takes on a terminal, nearly always.
fn columns(c: char) -> usize {
    match c as u32 {
        0x300..=0x36f => 0,
        0x1100..=0x115f
        | 0x2e80..=0xa4cf
        | 0xac00..=0xd7a3
        | 0xf900..=0xfaff
        | 0xfe30..=0xfe4f
        | 0xff00..=0xff60
        | 0xffe0..=0xffe6
        | 0x1f300..=0x1faff
        | 0x20000..=0x3fffd => 2,
        _ => 1,
    }
}

/// Bytes as characters, each byte that is no part of one as its own; the line's end is cut off by the caller.
fn characters(bytes: &[u8]) -> Vec<char> {
    let mut out = Vec::new();
    for chunk in bytes.utf8_chunks() {
        out.extend(chunk.valid().chars());
        out.extend(chunk.invalid().iter().map(|_| INSTEAD));
    }
    out
}

/// The number of the line and of the character in it, from 1, at a byte of a text.
pub fn line_and_column(text: &[u8], place: usize) -> (usize, usize) {
    let before = &text[..place.min(text.len())];
    let start = before.iter().rposition(|&b| b == b'\n').map_or(0, |i| i + 1);
    (before.iter().filter(|&&b| b == b'\n').count() + 1, characters(&before[start..]).len() + 1)
}

/// The line at a byte of a text, cut where it is long, and under it a caret.
fn line_with_caret(text: &[u8], place: usize) -> String {
    let start = text[..place].iter().rposition(|&b| b == b'\n').map_or(0, |i| i + 1);
    let mut end = text[place..].iter().position(|&b| b == b'\n').map_or(text.len(), |i| place + i);
    if end > place && text[end - 1] == b'\r' {
        end -= 1;
    }
    let before = characters(&text[start..place]);
    let behind = characters(&text[place..end]);
    let from = before.len().saturating_sub(CHARACTERS_AROUND);
    let (mut line, mut indent) = (String::from(INDENT), String::from(INDENT));
    if from > 0 {
        line.push('…');
        indent.push(' ');
    }
    for &c in &before[from..] {
        // a tab stays one, above and below, so that the caret stands right
        if c == '\t' {
            line.push('\t');
            indent.push('\t');
        } else {
            let c = shown(c);
            line.push(c);
            indent.extend(std::iter::repeat_n(' ', columns(c)));
        }
    }
    for &c in behind.iter().take(CHARACTERS_AROUND) {
        line.push(if c == '\t' { c } else { shown(c) });
    }
    if behind.len() > CHARACTERS_AROUND {
        line.push('…');
    }
    format!("{line}\n{indent}^")
}

/// What helps in a case that people trip over.
fn hint(text: &[u8], e: &Error) -> Option<&'static str> {
    let at = &text[e.place().min(text.len())..];
    let c = at.utf8_chunks().next().and_then(|c| c.valid().chars().next());
    match (e.kind(), c) {
        (Kind::NoToken, Some('\u{feff}')) => Some("The file begins with a byte order mark; save it as UTF-8 without one."),
        (Kind::NoToken, Some('\u{201c}' | '\u{201d}' | '\u{201e}' | '\u{2018}' | '\u{2019}')) => {
            Some("This is a curly quote; write the straight ones, \" and '.")
        }
        (Kind::NoToken, Some('\u{a0}')) => Some("This is a no-break space; write an ordinary one."),
        (Kind::NoToken, Some('\u{2026}')) => Some("This character stands for three dots, \"left out here\"; write the data."),
        (Kind::NoToken, Some('+')) => Some("Write the number without its plus sign."),
        (Kind::NoToken, Some('/' | '#')) => {
            Some("The comment is not ended: one from / runs to the next /, one from # to the end of its line, which must be there.")
        }
        (Kind::NotUtf8, _) if text.starts_with(&[0xff, 0xfe]) || text.starts_with(&[0xfe, 0xff]) => {
            Some("The file is UTF-16; save it as UTF-8.")
        }
        _ => None,
    }
}

/// A sheet that passed, in a line.
pub fn accepted(bytes: &[u8]) -> String {
    match bytes.len() {
        0 => "a sheet of no items (it is empty)".into(),
        n => format!("a sheet, {n} bytes"),
    }
}

/// A refusal in a line.
pub fn refused(e: &Error) -> String {
    format!("refused {} at {}: {}", e.number(), e.place(), e.name())
}

pub fn text_refusal(name: &str, text: &[u8], e: &Error) -> String {
    if e.counted() == Place::Whole {
        return format!("{name}: {}\n  {}", refused(e), e.meaning());
    }
    // an end that comes too early is shown behind the last thing that is there, not on an empty line
    let ended = e.place() >= text.len();
    let place = if ended { text.iter().rposition(|&b| !matches!(b, b'\t' | b'\n' | b'\r' | b' ')).map_or(0, |i| i + 1) } else { e.place() };
    let (line, column) = line_and_column(text, place);
    let end = if ended { ", where the text ends" } else { "" };
    let mut s = format!(
        "{name}:{line}:{column}: refused {} at {}{end}: {}\n{}\n  {}",
        e.number(),
        e.place(),
        e.name(),
        line_with_caret(text, place),
        e.meaning()
    );
    if let Some(h) = hint(text, e) {
        s.push_str("\n  ");
        s.push_str(h);
    }
    s
}

pub fn bytes_refusal(name: &str, bytes: &[u8], e: &Error) -> String {
    let mut s = format!("{name}: {}", refused(e));
    if e.counted() == Place::Bytes {
        let place = e.place().min(bytes.len());
        let from = place.saturating_sub(BYTES_AROUND);
        let to = (place + BYTES_AROUND).min(bytes.len());
        let mut line = String::from(INDENT);
        line.push_str(if from > 0 { "… " } else { "" });
        let digits = |bytes: &[u8]| bytes.iter().map(|b| format!("{b:02x} ")).collect::<String>();
        let caret = line.chars().count() + digits(&bytes[from..place]).len();
        line.push_str(&digits(&bytes[from..to]));
        line.push_str(if to < bytes.len() { "…" } else { "" });
        s.push_str(&format!("\n{}\n{}^^", line.trim_end(), " ".repeat(caret)));
    }
    s.push_str(&format!("\n  {}", e.meaning()));
    s
}

pub fn path_refusal(name: &str, path: &str, e: &Error) -> String {
    let caret: usize = path.split('/').take(e.place()).map(|step| step.len() + 1).sum();
    format!(
        "{name}: refused {} at step {} of the path: {}\n    {path}\n    {}^\n  {}",
        e.number(),
        e.place(),
        e.name(),
        " ".repeat(caret),
        e.meaning()
    )
}
