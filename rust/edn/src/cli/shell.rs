//! Words for a command that a message suggests.
use super::hidden::is_hidden;
use std::ffi::OsStr;

/// A file's name as it is typed at a shell; none where a message cannot show it as it is.
pub fn file_word(name: &OsStr) -> Option<String> {
    let name = name.to_str().filter(|name| !name.chars().any(is_hidden))?;
    // a name that begins with a dash would be taken for an option
    let name = if name.starts_with('-') { format!("./{name}") } else { name.to_string() };
    let is_plain = |c: char| c.is_ascii_alphanumeric() || "./_-+,:@%".contains(c);
    if name.chars().all(is_plain) {
        return Some(name);
    }
    Some(format!("'{}'", name.replace('\'', r"'\''")))
}
