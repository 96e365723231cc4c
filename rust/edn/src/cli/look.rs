//! Whether bytes look like a text that people wrote. Bytes and text cannot be told apart for certain: `1, 2` is both.

/// UTF-8 without controls; or, in another encoding or with a stray control in it, something that begins like a text and of which three quarters
/// are ASCII. The zero bytes of UTF-16 are left out. A sheet that is an array, a map or a tag begins with no ASCII.
pub fn looks_like_text(bytes: &[u8]) -> bool {
    !bytes.is_empty() && (is_clean(bytes) || is_mostly_ascii(bytes))
}

fn is_clean(bytes: &[u8]) -> bool {
    std::str::from_utf8(bytes).is_ok_and(|s| !s.chars().any(|c| c.is_control() && !matches!(c, '\t' | '\n' | '\r')))
}

fn is_mostly_ascii(bytes: &[u8]) -> bool {
    let is_typed = |b: &u8| matches!(b, b'\t'..=b'\r' | b' '..=b'~');
    let rest: Vec<u8> = bytes.iter().copied().filter(|&b| b != 0).collect();
    let typed = rest.iter().filter(|b| is_typed(b)).count();
    rest.first().is_some_and(is_typed) && 4 * typed >= 3 * rest.len()
}
