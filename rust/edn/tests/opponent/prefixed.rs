//! `h'..'` and `b64'..'`.
use super::base64::base64;
use super::hexadecimal::hexadecimal;
use super::Cursor;

/// The literal with a known prefix that stands at the cursor, if one does.
#[inline(always)]
pub fn prefixed(text: &[u8], out: &mut [u8], c: Cursor) -> Option<Result<Cursor, u8>> {
    let rest = text.get(c.at..)?;
    if rest.starts_with(b"h'") {
        return Some(hexadecimal(text, out, c));
    }
    rest.starts_with(b"b64'").then(|| base64(text, out, c))
}
