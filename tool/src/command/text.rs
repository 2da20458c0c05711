//! White space and tags in a text, for messages about it.

/// White space as the format has it.
pub fn is_space(byte: u8) -> bool {
    matches!(byte, 9 | 10 | 13 | 32)
}

/// A text without the white space at its start.
pub fn without_space(text: &[u8]) -> &[u8] {
    &text[text.iter().take_while(|byte| is_space(**byte)).count()..]
}

/// What stands behind a tag without attributes, such as `<TR`, white space and `>`; none where that tag does not stand here.
pub fn after_tag<'a>(text: &'a [u8], opening: &str, closing: &str) -> Option<&'a [u8]> {
    without_space(text.strip_prefix(opening.as_bytes())?).strip_prefix(closing.as_bytes())
}

/// The line in which a byte stands, from 1.
pub fn line(text: &[u8], byte: usize) -> u64 {
    1 + count(&text[..byte.min(text.len())], |byte| byte == b'\n')
}

/// How many bytes are as wanted. Sums of single bytes over short parts are quick over a long text.
pub fn count(text: &[u8], is_wanted: impl Fn(u8) -> bool) -> u64 {
    let in_part = |part: &[u8]| part.iter().map(|byte| u8::from(is_wanted(*byte))).sum::<u8>();
    text.chunks(usize::from(u8::MAX)).map(|part| u64::from(in_part(part))).sum()
}

/// What stands at the start of a text: a tag to its end, or what stands before the next one.
pub fn tag_or_text(text: &[u8]) -> &[u8] {
    let is_tag = text.first() == Some(&b'<');
    let end = text.iter().skip(1).position(|byte| *byte == b'<' || is_tag && *byte == b'>');
    match end {
        Some(end) if text[end + 1] == b'>' => &text[..end + 2],
        Some(end) => &text[..end + 1],
        None => text,
    }
}
