//! Many sheets in one text: each after a line with its length in bytes.

/// The first sheet of such a text, and what follows it.
fn split_first(text: &[u8]) -> Option<(&[u8], &[u8])> {
    let end = text.iter().position(|&b| b == b'\n')?;
    let length: usize = std::str::from_utf8(&text[..end]).ok()?.parse().ok()?;
    text[end + 1..].split_at_checked(length)
}

/// The sheets of such a text; none where it is not of this form.
pub fn sheets_of(mut text: &[u8]) -> Option<Vec<&[u8]>> {
    let mut sheets = Vec::new();
    while !text.is_empty() {
        let (sheet, rest) = split_first(text)?;
        sheets.push(sheet);
        text = rest;
    }
    Some(sheets)
}
