//! Elements and escaped text, well formed both as HTML and as XML.

/// Text for between tags and in attributes. A character that no XML may have is shown as
/// an unknown one.
pub fn escaped(text: &str) -> String {
    let mut out = String::with_capacity(text.len());
    for c in text.chars() {
        match c {
            '&' => out.push_str("&amp;"),
            '<' => out.push_str("&lt;"),
            '>' => out.push_str("&gt;"),
            '"' => out.push_str("&quot;"),
            '\n' | '\t' => out.push(c),
            '\u{fffe}' | '\u{ffff}' => out.push('\u{fffd}'),
            c if c.is_control() => out.push('\u{fffd}'),
            c => out.push(c),
        }
    }
    out
}

/// An element around markup; `open` is its name, with its attributes behind.
pub fn element(open: &str, inner: &str) -> String {
    let name = open.split(' ').next().unwrap_or(open);
    format!("<{open}>{inner}</{name}>")
}

/// An element around text.
pub fn text(open: &str, text: &str) -> String {
    element(open, &escaped(text))
}
