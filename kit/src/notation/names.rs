//! How names and texts are spelled: plain where they can be, quoted otherwise.

use super::bounds::MOST_REPEATS;

/// Words that mean something where a name could stand. As a name each has to be quoted.
pub const KEYWORDS: [&str; 20] = [
    "true",
    "false",
    "context",
    "principal",
    "resource",
    "scope",
    "decimal",
    "formerly",
    "previous",
    "since",
    "exists",
    "tp",
    "count",
    "sum",
    "for",
    "where",
    "value",
    "condition",
    "cedar",
    "Timepoint",
];

/// A run of at least so many equal characters is written once, with its length behind it.
const LONG_RUN: usize = 16;

pub fn is_keyword(text: &[u8]) -> bool {
    KEYWORDS.iter().any(|word| word.as_bytes() == text)
}

/// The length of the identifier that a text begins with: a letter or `_`, letters and digits, and then what a generated
/// name has, `$7` or `$7#3`, as often as there is one.
pub fn identifier(text: &str) -> usize {
    let is_first = |c: char| c.is_alphabetic() || c == '_';
    if !text.starts_with(is_first) {
        return 0;
    }
    let mut length = prefix(text, |c| c.is_alphanumeric() || c == '_');
    loop {
        let more = generated(&text[length..]);
        if more == 0 {
            return length;
        }
        length += more;
    }
}

/// The length of `$7` or `$7#3` at the beginning of a text, or 0.
fn generated(text: &str) -> usize {
    let start = numbered(text, '$');
    if start == 0 { 0 } else { start + numbered(&text[start..], '#') }
}

/// The length of a mark and the digits behind it, or 0.
fn numbered(text: &str, mark: char) -> usize {
    let digits = text.strip_prefix(mark).map_or(0, |rest| prefix(rest, |c| c.is_ascii_digit()));
    if digits == 0 { 0 } else { 1 + digits }
}

pub fn prefix(text: &str, is_in: impl Fn(char) -> bool) -> usize {
    text.find(|c| !is_in(c)).unwrap_or(text.len())
}

/// Whether a text can stand as it is where an identifier is read.
pub fn is_identifier(text: &[u8]) -> bool {
    std::str::from_utf8(text).is_ok_and(|text| !text.is_empty() && identifier(text) == text.len())
}

/// A name as it is written: quoted unless it is an identifier and no keyword. Long runs are easier to read in quotes.
pub fn name(text: &[u8]) -> String {
    let has_run = || text.windows(LONG_RUN).any(|window| window.iter().all(|byte| *byte == window[0]));
    match std::str::from_utf8(text) {
        Ok(plain) if is_identifier(text) && !is_keyword(text) && !has_run() => plain.to_string(),
        _ => quoted(text, '\''),
    }
}

/// A text as it is told of to a reader: as it is, or in quotes if it has what nobody sees, such as a line's end.
pub fn visible(text: &str) -> String {
    if text.chars().all(is_visible) { text.to_string() } else { quoted(text.as_bytes(), '"') }
}

/// A name where no keyword is read: a segment of a path, a predicate's kind.
pub fn segment(text: &[u8]) -> String {
    match std::str::from_utf8(text) {
        Ok(plain) if is_identifier(text) => plain.to_string(),
        _ => quoted(text, '\''),
    }
}

/// A name of several identifiers with `separator` between them, as fields (`input.user`) and entity types (`Firm::User`)
/// have it; otherwise quoted as one.
pub fn path(text: &[u8], separator: &str, keywords_too: bool) -> String {
    let plain = |part: &str| is_identifier(part.as_bytes()) && (keywords_too || !is_keyword(part.as_bytes()));
    match std::str::from_utf8(text) {
        Ok(whole) if whole.split(separator).all(plain) => whole.to_string(),
        _ => quoted(text, '\''),
    }
}

/// A text in quotes. Bytes that are no UTF-8, and characters that nobody sees, are written `\xC3`, long runs of one
/// character `a\{255}`.
pub fn quoted(text: &[u8], quote: char) -> String {
    let mut out = String::from(quote);
    for chunk in text.utf8_chunks() {
        let mut rest = chunk.valid();
        while let Some(c) = rest.chars().next() {
            let count = rest.chars().take(MOST_REPEATS).take_while(|other| *other == c).count();
            // Of what is written byte by byte the length would be that of its last byte.
            let is_long = count >= LONG_RUN && (is_visible(c) || c.is_ascii());
            let shown = if is_long { 1 } else { count };
            (0..shown).for_each(|_| out.push_str(&escaped(c, quote)));
            if shown < count {
                out.push_str(&format!("\\{{{count}}}"));
            }
            rest = &rest[count * c.len_utf8()..];
        }
        chunk.invalid().iter().for_each(|byte| out.push_str(&format!("\\x{byte:02X}")));
    }
    out.push(quote);
    out
}

fn escaped(c: char, quote: char) -> String {
    match c {
        '\\' => "\\\\".to_string(),
        _ if c == quote => format!("\\{c}"),
        _ if is_visible(c) => c.to_string(),
        _ => c.to_string().bytes().map(|byte| format!("\\x{byte:02X}")).collect(),
    }
}

/// Whether a reader sees the character: neither a control nor a soft hyphen nor a blank other than the usual one.
fn is_visible(c: char) -> bool {
    // A mark that belongs to the letter before it is seen there.
    format!("x{c}").escape_debug().last() == Some(c)
}

#[cfg(test)]
mod tests {
    use super::*;

    #[test]
    fn names_are_plain_where_they_can_be() {
        let plain = ["x", "Küche", "t$7", "t$7#3", "t$7$9#65535", "_", "formerly_open", "日本"];
        plain.iter().for_each(|text| assert_eq!(name(text.as_bytes()), *text));
        for text in ["", " ", "x y", "7", "$7", "t$", "t$7#", "t$7s", "formerly", "?x", "a.b", "e\u{301}"] {
            assert_eq!(name(text.as_bytes()), format!("'{text}'"));
        }
        assert_eq!(name(b"it's \\"), r"'it\'s \\'");
        assert_eq!(name(&[b'a'; 64]), r"'a\{64}'");
    }

    #[test]
    fn a_text_is_told_as_it_is_if_it_is_seen() {
        for text in ["a lock of fifteen minutes", "Küche \"日本\" \\", "e\u{301}"] {
            assert_eq!(visible(text), text);
        }
        assert_eq!(visible("a\nb\u{1B}[31m\u{AD}"), r#""a\x0Ab\x1B[31m\xC2\xAD""#);
    }

    #[test]
    fn bytes_and_runs_are_escaped() {
        assert_eq!(quoted(b"\xC3\x28\x00", '"'), r#""\xC3(\x00""#);
        assert_eq!(quoted(&[b'a'; 255], '"'), r#""a\{255}""#);
        assert_eq!(quoted("üü".as_bytes(), '\''), "'üü'");
        assert_eq!(
            quoted("a\u{AD}\u{85} \u{A0}e\u{301}".as_bytes(), '\''),
            "'a\\xC2\\xAD\\xC2\\x85 \\xC2\\xA0e\u{301}'"
        );
        assert_eq!(quoted("\u{AD}".repeat(20).as_bytes(), '"'), format!("\"{}\"", r"\xC2\xAD".repeat(20)));
    }

    #[test]
    fn paths_are_plain_if_all_parts_are() {
        assert_eq!(path(b"input.user", ".", true), "input.user");
        assert_eq!(path(b"Firm::User", "::", false), "Firm::User");
        assert_eq!(path(b"a..b", ".", true), "'a..b'");
        assert_eq!(path(b"where", ".", true), "where");
        assert_eq!(path(b"where", "::", false), "'where'");
    }
}
