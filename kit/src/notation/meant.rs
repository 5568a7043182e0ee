//! What was probably meant where a text cannot be read.

use super::lex::{Kind, Mistake, Token};
use super::names;
use crate::nearest::nearest;

/// The words that belong before or between conditions and terms.
const WORDS: [&str; 10] =
    ["formerly", "previous", "since", "exists", "count", "sum", "where", "for", "rule", "decimal"];

/// Those that belong at the beginning of a line.
const FIRST: [&str; 6] = ["value", "cedar", "limit", "file", "spans", "root"];

/// Those that belong before a macro's name, and what is said where another one stands there.
const BEFORE_NAMES: [&str; 2] = ["value", "cedar"];
pub const BEFORE_NAME: &str = "`value`, `cedar` or no word before a macro's name";

/// What other notations have for ours.
const OTHERS: [(&str, &str); 5] = [("and", "&&"), ("or", "||"), ("not", "!"), ("once", "formerly"), ("let", "value")];

/// The mistake with what the token at its place was probably meant to be.
pub fn with_guess(mistake: Mistake, tokens: &[Token]) -> Mistake {
    let at = tokens.partition_point(|token| token.start < mistake.start);
    let Some(token) = tokens.get(at).filter(|token| token.start == mistake.start) else { return mistake };
    let meant = match &token.kind {
        Kind::Symbol("=") if mistake.what.starts_with("expected a condition or a term") => Some("=="),
        Kind::Name(word, false) if mistake.what.contains(BEFORE_NAME) => guess(word, &BEFORE_NAMES),
        Kind::Name(word, false) if !names::is_keyword(word) => {
            let first = if token.indent.is_some() { &FIRST[..] } else { &[] };
            guess(word, &[&WORDS[..], &["and"], first].concat())
        }
        _ => None,
    };
    Mistake { meant: meant.map(str::to_string), ..mistake }
}

/// Whether a word was probably meant to be one that stands before a macro's name.
pub fn is_before_names(word: &[u8]) -> bool {
    nearest(&String::from_utf8_lossy(word), BEFORE_NAMES).is_some()
}

fn guess(word: &[u8], words: &[&'static str]) -> Option<&'static str> {
    let word = String::from_utf8_lossy(word);
    let ours = |word: &str| OTHERS.iter().find(|(other, _)| *other == word).map(|(_, ours)| *ours);
    let near = || nearest(&word, words.iter().copied()).map(|near| ours(near).unwrap_or(near));
    ours(&word).or_else(near)
}
