//! Texts: well-formed ones with characters of each length, and each kind of ill-formed one.

use crate::random::Random;
use crate::tape::{self, Node};

/// The first and the last character of each length, and those beside what may not stand.
const ENDS: [char; 12] = [
    '\u{20}',
    '\u{7E}',
    '\u{80}',
    '\u{9F}',
    '\u{7FF}',
    '\u{800}',
    '\u{D7FF}',
    '\u{E000}',
    '\u{FFFF}',
    '\u{FEFF}',
    '\u{10000}',
    '\u{10FFFF}',
];

/// A character of so many bytes, 1 to 4.
fn character(random: &mut Random, bytes: usize) -> char {
    let (first, last) = [(0x20, 0x7E), (0x80, 0x7FF), (0x800, 0xFFFF), (0x10000, 0x10FFFF)][bytes - 1];
    let ends: Vec<char> = ENDS.into_iter().filter(|c| c.len_utf8() == bytes).collect();
    if random.chance(20) {
        return *random.pick(&ends);
    }
    // Surrogates are no characters.
    (0..).find_map(|_| char::from_u32(random.within(first, last) as u32)).expect("most numbers are")
}

/// A text of just so many bytes, ASCII or mixed.
pub fn of_length(random: &mut Random, length: usize) -> Vec<u8> {
    let mixed = random.chance(50);
    let mut text = String::new();
    while text.len() < length {
        let most = (length - text.len()).min(4);
        let bytes = if mixed { random.within(1, most) } else { 1 };
        text.push(character(random, bytes));
    }
    text.into_bytes()
}

/// A text of just so many bytes that ends with a character of more than one byte: whole, or cut.
pub fn ending_wide(random: &mut Random, length: usize, cut: bool) -> Vec<u8> {
    let bytes = random.within(2, 4);
    let last = character(random, bytes).to_string().into_bytes();
    let kept = if cut { random.within(1, bytes - 1) } else { bytes };
    let kept = kept.min(length);
    let mut text = of_length(random, length - kept);
    text.extend(&last[..kept]);
    text
}

/// The longest beginning of a text that has at most so many bytes and cuts no character.
pub fn shorten(text: &mut Vec<u8>, most: usize) {
    text.truncate(most);
    while tape::ill_formed(text, &[]).is_some() {
        text.pop();
    }
}

/// Bytes that are no well-formed text, kind by kind.
const ILL_FORMED: [&[&[u8]]; 6] = [
    &[b"\x80", b"\xBF", b"\xC3\xA9\xA9"],
    &[
        b"\xC0\x80",
        b"\xC0\xAF",
        b"\xC1\xBF",
        b"\xE0\x80\xAF",
        b"\xE0\x9F\xBF",
        b"\xF0\x80\x80\xAF",
        b"\xF0\x8F\xBF\xBF",
    ],
    &[b"\xED\xA0\x80", b"\xED\xAF\xBF", b"\xED\xBF\xBF", b"\xED\xA1\x8C\xED\xBE\xB4"],
    &[b"\xF4\x90\x80\x80", b"\xF5\x80\x80\x80", b"\xF7\xBF\xBF\xBF", b"\xFE", b"\xFF"],
    &[b"\xC3(", b"\xE2(\xA1", b"\xE2\x82(", b"\xF0\x9F\x98(", b"\xF0(\x8C\xBC", b"\xC3\xC3\xA9"],
    &[b"\x00", b"\t", b"\n", b"\x1F", b"\x7F", b"\x1B[0m"],
];

/// Spoils a text of the tree: it gets bytes that are not well-formed, its last character is cut, or a character stands
/// across its border with the next text.
pub fn spoil(random: &mut Random, tree: &mut Node) {
    let mut texts = Vec::new();
    all_texts(tree, &mut texts);
    if texts.is_empty() {
        return;
    }
    let i = random.below(texts.len());
    let wide = |random: &mut Random| {
        let bytes = random.within(2, 4);
        (character(random, bytes).to_string().into_bytes(), random.within(1, bytes - 1))
    };
    match random.weighted(&[60, 15, 25]) {
        0 => {
            let kind = *random.pick(&ILL_FORMED);
            let bytes = random.pick(kind).iter().copied();
            let at = random.below(texts[i].text.len() + 1);
            texts[i].text.splice(at..at, bytes);
        }
        1 => {
            let (last, kept) = wide(random);
            texts[i].text.extend(&last[..kept]);
        }
        _ => {
            let (across, before) = wide(random);
            texts[i].text.extend(&across[..before]);
            if let Some(next) = texts.get_mut(i + 1) {
                next.text.splice(0..0, across[before..].iter().copied());
            }
        }
    }
    texts.iter_mut().for_each(|node| node.value = node.text.len() as u64);
}

/// The entries with text, in entry order.
fn all_texts<'a>(node: &'a mut Node, into: &mut Vec<&'a mut Node>) {
    if tape::value(node.code) == tape::Value::TextLength {
        // An entry with text has nothing below it.
        into.push(node);
        return;
    }
    node.children.iter_mut().for_each(|child| all_texts(child, into));
}
