//! A tape's tree for those who look at it: whatever it is, if its entries are a tree at all. Neither texts nor largest
//! figures are judged here, since a wrong result has to be shown too.

use crate::notation;
use crate::pair::grouped;
use differential::tape::{self, Node, Sort, Value};
use std::fmt;

/// Deeper than any tape that is accepted; what is deeper is no tree to be shown, nor read from a text.
pub const DEEPEST: usize = 1_100;
/// More entries than any operation takes.
pub const MOST_ENTRIES: usize = 100_000;
/// More bytes of text than any operation takes.
pub const MOST_TEXT: usize = 1 << 24;
const MOST_BYTES: usize = 1 << 20;

/// The three sections of a tape, where they are that long.
#[derive(Clone, Copy)]
pub struct Sections<'a> {
    pub codes: &'a [u8],
    pub values: &'a [u8],
    pub text: &'a [u8],
}

/// An entry, with the text that its value says as far as there is so much.
#[derive(Clone, Copy, Debug, PartialEq, Eq)]
pub struct Entry<'a> {
    pub code: u8,
    pub value: u64,
    pub text: &'a [u8],
}

impl<'a> Sections<'a> {
    pub fn value(&self, entry: usize) -> u64 {
        u64::from_le_bytes(self.values[8 * entry..8 * entry + 8].try_into().expect("8 bytes"))
    }

    pub fn entries(self) -> impl Iterator<Item = Entry<'a>> {
        let mut rest = self.text;
        (0..self.codes.len()).map(move |i| {
            let (code, value) = (self.codes[i], self.value(i));
            let length = match tape::value(code) {
                Value::TextLength => usize::try_from(value).unwrap_or(usize::MAX).min(rest.len()),
                _ => 0,
            };
            let (text, behind) = rest.split_at(length);
            rest = behind;
            Entry { code, value, text }
        })
    }
}

impl Entry<'_> {
    /// Its span, text or value.
    pub fn shown(&self) -> String {
        match tape::value(self.code) {
            Value::Span => format!("{}..{}", tape::span_start(self.value), tape::span_end(self.value)),
            Value::TextLength => notation::quoted(self.text, '"'),
            Value::Any => (self.value as i64).to_string(),
            _ => self.value.to_string(),
        }
    }
}

/// The two sizes at a tape's front.
pub fn sizes(bytes: &[u8]) -> Option<(usize, usize)> {
    let word = |at: usize| Some(u32::from_le_bytes(bytes.get(at..at + 4)?.try_into().ok()?) as usize);
    Some((word(0)?, word(4)?))
}

pub fn sections(bytes: &[u8]) -> Result<Sections<'_>, String> {
    let (entries, text) = sizes(bytes).ok_or("shorter than the two sizes")?;
    let wanted = 8 + 9 * entries as u64 + text as u64;
    if bytes.len() as u64 != wanted {
        return Err(format!("{} bytes, where {entries} entries and {text} bytes of text take {wanted}", bytes.len()));
    }
    if entries > MOST_ENTRIES || text > MOST_TEXT {
        let [entries, text, most, longest] = [entries, text, MOST_ENTRIES, MOST_TEXT].map(|n| grouped(n as u64));
        return Err(format!("{entries} entries and {text} bytes of text, where {most} and {longest} are the most"));
    }
    let (codes, rest) = bytes[8..].split_at(entries);
    let (values, text) = rest.split_at(8 * entries);
    Ok(Sections { codes, values, text })
}

/// Whether the bytes are a tape, also one that is cut or damaged, and no text in the notation. No text has two zeros in a row
/// among its first eight bytes; of a tape's two sizes one at least is nearly always so small that it ends so.
pub fn is_tape(bytes: &[u8]) -> bool {
    let front = &bytes[..bytes.len().min(8)];
    let has_zeros = front.windows(2).any(|pair| pair == [0, 0]);
    has_zeros || front.len() < 8 && front.contains(&0) || sections(bytes).is_ok()
}

/// Why bytes are no tree.
#[derive(Clone, Debug, PartialEq, Eq)]
pub struct NoTree {
    /// The entry that shows it, from 0, if it is one.
    pub entry: Option<usize>,
    why: String,
}

impl From<String> for NoTree {
    fn from(why: String) -> NoTree {
        NoTree { entry: None, why }
    }
}

impl fmt::Display for NoTree {
    fn fmt(&self, f: &mut fmt::Formatter) -> fmt::Result {
        f.write_str(&self.why)
    }
}

/// A result as it is sent, without the zeros at its end, with as many of them as its sizes say.
pub fn with_zeros(result: &[u8]) -> Vec<u8> {
    let mut tape = result.to_vec();
    if tape.len() < 8 && !tape.is_empty() {
        tape.resize(8, 0);
    }
    if let Some((entries, text)) = sizes(&tape).filter(|(entries, _)| *entries <= MOST_ENTRIES) {
        let wanted = (8 + 9 * entries).saturating_add(text);
        if wanted > tape.len() && wanted <= MOST_BYTES {
            tape.resize(wanted, 0);
        }
    }
    tape
}

/// The tree of a tape with this root, or why there is none.
/// A provider tape has none here, since the notation is one of macros and conditions.
pub fn tree(bytes: &[u8], root: Sort) -> Result<Node, NoTree> {
    if matches!(root, Sort::Provider | Sort::ProviderArgument) {
        return Err("a provider tape, for which the notation has no text".to_string().into());
    }
    let s = sections(bytes)?;
    let mut reader = Reader { sections: s, entry: 0, text: 0 };
    let tree = reader.read(root, DEEPEST)?;
    match () {
        () if reader.entry < s.codes.len() => {
            Err(NoTree { entry: Some(reader.entry), why: format!("entries left over from entry {}", reader.entry + 1) })
        }
        () if reader.text < s.text.len() => {
            Err(format!("{} bytes of text left over", s.text.len() - reader.text).into())
        }
        () => Ok(tree),
    }
}

struct Reader<'a> {
    sections: Sections<'a>,
    entry: usize,
    text: usize,
}

impl Reader<'_> {
    fn read(&mut self, sort: Sort, depth: usize) -> Result<Node, NoTree> {
        let (entry, place) = (self.entry, self.entry + 1);
        let wrong = |why: String| NoTree { entry: Some(entry), why };
        let Some(&code) = self.sections.codes.get(entry) else { return Err(format!("no entry {place}").into()) };
        if depth == 0 {
            let most = grouped(DEEPEST as u64);
            return Err(wrong(format!("entry {place} lies inside {most} others, deeper than what is shown")));
        }
        if !tape::codes(sort).contains(&code) {
            return Err(wrong(format!("entry {place} has code {code}, which may not stand there")));
        }
        let mut node = Node::new(code, self.sections.value(entry), Vec::new());
        self.entry += 1;
        match tape::value(code) {
            Value::TextLength => {
                let rest = &self.sections.text[self.text..];
                let length = usize::try_from(node.value).ok().filter(|n| *n <= rest.len());
                let length = length.ok_or_else(|| wrong(format!("the text of entry {place} runs out")))?;
                node.text = rest[..length].to_vec();
                self.text += length;
            }
            Value::Count => {
                for _ in 0..node.value {
                    self.read_all(tape::item(sort, code), depth, &mut node.children)?;
                }
            }
            Value::Below(end) if node.value >= end => {
                return Err(wrong(format!("the value of entry {place} is too large")));
            }
            Value::Zero if node.value != 0 => return Err(wrong(format!("the value of entry {place} is not 0"))),
            _ => {}
        }
        self.read_all(tape::parts(code), depth, &mut node.children)?;
        Ok(node)
    }

    fn read_all(&mut self, sorts: &[Sort], depth: usize, into: &mut Vec<Node>) -> Result<(), NoTree> {
        for &sort in sorts {
            into.push(self.read(sort, depth - 1)?);
        }
        Ok(())
    }
}

#[cfg(test)]
mod tests {
    use super::*;
    use differential::generate;
    use differential::vectors::without_zeros;

    #[test]
    fn what_is_too_deep_is_called_so() {
        let deep = |negations: usize| {
            let leaf = Node::new(12, 0, vec![Node::with_text(58, b"s")]);
            let tree = (0..negations).fold(leaf, |below, _| Node::new(3, 0, vec![below]));
            super::tree(&tape::encode(&tree), Sort::Any).map(drop)
        };
        assert_eq!(deep(DEEPEST - 2), Ok(()));
        let why = "entry 1101 lies inside 1,100 others, deeper than what is shown".to_string();
        assert_eq!(deep(1_200), Err(NoTree { entry: Some(1100), why }));
    }

    #[test]
    fn zeros_at_the_end_come_back() {
        let tapes = (0..300).flat_map(|index| generate::case(9, index).tapes);
        for tape in tapes.filter(|tape| tree(tape, Sort::Any).is_ok()) {
            assert_eq!(with_zeros(without_zeros(&tape)), tape);
        }
    }

    /// Nearly all tapes that are asked for, of which many are damaged, are told from texts: what is left is cut to a byte, or
    /// wrong in both sizes.
    #[test]
    fn a_damaged_tape_is_still_one() {
        let tapes: Vec<Vec<u8>> = (0..20_000).flat_map(|index| generate::case(9, index).tapes).collect();
        let left: Vec<&Vec<u8>> = tapes.iter().filter(|tape| !tape.is_empty() && !is_tape(tape)).collect();
        assert!(left.len() * 1_000 < tapes.len(), "{} of {}: {left:02X?}", left.len(), tapes.len());
        for text in ["rule: P{}", "a", "r\0u\0l\0e\0:\0 \0P\0", "rule a: P{} // \0\0"] {
            assert!(!is_tape(text.as_bytes()), "{text}");
        }
    }

    #[test]
    fn what_is_too_much_to_be_shown_is_said() {
        let why = |entries: usize, text: usize| {
            let sizes = [entries, text].map(|n| (n as u32).to_le_bytes()).concat();
            let tape = [sizes, vec![28; entries], vec![0; 8 * entries], vec![b'a'; text]].concat();
            sections(&tape).err()
        };
        assert_eq!(why(MOST_ENTRIES, MOST_TEXT), None);
        let most = "where 100,000 and 16,777,216 are the most";
        assert_eq!(why(MOST_ENTRIES + 1, 0), Some(format!("100,001 entries and 0 bytes of text, {most}")));
        assert_eq!(why(1, MOST_TEXT + 1), Some(format!("1 entries and 16,777,217 bytes of text, {most}")));
    }
}
