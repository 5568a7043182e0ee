//! Smaller ones of what is no tree: a tape's entries, as far as they can be told apart, and bytes that are no tape at all.
//!
//! What is wrong with a tape may stand deep in what is otherwise a tree. So its entries are read as a tree as far as that
//! goes, and parts of it are taken away or hoisted as those of a tree are, whatever stands in them.

use super::simpler;
use crate::reading;
use differential::tape::{self, LARGEST, Node, Sort, Value};
use std::ops::Range;

/// So many trees inside one are tried in its place, the outermost first.
const INSIDE: usize = 12;

/// The code of the plainest entry.
const WILDCARD: u8 = 28;

/// The sizes at the front of a tape.
const FRONT: usize = 8;

#[derive(Clone, Debug, PartialEq, Eq)]
struct Entry {
    code: u8,
    value: u64,
    text: Vec<u8>,
}

/// A tape taken apart: its entries, each with the text that its value says, and the text behind these.
#[derive(Clone, Debug, PartialEq, Eq)]
pub struct Flat {
    entries: Vec<Entry>,
    rest: Vec<u8>,
}

impl Flat {
    /// The parts of a tape whose length is the one that its sizes say.
    pub fn of(bytes: &[u8]) -> Option<Flat> {
        let sections = reading::sections(bytes).ok()?;
        let owned = |entry: reading::Entry| Entry { code: entry.code, value: entry.value, text: entry.text.to_vec() };
        let entries: Vec<Entry> = sections.entries().map(owned).collect();
        let taken: usize = entries.iter().map(|entry| entry.text.len()).sum();
        Some(Flat { entries, rest: sections.text[taken..].to_vec() })
    }

    pub fn encode(&self) -> Vec<u8> {
        let text: Vec<u8> = self.entries.iter().flat_map(|entry| &entry.text).chain(&self.rest).copied().collect();
        let sizes = [self.entries.len(), text.len()].map(|n| (n as u32).to_le_bytes()).concat();
        let codes = self.entries.iter().map(|entry| entry.code);
        let values = self.entries.iter().flat_map(|entry| entry.value.to_le_bytes());
        sizes.into_iter().chain(codes).chain(values).chain(text).collect()
    }

    pub fn len(&self) -> usize {
        self.entries.len()
    }

    /// How many things there are to look at: values that are not 0, codes that are no wildcard's, and texts.
    fn weight(&self) -> usize {
        let of = |entry: &Entry| usize::from(entry.value != 0) + usize::from(entry.code != WILDCARD) + entry.text.len();
        self.entries.iter().map(of).sum::<usize>() + self.rest.len()
    }

    fn with(&self, range: Range<usize>, by: &[Entry]) -> Flat {
        let mut entries = self.entries.clone();
        entries.splice(range, by.iter().cloned());
        Flat { entries, rest: self.rest.clone() }
    }

    /// Without these entries and their texts.
    pub fn without(&self, range: Range<usize>) -> Flat {
        self.with(range, &[])
    }

    /// Without the text that belongs to no entry.
    pub fn without_rest(&self) -> Flat {
        Flat { entries: self.entries.clone(), rest: vec![] }
    }

    /// With the plainest values for these entries: no text, no span, nothing counted.
    pub fn plain(&self, range: Range<usize>) -> Flat {
        let plain = |entry: &Entry| Entry { value: 0, text: vec![], ..*entry };
        let entries: Vec<Entry> = self.entries[range.clone()].iter().map(plain).collect();
        self.with(range, &entries)
    }

    /// With other values, by code and value.
    #[cfg(test)]
    pub fn with_values(&self, other: impl Fn(u8, u64) -> u64) -> Flat {
        let mut flat = self.clone();
        flat.entries.iter_mut().for_each(|entry| entry.value = other(entry.code, entry.value));
        flat
    }

    /// With wildcards for these entries.
    pub fn wild(&self, range: Range<usize>) -> Flat {
        let wildcard = Entry { code: WILDCARD, value: 0, text: vec![] };
        self.with(range.clone(), &vec![wildcard; range.len()])
    }

    /// What could stand for the part that begins with this entry: the smallest of its sort, parts of it that are of its
    /// sort, the part with fewer items, and an easier value. The extents are its own, of all parts.
    pub fn instead(&self, at: usize, extents: &[Extent]) -> Vec<Flat> {
        let Ok(place) = extents.binary_search_by_key(&at, |extent| extent.start) else { return vec![] };
        let Extent { end, sort, .. } = extents[place];
        let inside = &extents[place + 1..];
        let inside = &inside[..inside.partition_point(|inner| inner.start < end)];
        let node = Node::new(self.entries[at].code, 0, vec![]);
        let least = simpler::smallest(&node, sort).into_iter().map(|tree| flattened(&tree));
        let hoisted = inside.iter().filter(|inner| inner.sort == sort).take(INSIDE);
        let hoisted = hoisted.map(|inner| self.entries[inner.start..inner.end].to_vec());
        let mut found: Vec<Flat> = least.chain(hoisted).map(|entries| self.with(at..end, &entries)).collect();
        found.extend(self.fewer_items(at, sort, inside));
        found.extend(self.easier(at));
        found
    }

    /// Without one item, or without all of them, as many as the entry counts.
    fn fewer_items(&self, at: usize, sort: Sort, inside: &[Extent]) -> Vec<Flat> {
        let (entry, width) = (&self.entries[at], tape::item(sort, self.entries[at].code).len());
        let children: Vec<&Extent> = inside.iter().filter(|inner| inner.parent == at).collect();
        if width == 0 || tape::value(entry.code) != Value::Count {
            return vec![];
        }
        let items: Vec<Range<usize>> = children
            .chunks(width)
            .take(usize::try_from(entry.value).unwrap_or(usize::MAX))
            .filter_map(|item| Some(item.first()?.start..item.last()?.end))
            .collect();
        let without = |range: Range<usize>, n: u64| {
            let mut flat = self.with(range, &[]);
            flat.entries[at].value = entry.value.saturating_sub(n);
            flat
        };
        let all =
            items.first().zip(items.last()).map(|(first, last)| without(first.start..last.end, items.len() as u64));
        all.into_iter().chain(items.iter().map(|item| without(item.clone(), 1))).collect()
    }

    /// With an easier value or text for an entry. A text that is as long as the value says stays so.
    fn easier(&self, at: usize) -> Vec<Flat> {
        let entry = &self.entries[at];
        let with = |value: u64, text: &[u8]| self.with(at..at + 1, &[Entry { value, text: text.to_vec(), ..*entry }]);
        match tape::value(entry.code) {
            Value::TextLength if entry.value == entry.text.len() as u64 => {
                let (text, n) = (&entry.text, entry.text.len());
                let kept = [&text[..0], &text[..n.min(1)], &text[..n / 2], &text[..n.saturating_sub(1)]];
                let after = text.get(1..).unwrap_or(&[]);
                kept.into_iter().chain([after]).map(|text| with(text.len() as u64, text)).collect()
            }
            _ => [0, 1, entry.value / 2, entry.value.saturating_sub(1)].map(|value| with(value, &entry.text)).to_vec(),
        }
    }

    /// Where the parts of the tree begin and end, as far as the entries are one, in the order in which they begin; each with
    /// the sort that is wanted there.
    pub fn extents(&self, root: Sort) -> Vec<Extent> {
        let mut found = Vec::new();
        self.extent(0, root, usize::MAX, &mut found);
        found.sort_by_key(|extent| extent.start);
        found
    }

    /// The end of the part that begins there.
    fn extent(&self, start: usize, sort: Sort, parent: usize, found: &mut Vec<Extent>) -> usize {
        let Some(entry) = self.entries.get(start) else { return self.len() };
        let mut end = start + 1;
        let items = tape::item(sort, entry.code);
        if tape::value(entry.code) == Value::Count && !items.is_empty() {
            for _ in 0..entry.value {
                if end >= self.len() {
                    break;
                }
                for item in items {
                    end = self.extent(end, *item, start, found);
                }
            }
        }
        for part in tape::parts(entry.code) {
            end = self.extent(end, *part, start, found);
        }
        found.push(Extent { start, end, sort, parent });
        end
    }
}

/// A part of the tree that the entries are.
#[derive(Clone, Copy, Debug)]
pub struct Extent {
    start: usize,
    end: usize,
    sort: Sort,
    /// The entry that it belongs to.
    parent: usize,
}

fn flattened(tree: &Node) -> Vec<Entry> {
    let mut entries = Vec::new();
    tree.visit(&mut |node| entries.push(Entry { code: node.code, value: node.value, text: node.text.clone() }));
    entries
}

/// How much there is to look at in what is no tree: its length, and all that could be plainer.
pub fn weight(bytes: &[u8]) -> usize {
    let plainer = Flat::of(bytes).map(|flat| flat.weight());
    bytes.len() + plainer.unwrap_or_else(|| bytes.iter().filter(|byte| **byte != 0).count())
}

/// The plainest bytes that are no tree: none, no entries, and the sizes alone, as they are and as small as they can be while
/// they are over a largest figure or not.
pub fn plainest(bytes: &[u8]) -> Vec<Vec<u8>> {
    let mut found = vec![vec![], vec![0; FRONT]];
    if let Some((entries, text)) = reading::sizes(bytes) {
        let sizes = |entries: usize, text: usize| [entries, text].map(|n| (n as u32).to_le_bytes()).concat();
        let small = |is: usize, largest: usize| if is > largest { largest + 1 } else { is.min(1) };
        let (few, short) = (small(entries, LARGEST.entries), small(text, LARGEST.text));
        found.extend([sizes(few, 0), sizes(0, short), sizes(few, short), bytes[..FRONT].to_vec()]);
    }
    found.retain(|other| other != bytes);
    found
}

/// Without these bytes. The sizes at the front stay.
pub fn without_bytes(bytes: &[u8], range: Range<usize>) -> Vec<u8> {
    [&bytes[..range.start], &bytes[range.end..]].concat()
}

/// With zeros for these bytes.
pub fn zeroed(bytes: &[u8], range: Range<usize>) -> Vec<u8> {
    let mut zeroed = bytes.to_vec();
    zeroed[range].fill(0);
    zeroed
}

/// How many of so many things are taken away or made plain at once: first all of them, in the end one.
pub fn pieces(len: usize) -> impl Iterator<Item = usize> {
    std::iter::successors(Some(len), |chunk| (*chunk > 1).then(|| chunk / 2)).filter(|chunk| *chunk > 0)
}

#[cfg(test)]
mod tests {
    use super::*;
    use differential::case::Operation;
    use differential::generate;

    #[test]
    fn what_is_taken_apart_is_put_together() {
        let cases = (0..400).map(|index| generate::case(9, index)).filter(|case| case.operation != Operation::Sheet);
        let mut seen = 0;
        for tape in cases.flat_map(|case| case.tapes) {
            if let Some(flat) = Flat::of(&tape) {
                assert!(flat.encode() == tape);
                seen += 1;
            }
        }
        assert!(seen > 400, "{seen}");
    }

    #[test]
    fn pieces_become_smaller() {
        assert_eq!(pieces(10).collect::<Vec<_>>(), [10, 5, 2, 1]);
        assert_eq!(pieces(0).count(), 0);
    }

    #[test]
    fn sizes_stay_on_their_side_of_the_largest() {
        let front = |entries: u32, text: u32| [entries, text].map(u32::to_le_bytes).concat();
        let tape = [front(1_070, 9), vec![1; 20]].concat();
        let found = plainest(&tape);
        assert!(
            found.contains(&front(1_025, 0)) && found.contains(&front(1_025, 1)) && found.contains(&front(1_070, 9))
        );
    }
}
