//! One entry of a tree changed, so that it is a tree still.

use super::least::{Site, least, least_of};
use crate::tape::{self, Node, Value};

/// What of an entry is changed.
#[derive(Clone, Copy, Debug, PartialEq, Eq)]
pub enum Kind {
    Span,
    Value,
    Text,
}

/// The entry with another value or another text. An entry whose value must be 0 has none.
pub fn values(site: &Site) -> Vec<(Kind, Node)> {
    let entry = site.entry();
    let with = |value: u64| (Kind::Value, Node { value, ..entry.clone() });
    match tape::value(entry.code) {
        Value::Zero => vec![],
        Value::Span => vec![(Kind::Span, Node { value: entry.value ^ tape::span(1, 1 << 31), ..entry.clone() })],
        // The lowest and the highest bit.
        Value::Any => vec![with(entry.value ^ 1), with(entry.value ^ 1 << 63)],
        Value::Below(end) => vec![with((entry.value + 1) % end)],
        Value::TextLength => {
            let text = |text: Vec<u8>| (Kind::Text, Node::with_text(entry.code, &text));
            let mut other = entry.text.clone();
            match other.last_mut() {
                Some(last) => *last = if *last == b'~' { b'^' } else { b'~' },
                None => other.push(b'~'),
            }
            vec![text(other), text([&entry.text[..], b"~"].concat())]
        }
        // One item more.
        Value::Count => {
            let item = tape::item(site.sort, entry.code).iter().map(|sort| least_of(*sort));
            let children = entry.children.iter().cloned().chain(item).collect();
            vec![(Kind::Value, Node::new(entry.code, entry.value + 1, children))]
        }
    }
}

/// The other codes that may stand there, from the next one on: with the entry's own value and what follows it, where that
/// fits the code, otherwise with the least that belongs to it.
pub fn codes(site: &Site) -> impl Iterator<Item = Node> {
    let entry = site.entry();
    let all = tape::codes(site.sort);
    let own = all.iter().position(|code| *code == entry.code).expect("it may stand there");
    let others = all[own + 1..].iter().chain(&all[..own]);
    others.map(|code| if alike(entry.code, *code, site) { Node { code: *code, ..entry.clone() } } else { least(*code) })
}

/// Whether two codes have the same kind of value and the same parts.
fn alike(a: u8, b: u8, site: &Site) -> bool {
    let shape = |code: u8| (tape::value(code), tape::parts(code), tape::item(site.sort, code));
    shape(a) == shape(b)
}
