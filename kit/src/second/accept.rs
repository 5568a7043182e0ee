//! Tapes to trees: 2 and 3.

use super::fault::Fault;
use crate::reading;
use differential::tape::{self, Measure, Node, Sort};

/// The largest figures.
pub struct Largest {
    pub entries: usize,
    pub text: usize,
    pub nesting: usize,
    parameters: usize,
    calls: usize,
    name: usize,
    literal: usize,
}

impl Largest {
    pub fn of(fault: Fault) -> Largest {
        let over = |is: Fault| usize::from(fault == is);
        Largest {
            entries: 1024 + over(Fault::EntriesOver) - over(Fault::EntriesShort),
            text: 3072 + over(Fault::TextOver),
            nesting: 64 + over(Fault::NestingOver),
            parameters: 16 + over(Fault::ParametersOver),
            calls: 4 + over(Fault::CallsOver),
            name: 64 + over(Fault::NameOver),
            literal: 255 - over(Fault::LiteralShort),
        }
    }

    pub fn hold(&self, measure: &Measure) -> bool {
        measure.entries <= self.entries && measure.text <= self.text && measure.nesting <= self.nesting
    }
}

/// The tree of a tape, without Or, or 2 or 3.
pub fn accept(bytes: &[u8], root: Sort, fault: Fault) -> Result<Node, u64> {
    let largest = Largest::of(fault);
    let (entries, text) = reading::sizes(bytes).ok_or(2u64)?;
    if entries > largest.entries || text > largest.text {
        return Err(3);
    }
    let tree = reading::tree(bytes, root).map_err(|_| 2u64)?;
    if !texts_are_good(&tree, bytes, fault) || fault == Fault::WeeksUnknown && holds(&tree, 64) {
        return Err(2);
    }
    let measure = tape::measure(&tree);
    if measure.nesting > largest.nesting || measure.calls > largest.calls || !parts_fit(&tree, &largest) {
        return Err(3);
    }
    let rewritten = if fault == Fault::OrKept { tree } else { tape::withdrawn(&tree) };
    if largest.hold(&tape::measure(&rewritten)) { Ok(rewritten) } else { Err(3) }
}

pub fn holds(tree: &Node, code: u8) -> bool {
    let mut found = false;
    tree.visit(&mut |node| found |= node.code == code);
    found
}

fn parts_fit(tree: &Node, largest: &Largest) -> bool {
    let mut fit = true;
    tree.visit(&mut |node| {
        fit &= match node.code {
            22 | 23 => node.text.len() <= largest.literal,
            60 => node.children[1].value as usize <= largest.parameters,
            _ => node.text.len() <= largest.name,
        }
    });
    fit
}

fn texts_are_good(tree: &Node, bytes: &[u8], fault: Fault) -> bool {
    if fault == Fault::TextsTogether {
        return reading::sections(bytes).is_ok_and(|sections| is_good(sections.text, fault));
    }
    let mut good = true;
    tree.visit(&mut |node| good &= is_good(&node.text, fault));
    good
}

/// Well-formed UTF-8 without controls.
fn is_good(text: &[u8], fault: Fault) -> bool {
    let controls = |c: u8| c < 0x20 || c == 0x7F;
    if text.iter().any(|c| controls(*c)) || fault == Fault::AsciiOnly && !text.is_ascii() {
        return false;
    }
    match fault {
        Fault::Surrogates => std::str::from_utf8(&without_surrogates(text)).is_ok(),
        _ => std::str::from_utf8(text).is_ok(),
    }
}

/// ED A0 80 to ED BF BF, which stand for surrogates, as ED 80 80.
fn without_surrogates(text: &[u8]) -> Vec<u8> {
    let mut text = text.to_vec();
    for i in 1..text.len() {
        if text[i - 1] == 0xED && (0xA0..=0xBF).contains(&text[i]) {
            text[i] = 0x80;
        }
    }
    text
}
