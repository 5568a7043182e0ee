//! Trees with the part of the text that each of their entries stands for. Spans are those of conditions, aggregates and
//! calls alone, and may be written; a place is where an entry was read, whatever its span says.

use differential::tape::{self, Node, Value};

/// From one byte of a text to another; of a tape, from one entry to another.
#[derive(Clone, Copy, Debug, Default, PartialEq, Eq, PartialOrd, Ord)]
pub struct Place {
    pub start: usize,
    pub end: usize,
}

impl Place {
    pub fn new(start: usize, end: usize) -> Place {
        Place { start, end }
    }

    /// Whether another one lies in it.
    pub fn holds(self, other: Place) -> bool {
        self.start <= other.start && other.end <= self.end
    }

    pub fn span(self) -> u64 {
        tape::span(self.start as u32, self.end as u32)
    }
}

#[derive(Clone, Debug, PartialEq, Eq)]
pub struct Placed {
    pub code: u8,
    pub value: u64,
    pub text: Vec<u8>,
    pub place: Place,
    pub children: Vec<Placed>,
}

impl Placed {
    pub fn new(code: u8, value: u64, place: Place, children: Vec<Placed>) -> Placed {
        Placed { code, value, text: Vec::new(), place, children }
    }

    pub fn with_text(code: u8, text: &[u8], place: Place) -> Placed {
        Placed { code, value: text.len() as u64, text: text.to_vec(), place, children: Vec::new() }
    }

    /// An entry with a count, whose items have `width` trees each.
    pub fn counted(code: u8, width: usize, place: Place, children: Vec<Placed>) -> Placed {
        Placed::new(code, (children.len() / width) as u64, place, children)
    }

    /// The tree of a tape: places are numbers of entries, from 0; a tree's ends behind its last one.
    pub fn of_tape(tree: &Node) -> Placed {
        fn numbered(node: &Node, next: &mut usize) -> Placed {
            let start = *next;
            *next += 1;
            let children = node.children.iter().map(|child| numbered(child, next)).collect();
            let place = Place::new(start, *next);
            Placed { code: node.code, value: node.value, text: node.text.clone(), place, children }
        }
        numbered(tree, &mut 0)
    }

    /// The tree alone.
    pub fn node(&self) -> Node {
        self.map(&|node| node.value)
    }

    /// The tree with each span counted from its place, so that the span of an answer is a place. `shift` is added to
    /// the bytes.
    pub fn with_places(&self, shift: usize) -> Node {
        self.map(&|node| match tape::value(node.code) {
            Value::Span => Place::new(node.place.start + shift, node.place.end + shift).span(),
            _ => node.value,
        })
    }

    fn map(&self, value: &impl Fn(&Placed) -> u64) -> Node {
        let children = self.children.iter().map(|child| child.map(value)).collect();
        Node { text: self.text.clone(), ..Node::new(self.code, value(self), children) }
    }

    /// This entry and all below it, in entry order.
    pub fn visit<'a>(&'a self, f: &mut impl FnMut(&'a Placed)) {
        f(self);
        self.children.iter().for_each(|child| child.visit(f));
    }

    /// The first entry that lies inside so many others.
    pub fn below(&self, others: usize) -> Option<&Placed> {
        match others.checked_sub(1) {
            None => Some(self),
            Some(others) => self.children.iter().find_map(|child| child.below(others)),
        }
    }

    /// The first entry, in entry order, that is as wanted.
    pub fn find(&self, is_wanted: &impl Fn(&Placed) -> bool) -> Option<&Placed> {
        let below = || self.children.iter().find_map(|child| child.find(is_wanted));
        if is_wanted(self) { Some(self) } else { below() }
    }
}
