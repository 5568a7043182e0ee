//! Trees at the limits: tapes with exactly so many entries, bytes of text or levels, and calls whose 54 or outcome has.

use crate::random::Random;
use crate::tape::{self, LARGEST, Measure, Node};
use crate::texts;

/// What a tree is to have more of.
#[derive(Clone, Copy, Debug, PartialEq, Eq)]
pub enum Figure {
    Entries,
    Text,
    Nesting,
}

pub const FIGURES: [Figure; 3] = [Figure::Entries, Figure::Text, Figure::Nesting];

impl Figure {
    pub fn largest(self) -> usize {
        self.of(&Measure { entries: LARGEST.entries, text: LARGEST.text, nesting: LARGEST.nesting, calls: 0 })
    }

    pub fn of(self, m: &Measure) -> usize {
        match self {
            Figure::Entries => m.entries,
            Figure::Text => m.text,
            Figure::Nesting => m.nesting,
        }
    }
}

/// Entries that hold nothing to be walked: wildcards, and strings where text is wanted.
fn filling(entries: usize, text: usize) -> Vec<Node> {
    let mut left = text;
    let filled = (0..entries)
        .map(|_| {
            let length = left.min(tape::LARGEST_LITERAL);
            left -= length;
            if length == 0 { Node::new(28, 0, vec![]) } else { Node::with_text(23, &vec![b'.'; length]) }
        })
        .collect();
    assert!(left == 0, "{entries} entries hold no {text} bytes of text");
    filled
}

/// An array of so many entries, itself counted, with so much text.
pub fn array(entries: usize, text: usize) -> Node {
    Node::counted(29, 1, filling(entries - 1, text))
}

/// The condition made larger by `more`, if that can be done: the figure grows by just that.
pub fn grow_condition(condition: Node, figure: Figure, more: usize) -> Option<Node> {
    let beside = |array: Node| {
        let operator = Node::new(53, 4, vec![]);
        Node::new(8, 0, vec![operator, array, Node::new(28, 0, vec![])])
    };
    match figure {
        _ if more == 0 => Some(condition),
        // 1, 8, 53 and 28 stand around the array.
        Figure::Entries if more >= 5 => Some(Node::new(1, 0, vec![condition, beside(array(more - 4, 0))])),
        Figure::Entries => Some((0..more).fold(condition, |c, _| Node::new(3, 0, vec![c]))),
        Figure::Text => {
            let entries = 1 + more.div_ceil(tape::LARGEST_LITERAL);
            Some(Node::new(1, 0, vec![condition, beside(array(entries, more))]))
        }
        Figure::Nesting if more <= LARGEST.nesting => Some((0..more).fold(condition, |c, _| Node::new(3, 0, vec![c]))),
        Figure::Nesting => None,
    }
}

/// The same for a term. Entries and nesting may not fit each other exactly: then none.
pub fn grow_term(term: Node, figure: Figure, more: usize) -> Option<Node> {
    let with = |array: Node| Node::new(31, 0, vec![term.clone(), array]);
    match figure {
        _ if more == 0 => Some(term),
        Figure::Entries if more >= 2 => Some(with(array(more - 1, 0))),
        Figure::Entries => Some(Node::counted(29, 1, vec![term])),
        Figure::Text => Some(with(array(1 + more.div_ceil(tape::LARGEST_LITERAL), more))),
        Figure::Nesting if more <= LARGEST.nesting => Some((0..more).fold(term, |t, _| Node::counted(29, 1, vec![t]))),
        Figure::Nesting => None,
    }
}

/// Makes what stands in an entry of one part (a body, an argument) larger.
pub fn grow_inside(node: &mut Node, figure: Figure, more: usize) -> bool {
    let Some(inner) = node.children.first() else { return false };
    let grown = match inner.code {
        1..=13 => grow_condition(inner.clone(), figure, more),
        20..=33 => grow_term(inner.clone(), figure, more),
        _ => None,
    };
    match grown {
        Some(grown) => {
            node.children[0] = grown;
            true
        }
        None => false,
    }
}

/// Ors inside one another around a condition of the tree, if it has one at its root, in a body or in an argument.
pub fn wrap_in_ors(random: &mut Random, tree: &mut Node) {
    if let 41 | 54 | 55 | 60 | 62 = tree.code
        && let Some(last) = tree.children.last_mut()
    {
        return wrap_in_ors(random, last);
    }
    if !matches!(tree.code, 1..=13) {
        return;
    }
    for _ in 0..random.size(LARGEST.nesting / 3) {
        let other = Node::new(8, tape::span(2, 3), vec![Node::new(53, 4, vec![]), array(1, 0), array(1, 0)]);
        let inner = std::mem::replace(tree, other.clone());
        let sides = if random.chance(50) { vec![inner, other] } else { vec![other, inner] };
        *tree = Node::new(2, tape::span(random.below(9) as u32, 9), sides);
    }
}

/// As many definitions as a tape has room for if all are refused, each by a plain identifier or an undeclared `?`: five
/// entries each. Now and then one of them passes.
pub fn refused_library(random: &mut Random) -> Node {
    let passing = random.below(2 * REFUSED);
    let one = |i: usize| {
        let term = match i {
            _ if i == passing => Node::new(28, 0, vec![]),
            _ => Node::with_text(*random.pick(&[27, 32]), b"y"),
        };
        let parts = vec![
            Node::with_text(40, format!("d{i}").as_bytes()),
            Node::counted(41, 2, vec![]),
            Node::new(63, 0, vec![term]),
        ];
        Node::new(60, tape::span(i as u32, random.below(1000) as u32), parts)
    };
    Node::counted(41, 1, (0..REFUSED).map(one).collect())
}

/// The most definitions of five entries.
const REFUSED: usize = (LARGEST.entries - 1) / 5;

/// How much has to be added for a figure to come to rest at or around its limit.
pub fn missing(random: &mut Random, figure: Figure, now: &Measure) -> Option<usize> {
    let target = figure.largest() + random.weighted(&[0, 40, 40, 10, 10]) - 1;
    target.checked_sub(figure.of(now))
}

/// One text of the tree gets a length around a limit; `longest_name` is that of a name.
pub fn stretch_a_text(random: &mut Random, tree: &mut Node, longest_name: usize) {
    let literal = |code: u8| matches!(code, 22 | 23);
    let any = |code: u8| tape::value(code) == tape::Value::TextLength;
    let count = |wanted: fn(u8) -> bool| {
        let mut count = 0;
        tree.visit(&mut |node| count += usize::from(wanted(node.code)));
        count
    };
    // Literals are few, and have a limit of their own.
    let (count, wanted) = match (count(literal), count(any)) {
        (_, 0) => return,
        (literals, _) if literals > 0 && random.chance(40) => (literals, literal as fn(u8) -> bool),
        (_, texts) => (texts, any as fn(u8) -> bool),
    };
    let length = *random.pick(&[0, 63, 64, 65, 75, longest_name, longest_name + 1, 254, 255, 256]);
    let text = match random.weighted(&[40, 30, 30]) {
        0 => texts::of_length(random, length),
        cut => texts::ending_wide(random, length.max(4), cut == 2),
    };
    set_text(tree, wanted, &mut random.below(count), &text);
}

/// Gives the entry that is wanted, after so many others, this text.
fn set_text(node: &mut Node, wanted: fn(u8) -> bool, others: &mut usize, text: &[u8]) -> bool {
    if wanted(node.code) {
        if *others == 0 {
            *node = Node::with_text(node.code, text);
            return true;
        }
        *others -= 1;
    }
    node.children.iter_mut().any(|child| set_text(child, wanted, others, text))
}

/// `name` called so many times inside its own argument, in one of the ways a 54 can stand inside another.
pub fn nested_calls(random: &mut Random, name: &[u8], depth: usize) -> Node {
    let arguments = match depth {
        1 => vec![],
        _ => {
            let inner = nested_calls(random, name, depth - 1);
            let as_value = |call: Node| Node::new(30, 0, vec![Node::new(36, 0, vec![call])]);
            let argument = match random.below(4) {
                0 => Node::new(55, 0, vec![Node::new(11, 0, vec![inner])]),
                1 => Node::new(56, 0, vec![as_value(inner)]),
                2 => Node::new(56, 0, vec![Node::counted(29, 1, vec![as_value(inner)])]),
                _ => {
                    let fields = Node::counted(41, 2, vec![Node::with_text(40, b"f"), as_value(inner)]);
                    let none = Node::counted(41, 1, vec![]);
                    let empty = || Node::with_text(40, b"");
                    let place = Node::new(42, 0, vec![]);
                    Node::new(55, 0, vec![Node::new(7, 0, vec![place, none, empty(), empty(), fields])])
                }
            };
            vec![argument]
        }
    };
    Node::new(54, 0, vec![Node::with_text(40, name), Node::counted(41, 1, arguments)])
}

/// A call with so many arguments.
pub fn wide_call(name: &[u8], arguments: usize) -> Node {
    let argument = Node::new(56, 0, vec![Node::new(28, 0, vec![])]);
    Node::new(54, tape::span(7, 9), vec![Node::with_text(40, name), Node::counted(41, 1, vec![argument; arguments])])
}

/// Behind what stands in an entry of one part comes a `?` that names nothing: it tells whether the walk goes on.
pub fn refuse_behind(node: &mut Node) {
    let Some(inner) = node.children.pop() else { return };
    let nothing = b"nothing";
    node.children.push(match inner.code {
        1..=13 => {
            let sigil = Node::new(12, tape::span(30, 31), vec![Node::with_text(58, nothing)]);
            Node::new(1, 0, vec![inner, sigil])
        }
        _ => Node::new(31, 0, vec![inner, Node::with_text(32, nothing)]),
    });
}
