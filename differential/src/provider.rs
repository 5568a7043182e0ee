//! Provider calls on a tape, and arguments turned into terms and back.

use crate::brim::Figure;
use crate::tape::{LARGEST, LARGEST_LITERAL, Node};
use crate::texts;
use crate::trees::Trees;

/// The codes of an argument beside those of the terms that they become. A field becomes none.
const TURNED: [(u8, u8); 5] = [(72, 23), (73, 21), (74, 22), (75, 24), (76, 29)];

/// The term that an argument becomes, if it holds no field.
pub fn term_of(argument: &Node) -> Option<Node> {
    turned(argument, |code| TURNED.iter().find(|(from, _)| *from == code).map(|(_, to)| *to))
}

/// The argument that becomes this term, if there is one.
pub fn argument_of(term: &Node) -> Option<Node> {
    turned(term, |code| TURNED.iter().find(|(_, to)| *to == code).map(|(from, _)| *from))
}

fn turned(node: &Node, code: impl Fn(u8) -> Option<u8> + Copy) -> Option<Node> {
    let children = node.children.iter().map(|child| turned(child, code)).collect::<Option<_>>()?;
    Some(Node { text: node.text.clone(), ..Node::new(code(node.code)?, node.value, children) })
}

// ------------------------------------------------------------------ random trees

/// A provider call, now and then with many arguments.
pub fn call(g: &mut Trees, depth: usize) -> Node {
    let count = if g.random.chance(5) { g.random.within(15, 18) } else { g.random.below(4) };
    let name = g.name();
    let arguments = (0..count).map(|_| g.share(|g| argument(g, depth, true))).collect();
    Node::new(70, g.span(), vec![Node::with_text(40, &name), Node::counted(41, 1, arguments)])
}

/// An argument, with or without fields.
pub fn argument(g: &mut Trees, depth: usize, fields: bool) -> Node {
    g.fuel = g.fuel.saturating_sub(1);
    if g.fuel > 0 && depth > 1 && g.random.chance(60) {
        let count = g.random.below(6);
        return Node::counted(76, 1, (0..count).map(|_| g.share(|g| argument(g, depth - 1, fields))).collect());
    }
    match g.random.weighted(&[if fields { 20 } else { 0 }, 25, 20, 15, 15, 5]) {
        0 => {
            let path: Vec<Vec<u8>> = (0..g.random.below(4)).map(|_| g.name()).collect();
            Node::counted(71, 1, path.iter().map(|name| Node::with_text(40, name)).collect())
        }
        1 => text(g, 72),
        2 => Node::new(73, g.random.number() >> g.random.below(64), vec![]),
        3 => text(g, 74),
        4 => Node::new(75, g.random.below(2) as u64, vec![]),
        _ => Node::counted(76, 1, vec![]),
    }
}

fn text(g: &mut Trees, code: u8) -> Node {
    let length = if g.random.chance(4) { LARGEST_LITERAL } else { g.random.size(20) - 1 };
    Node::with_text(code, &texts::of_length(g.random, length))
}

/// The argument made larger by just so much, if that can be done.
pub fn grow(argument: Node, figure: Figure, more: usize) -> Option<Node> {
    let set = |items: Vec<Node>| Node::counted(76, 1, items);
    let bool = || Node::new(75, 0, vec![]);
    match figure {
        _ if more == 0 => Some(argument),
        Figure::Entries => Some(set([vec![argument], vec![bool(); more - 1]].concat())),
        Figure::Text => {
            let mut items = vec![argument];
            let mut left = more;
            while left > 0 {
                let length = left.min(LARGEST_LITERAL);
                items.push(Node::with_text(72, &vec![b'.'; length]));
                left -= length;
            }
            Some(set(items))
        }
        Figure::Nesting if more <= LARGEST.nesting => Some((0..more).fold(argument, |a, _| set(vec![a]))),
        Figure::Nesting => None,
    }
}
