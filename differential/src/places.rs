//! The places of the format: which codes may stand where, and which were seen there.

use crate::tape::{self, Node, Sort};
use std::collections::BTreeSet;

/// A place: the entry above (0 for the root, a list's owner for its items), the part of it, the part of an item, and
/// the code that stands there.
pub type Place = (u8, usize, usize, u8);

/// All places that a tape with one of these roots can have.
pub fn all(roots: &[Sort]) -> BTreeSet<Place> {
    let mut places = BTreeSet::new();
    for (i, root) in roots.iter().enumerate() {
        add_all(*root, (0, i, 0), &mut places);
    }
    places
}

fn add_all(sort: Sort, at: (u8, usize, usize), places: &mut BTreeSet<Place>) {
    for &code in tape::codes(sort) {
        if !places.insert((at.0, at.1, at.2, code)) {
            continue;
        }
        for (i, part) in tape::parts(code).iter().enumerate() {
            add_all(*part, (code, i, 0), places);
        }
        // The items of a list are told apart by the list's owner.
        let owner = if code == 41 { (at.0, at.1) } else { (code, 0) };
        for (k, part) in tape::item(sort, code).iter().enumerate() {
            add_all(*part, (owner.0, owner.1, k + 1), places);
        }
    }
}

/// The places of an operation's trees.
pub fn seen(trees: &[Node]) -> BTreeSet<Place> {
    let mut places = BTreeSet::new();
    for (i, tree) in trees.iter().enumerate() {
        add_seen(tree, (0, i, 0), &mut places);
    }
    places
}

fn add_seen(node: &Node, at: (u8, usize, usize), places: &mut BTreeSet<Place>) {
    places.insert((at.0, at.1, at.2, node.code));
    let parts = tape::parts(node.code).len();
    let owner = if node.code == 41 { (at.0, at.1) } else { (node.code, 0) };
    let width = if node.value > 0 { node.children.len() / node.value.min(1 << 20) as usize } else { 1 };
    for (i, child) in node.children.iter().enumerate() {
        let place = if parts > 0 { (node.code, i, 0) } else { (owner.0, owner.1, i % width + 1) };
        add_seen(child, place, places);
    }
}
