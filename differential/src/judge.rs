//! Whether another supplier's result is ours but for the generated names.

use crate::random::Random;
use crate::tape::Node;
use crate::texts;
use crate::trees::{DEPTH, Ground, Trees};
use std::collections::{BTreeMap, BTreeSet};

pub type Names = BTreeSet<Vec<u8>>;

/// The names that stand in these trees: the texts of 27 and 43.
pub fn names<'a>(trees: impl IntoIterator<Item = &'a Node>) -> Names {
    let mut all = Names::new();
    trees.into_iter().for_each(|tree| tree.visit(&mut |node| all.extend(is_name(node).then(|| node.text.clone()))));
    all
}

fn is_name(node: &Node) -> bool {
    matches!(node.code, 27 | 43)
}

/// What stands against a one-to-one renaming of ours to theirs that touches no protected name: the first entry in which the
/// two differ otherwise, and its code.
pub fn difference(ours: &Node, theirs: &Node, protected: &Names) -> Option<(&'static str, u8)> {
    let mut pairs = Pairs { there: BTreeMap::new(), back: BTreeMap::new(), protected };
    pairs.differ(ours, theirs)
}

/// The renaming as far as it is known, in both directions.
struct Pairs<'a> {
    there: BTreeMap<Vec<u8>, Vec<u8>>,
    back: BTreeMap<Vec<u8>, Vec<u8>>,
    protected: &'a Names,
}

impl Pairs<'_> {
    fn differ(&mut self, ours: &Node, theirs: &Node) -> Option<(&'static str, u8)> {
        if ours.code != theirs.code {
            return Some(("another code", ours.code));
        }
        if is_name(ours) {
            return self.names_differ(&ours.text, &theirs.text).map(|why| (why, ours.code));
        }
        if ours.value != theirs.value || ours.text != theirs.text {
            return Some(("another value", ours.code));
        }
        // Equal codes and values have equally many children, whose order is that of the entries.
        ours.children.iter().zip(&theirs.children).find_map(|(a, b)| self.differ(a, b))
    }

    fn names_differ(&mut self, ours: &[u8], theirs: &[u8]) -> Option<&'static str> {
        if self.protected.contains(ours) {
            return (ours != theirs).then_some("a protected name renamed");
        }
        if self.protected.contains(theirs) {
            return Some("a name renamed to a protected one");
        }
        if self.there.entry(ours.to_vec()).or_insert(theirs.to_vec()) != theirs {
            return Some("one name renamed to two");
        }
        (self.back.entry(theirs.to_vec()).or_insert(ours.to_vec()) != ours).then_some("two names renamed to one")
    }
}

/// The tree with a number for every name that is not protected, in the order in which they come: two trees that are equal
/// so are renamings of each other. Decides the same as `difference` in another way.
pub fn numbered(tree: &Node, protected: &Names) -> Node {
    fn go(node: &Node, protected: &Names, numbers: &mut BTreeMap<Vec<u8>, u64>) -> Node {
        if is_name(node) && !protected.contains(&node.text) {
            let next = numbers.len() as u64;
            let number = *numbers.entry(node.text.clone()).or_insert(next);
            // No entry with text has a value other than its length, so this one is like no other.
            return Node::new(node.code, u64::MAX - number, vec![]);
        }
        let children = node.children.iter().map(|child| go(child, protected, numbers)).collect();
        Node { text: node.text.clone(), ..Node::new(node.code, node.value, children) }
    }
    go(tree, protected, &mut BTreeMap::new())
}

/// What a renaming shows.
pub fn kind_of_yes(ours: &Node, theirs: &Node, elsewhere: &Names) -> &'static str {
    let [own, other] = [ours, theirs].map(|tree| names([tree]));
    let new: Names = other.difference(&own).cloned().collect();
    match ours == theirs {
        true => "our own result",
        false if new.is_empty() => "generated names exchanged",
        false if !new.is_disjoint(elsewhere) => "renamed to a text that stands elsewhere",
        false => "renamed",
    }
}

/// The texts of trees that are no names: texts, parameters, binders, strings.
pub fn other_texts<'a>(trees: impl IntoIterator<Item = &'a Node>) -> Names {
    let mut all = Names::new();
    let mut add = |node: &'a Node| all.extend((!is_name(node) && !node.text.is_empty()).then(|| node.text.clone()));
    trees.into_iter().for_each(|tree| tree.visit(&mut add));
    all
}

// ------------------------------------------------------------------ what another supplier may send

/// A tape for a case whose own result is this, if there is one: right, and wrong in every way.
pub fn supplied(g: &mut Trees, registry: &Node, condition: &Node, ours: Option<&Node>, longest: usize) -> Node {
    let Some(ours) = ours else {
        g.fuel = g.random.size(20);
        return g.condition(Ground::Hidden, DEPTH);
    };
    let protected = names([registry, condition]);
    let mut theirs = ours.clone();
    let renaming = renaming(g.random, ours, &protected, &other_texts([registry, condition]), longest);
    let nothing_to_rename = renaming.iter().all(|(from, to)| from == to);
    match g.random.weighted(if nothing_to_rename { &[30, 0, 0, 60, 0, 10] } else { &[5, 45, 20, 20, 5, 5] }) {
        0 => {}
        1 => rename(&mut theirs, &renaming),
        // Here and there only, so that one name becomes two.
        2 => rename_some(g.random, &mut theirs, &renaming),
        3 => g.change_an_entry(&mut theirs, 0),
        4 => {
            rename(&mut theirs, &renaming);
            g.change_an_entry(&mut theirs, 0);
        }
        _ => theirs = with_ors(theirs),
    }
    theirs
}

/// What the names of our result are to become: most of them something new, each another.
fn renaming(
    random: &mut Random,
    ours: &Node,
    protected: &Names,
    elsewhere: &Names,
    longest: usize,
) -> BTreeMap<Vec<u8>, Vec<u8>> {
    let generated: Vec<Vec<u8>> = names([ours]).difference(protected).cloned().collect();
    let pick = |random: &mut Random, from: Vec<&Vec<u8>>| (!from.is_empty()).then(|| (*random.pick(&from)).clone());
    let mut to = BTreeMap::new();
    for (i, name) in generated.iter().enumerate() {
        let fresh = format!("n{i}").into_bytes();
        let new = match random.weighted(&[50, 14, 8, 4, 8, 8, 8]) {
            0 => Some(fresh.clone()),
            1 => Some(name.clone()),
            2 => pick(random, generated.iter().collect()),
            3 => pick(random, protected.iter().collect()),
            4 => pick(random, elsewhere.iter().collect()),
            5 => Some(texts::of_length(random, longest)),
            _ => Some([&fresh[..], name].concat()),
        };
        to.insert(name.clone(), new.unwrap_or(fresh));
    }
    if let [first, second, ..] = &generated[..]
        && random.chance(25)
    {
        to.insert(first.clone(), second.clone());
        to.insert(second.clone(), first.clone());
    }
    if random.chance(4) {
        to.extend(pick(random, protected.iter().collect()).map(|name| (name, b"unprotected".to_vec())));
    }
    to
}

fn rename(node: &mut Node, renaming: &BTreeMap<Vec<u8>, Vec<u8>>) {
    if is_name(node)
        && let Some(new) = renaming.get(&node.text)
    {
        *node = Node::with_text(node.code, new);
    }
    node.children.iter_mut().for_each(|child| rename(child, renaming));
}

fn rename_some(random: &mut Random, node: &mut Node, renaming: &BTreeMap<Vec<u8>, Vec<u8>>) {
    if node.children.is_empty() && random.chance(60) {
        rename(node, renaming);
    }
    node.children.iter_mut().for_each(|child| rename_some(random, child, renaming));
}

/// Back from the negation of a conjunction of two negations to Or, where all four have one span.
fn with_ors(mut node: Node) -> Node {
    node.children = node.children.into_iter().map(with_ors).collect();
    if node.code == 3
        && let [Node { code: 1, value, children, .. }] = &node.children[..]
        && children.iter().all(|side| side.code == 3 && side.value == node.value)
        && *value == node.value
    {
        return Node::new(2, node.value, children.iter().map(|side| side.children[0].clone()).collect());
    }
    node
}
