//! Trees made from the format's own table: the least one of each code, and definitions that hold an entry of each code in
//! each place, as deep as may be.

use crate::by_hand::{all, array, defined, list, negated};
use crate::tape::{self, LARGEST, LARGEST_CALLS, Node, Sort, Value};
use std::collections::BTreeSet;
use std::rc::Rc;

/// The span of every entry of these trees that has one.
const SPAN: u64 = tape::span(3, 5);

/// The code of a sort whose tree has the fewest entries, and no node where it can be without.
fn smallest(sort: Sort) -> u8 {
    match sort {
        Sort::Condition | Sort::Any => 10,
        Sort::Term => 28,
        Sort::Aggregate => 35,
        Sort::Argument => 57,
        Sort::Provider | Sort::ProviderArgument => 75,
        other => tape::codes(other)[0],
    }
}

/// The tree with this code at its root that has the fewest entries. A text is one byte, a list or a path has no items.
pub fn least(code: u8) -> Node {
    let children = tape::parts(code).iter().map(|part| least_of(*part)).collect();
    match tape::value(code) {
        Value::TextLength => Node::with_text(code, b"a"),
        Value::Span => Node::new(code, SPAN, children),
        _ => Node::new(code, 0, children),
    }
}

/// The least tree of a sort.
pub fn least_of(sort: Sort) -> Node {
    least(smallest(sort))
}

/// The fewest entries that a tree with this code can have.
pub fn fewest(code: u8) -> usize {
    tape::measure(&least(code)).entries
}

// ------------------------------------------------------------------ places

/// A place of the format: the code above it, the way from there, and what stands there. Items of a list belong to the code
/// above the list.
#[derive(Clone, Debug, PartialEq, Eq, PartialOrd, Ord)]
pub struct Place {
    pub owner: u8,
    pub way: Vec<usize>,
    pub sort: Sort,
    pub code: u8,
}

/// Every place of a definition.
pub fn places() -> Vec<Place> {
    let (mut all, mut met) = (BTreeSet::new(), BTreeSet::new());
    add_places(60, &mut met, &mut all);
    all.into_iter().collect()
}

fn add_places(owner: u8, met: &mut BTreeSet<u8>, all: &mut BTreeSet<Place>) {
    if !met.insert(owner) {
        return;
    }
    for (i, part) in tape::parts(owner).iter().enumerate() {
        add_place(owner, vec![i], *part, met, all);
        for (k, item) in tape::item(*part, 41).iter().enumerate() {
            add_place(owner, vec![i, k], *item, met, all);
        }
    }
    // An array or a path has its items below itself.
    for (k, item) in tape::item(Sort::Any, owner).iter().enumerate() {
        add_place(owner, vec![k], *item, met, all);
    }
}

fn add_place(owner: u8, way: Vec<usize>, sort: Sort, met: &mut BTreeSet<u8>, all: &mut BTreeSet<Place>) {
    for &code in tape::codes(sort) {
        all.insert(Place { owner, way: way.clone(), sort, code });
        if code != 41 {
            add_places(code, met, all);
        }
    }
}

/// An entry in a tree: the way to it, a child of each node from the root on, and the sort of its place.
#[derive(Clone, Debug)]
pub struct Site {
    pub tree: Rc<Node>,
    pub way: Vec<usize>,
    pub sort: Sort,
}

impl Site {
    pub fn entry(&self) -> &Node {
        self.way.iter().fold(&*self.tree, |node, i| &node.children[*i])
    }

    /// The tree with another entry there, and what follows it.
    pub fn with(&self, entry: Node) -> Node {
        let mut tree = Node::clone(&self.tree);
        *self.way.iter().fold(&mut tree, |node, i| &mut node.children[*i]) = entry;
        tree
    }

    /// The conditions, terms and aggregates on the way to the entry, itself among them.
    pub fn depth(&self) -> usize {
        let mut node = &*self.tree;
        let mut depth = usize::from(tape::is_node(node.code));
        for i in &self.way {
            node = &node.children[*i];
            depth += usize::from(tape::is_node(node.code));
        }
        depth
    }

    /// One entry more above the root, which is child `i` of it.
    fn below(self, i: usize, around: impl FnOnce(Node) -> Node) -> Site {
        Site {
            tree: Rc::new(around(Rc::unwrap_or_clone(self.tree))),
            way: [vec![i], self.way].concat(),
            sort: self.sort,
        }
    }
}

impl Place {
    /// The least tree of the owner that has the place.
    pub fn alone(&self) -> Site {
        let mut tree = least(self.owner);
        let items = |sort: Sort, code: u8| tape::item(sort, code).iter().map(|s| least_of(*s)).collect();
        match self.way[..] {
            [i, _] => tree.children[i] = Node::new(41, 1, items(tape::parts(self.owner)[i], 41)),
            _ if tape::value(self.owner) == Value::Count => {
                tree = Node::new(self.owner, 1, items(self.sort, self.owner))
            }
            _ => {}
        }
        let site = Site { tree: Rc::new(tree), way: self.way.clone(), sort: self.sort };
        Site { tree: Rc::new(site.with(least(self.code))), ..site }
    }

    /// A definition that has the place, with so many more levels around its owner.
    pub fn in_definition(&self, levels: usize) -> Option<Site> {
        if matches!(self.owner, 60 | 62 | 63) && levels > 0 {
            return None;
        }
        let site = into_definition(self.alone(), levels);
        fits(&site.tree).then_some(site)
    }

    /// A condition that has the place.
    pub fn in_condition(&self) -> Node {
        let site = into_definition(self.alone(), 0);
        let body = &site.tree.children[2].children[0];
        match body.code {
            1..=13 => body.clone(),
            _ => Node::new(8, SPAN, vec![least(53), body.clone(), least(28)]),
        }
    }
}

/// Whether a definition is within the largest figures, without Or.
pub fn fits(definition: &Node) -> bool {
    let measure = tape::measure(&tape::withdrawn(definition));
    measure.over(&LARGEST).is_none() && measure.entries < LARGEST.entries && measure.calls <= LARGEST_CALLS
}

/// The definition around a tree that belongs into one: negations around a condition, arrays around a term.
fn into_definition(site: Site, levels: usize) -> Site {
    match site.tree.code {
        60 => site,
        62 | 63 => site.below(2, |body| Node { value: SPAN, ..defined("d", &[], body) }),
        1..=13 => {
            let negations = |condition: Node| Node::new(62, 0, vec![spanned(negated(condition, levels), levels)]);
            let site = Site { way: [vec![0; levels], site.way].concat(), ..site };
            into_definition(site.below(0, negations), 0)
        }
        20..=33 => {
            let arrays = |term: Node| Node::new(63, 0, vec![(0..levels).fold(term, |t, _| array(vec![t]))]);
            let site = Site { way: [vec![0; levels], site.way].concat(), ..site };
            into_definition(site.below(0, arrays), 0)
        }
        34..=36 => into_definition(site.below(0, |aggregate| Node::new(30, 0, vec![aggregate])), levels),
        47 => into_definition(site.below(1, |path| Node::new(9, SPAN, vec![least(43), path, least(10)])), levels),
        54 => into_definition(site.below(0, |call| Node::new(11, SPAN, vec![call])), levels),
        55..=57 => {
            let site = site.below(0, |argument| list(1, vec![argument]));
            into_definition(site.below(1, |arguments| Node::new(54, SPAN, vec![least(40), arguments])), levels)
        }
        code => unreachable!("a {code} owns nothing in a definition"),
    }
}

/// The negations that stand around get a span, each another.
fn spanned(mut condition: Node, levels: usize) -> Node {
    let mut around = &mut condition;
    for level in 0..levels {
        around.value = tape::span(level as u32, 1000);
        around = &mut around.children[0];
    }
    condition
}

// ------------------------------------------------------------------ every entry of a tree

/// Every entry of a tree whose root is of this sort, in entry order.
pub fn sites(tree: &Node, sort: Sort) -> Vec<Site> {
    let mut ways = Vec::new();
    add_ways(tree, sort, &mut vec![], &mut ways);
    let tree = Rc::new(tree.clone());
    ways.into_iter().map(|(way, sort)| Site { tree: tree.clone(), way, sort }).collect()
}

fn add_ways(node: &Node, sort: Sort, way: &mut Vec<usize>, all: &mut Vec<(Vec<usize>, Sort)>) {
    all.push((way.clone(), sort));
    let (parts, item) = (tape::parts(node.code), tape::item(sort, node.code));
    for (i, child) in node.children.iter().enumerate() {
        way.push(i);
        add_ways(child, if parts.is_empty() { item[i % item.len()] } else { parts[i] }, way, all);
        way.pop();
    }
}

/// A condition that holds every code of a definition's body in some place.
pub fn every_code() -> Node {
    let mut shown = BTreeSet::new();
    let inside = places().into_iter().filter(|place| !matches!(place.owner, 60 | 62 | 63));
    let first: Vec<Node> = inside.filter(|place| shown.insert(place.code)).map(|place| place.in_condition()).collect();
    all(&first)
}
