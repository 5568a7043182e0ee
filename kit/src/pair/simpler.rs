//! Simpler trees for a place of a tree: fewer entries, or as many that are easier to look at.

use super::plain::{self, holding, tp, wildcard};
use differential::tape::{self, LARGEST_TEXT, Node, Sort, Value};

/// A node's place: which child, of which child, of the root.
pub type Path = Vec<usize>;

/// The sorts of a node's children.
fn child_sorts(sort: Sort, node: &Node) -> Vec<Sort> {
    let parts = tape::parts(node.code);
    if !parts.is_empty() {
        return parts.to_vec();
    }
    tape::item(sort, node.code).iter().copied().cycle().take(node.children.len()).collect()
}

/// Every place of a tree with its sort, in entry order.
pub fn places(root: &Node, sort: Sort) -> Vec<(Path, Sort)> {
    let mut found = Vec::new();
    visit(root, sort, &mut Vec::new(), &mut found);
    found
}

fn visit(node: &Node, sort: Sort, path: &mut Path, found: &mut Vec<(Path, Sort)>) {
    found.push((path.clone(), sort));
    for (i, (child, sort)) in node.children.iter().zip(child_sorts(sort, node)).enumerate() {
        path.push(i);
        visit(child, sort, path, found);
        path.pop();
    }
}

pub fn at<'a>(root: &'a Node, path: &[usize]) -> &'a Node {
    path.iter().fold(root, |node, i| &node.children[*i])
}

pub fn replaced(root: &Node, path: &[usize], by: Node) -> Node {
    let mut tree = root.clone();
    *path.iter().fold(&mut tree, |node, i| &mut node.children[*i]) = by;
    tree
}

/// What could stand in a node's place: the smallest tree of its sort, trees inside it, the least trees with a text of it,
/// and plain trees that are as large as it is, in case the size is what matters.
pub fn instead(node: &Node, sort: Sort) -> Vec<Node> {
    let mut found: Vec<Node> = smallest(node, sort);
    found.extend(inside(node, sort));
    found.extend(calls_and_sigils(node, sort));
    found.extend(across(node, sort));
    found.extend(around_texts(node, sort));
    found.extend(plain::as_large(node, sort));
    found.extend(shorter_lists(node, sort));
    found.extend(other_values(node));
    found.retain(|other| other != node);
    found
}

/// The smallest trees of a sort.
pub fn smallest(node: &Node, sort: Sort) -> Vec<Node> {
    let (wildcard, sigil) = (wildcard(), Node::with_text(32, b"y"));
    match sort {
        Sort::Condition => vec![tp(), plain::predicate()],
        Sort::Term => vec![wildcard, Node::with_text(27, b"x"), sigil],
        Sort::Aggregate => plain::counting(tp()).children,
        Sort::Slot => vec![Node::with_text(43, b"q")],
        Sort::Type => vec![Node::new(46, 0, vec![])],
        Sort::Within | Sort::Interval => vec![Node::new(50, 1, vec![])],
        Sort::Argument => vec![holding(56, wildcard), holding(56, sigil), holding(55, tp())],
        Sort::Body => vec![Node::new(61, 0, vec![]), holding(62, tp()), holding(63, wildcard)],
        Sort::Any if matches!(node.code, 1..=13) => smallest(node, Sort::Condition),
        Sort::Any if matches!(node.code, 20..=33) => smallest(node, Sort::Term),
        _ => vec![],
    }
}

/// So many trees inside one are tried in its place, the outermost first.
const INSIDE: usize = 12;

/// The trees of one sort inside a node of another.
fn of_sort(node: &Node, sort: Sort, wanted: Sort) -> impl Iterator<Item = Node> {
    let is_wanted = |(path, of): &(Path, Sort)| !path.is_empty() && *of == wanted;
    let mut paths: Vec<Path> = places(node, sort).into_iter().filter(is_wanted).map(|(path, _)| path).collect();
    paths.sort_by_key(Vec::len);
    paths.into_iter().take(INSIDE).map(|path| at(node, &path).clone())
}

fn inside(node: &Node, sort: Sort) -> Vec<Node> {
    match sort {
        Sort::Any => [Sort::Definition, Sort::Condition, Sort::Term, Sort::Call]
            .into_iter()
            .flat_map(|wanted| of_sort(node, sort, wanted))
            .collect(),
        _ => of_sort(node, sort, sort).collect(),
    }
}

/// A call or a sigil inside it can stand there by itself, whatever it was part of.
fn calls_and_sigils(node: &Node, sort: Sort) -> Vec<Node> {
    let tp = |code: u8, name: &[u8]| Node::new(10, 0, vec![Node::with_text(code, name)]);
    let mut found = Vec::new();
    node.visit(&mut |part| match (part.code, sort) {
        (54, Sort::Condition) => found.push(plain::called(part.clone())),
        (54, Sort::Term) => found.push(plain::called_for_value(part.clone())),
        // A bare call is shorter as an argument, whichever macro it is of.
        (54, Sort::Argument) => found.push(holding(55, plain::called(part.clone()))),
        (33 | 45, Sort::Condition) => found.push(tp(45, &part.text)),
        (32 | 44, Sort::Condition) => found.push(tp(44, &part.text)),
        _ => {}
    });
    found
}

/// Terms inside a condition and conditions inside a term, each in the least that can hold it there. What matters may be
/// in a term, whatever condition stands around it, and the other way round.
fn across(node: &Node, sort: Sort) -> Vec<Node> {
    let conditions = || of_sort(node, sort, Sort::Condition);
    let terms = || of_sort(node, sort, Sort::Term);
    match (sort, node.code) {
        (Sort::Condition, _) => terms().map(plain::equal).chain(both(conditions())).collect(),
        (Sort::Term, _) => conditions().map(plain::counting).collect(),
        (Sort::Argument, 55) => terms().map(|term| holding(56, term)).collect(),
        (Sort::Argument, 56) => conditions().map(|condition| holding(55, condition)).collect(),
        (Sort::Body, 62) => terms().map(|term| holding(63, term)).collect(),
        (Sort::Body, 63) => conditions().map(|condition| holding(62, condition)).collect(),
        _ => vec![],
    }
}

/// Two of the outermost conditions, joined: both may matter, and what holds them not.
fn both(conditions: impl Iterator<Item = Node>) -> Vec<Node> {
    let outermost: Vec<Node> = conditions.take(4).collect();
    let pairs = (0..outermost.len()).flat_map(|second| (0..second).map(move |first| [first, second]));
    pairs.map(|two| Node::new(1, 0, two.map(|i| outermost[i].clone()).to_vec())).collect()
}

/// The least trees with one text of a node, or with two that stand side by side. A text can be wrong by its length or its
/// bytes, and one that is no UTF-8 by itself can be taken for right with the one behind it. Of others nothing depends.
fn around_texts(node: &Node, sort: Sort) -> Vec<Node> {
    let mut texts: Vec<&[u8]> = Vec::new();
    node.visit(&mut |part| {
        // Between two texts an empty one is none.
        if tape::value(part.code) == Value::TextLength && !part.text.is_empty() {
            texts.push(&part.text);
        }
    });
    let is_odd = |text: &[u8]| text.len() >= LARGEST_TEXT || !text.is_ascii();
    let is_broken = |text: &[u8]| std::str::from_utf8(text).is_err();
    let alone = texts.iter().filter(|text| is_odd(text)).filter_map(|text| with_text(text, sort));
    let beside = texts.windows(2).filter(|two| two.iter().any(|text| is_broken(text)));
    let beside = beside.filter_map(|two| with_texts(two[0], two[1], sort));
    alone.take(INSIDE).chain(beside.take(INSIDE)).collect()
}

fn with_text(text: &[u8], sort: Sort) -> Option<Node> {
    let variable = || Node::with_text(27, text);
    Some(match sort {
        Sort::Condition => Node::new(10, 0, vec![Node::with_text(43, text)]),
        Sort::Term => variable(),
        Sort::Argument => holding(56, variable()),
        Sort::Body => holding(63, variable()),
        Sort::Call => plain::call(text, vec![]),
        Sort::Definition => plain::cedar(text, &[]),
        Sort::Definitions => plain::registry(vec![plain::cedar(text, &[])]),
        _ => return None,
    })
}

fn with_texts(first: &[u8], second: &[u8], sort: Sort) -> Option<Node> {
    let entity = || Node::new(20, 0, [first, second].map(|text| Node::with_text(40, text)).to_vec());
    Some(match sort {
        Sort::Condition => plain::equal(entity()),
        Sort::Term => entity(),
        Sort::Argument => holding(56, entity()),
        Sort::Body => holding(63, entity()),
        Sort::Call => plain::call(first, vec![holding(56, Node::with_text(27, second))]),
        Sort::Definition => plain::cedar(first, &[second]),
        Sort::Definitions => plain::registry(vec![plain::cedar(first, &[second])]),
        _ => return None,
    })
}

/// A list without some of its items: all of them, halves, and so on down to single ones.
fn shorter_lists(node: &Node, sort: Sort) -> Vec<Node> {
    let width = tape::item(sort, node.code).len();
    if width == 0 || node.children.is_empty() {
        return vec![];
    }
    let items: Vec<&[Node]> = node.children.chunks(width).collect();
    let mut found = Vec::new();
    let mut chunk = items.len();
    while chunk > 0 {
        for start in (0..items.len()).step_by(chunk) {
            let kept = [&items[..start], &items[(start + chunk).min(items.len())..]].concat().concat();
            let list = Node::counted(node.code, width, kept);
            // Of equal items it does not matter which of them go.
            if found.last() != Some(&list) {
                found.push(list);
            }
        }
        // Of long lists single items are tried only once halves of halves are gone.
        chunk = if chunk > 64 { chunk / 4 } else { chunk / 2 };
    }
    found
}

/// The same node with an easier value or text.
fn other_values(node: &Node) -> Vec<Node> {
    let with = |value: u64| Node { value, ..node.clone() };
    match tape::value(node.code) {
        Value::Span => {
            let [start, end] = [tape::span_start(node.value), tape::span_end(node.value)].map(|n| n as u32);
            let spans = [(0, 0), (0, 1), (1, 0), (1, 2), (start, 0), (0, end), (start / 10, end), (start, end / 10)];
            spans.map(|(start, end)| with(tape::span(start, end))).to_vec()
        }
        Value::Any => [0, 1, node.value / 2].map(with).to_vec(),
        Value::TextLength => {
            let text = &node.text;
            let plain = vec![b'a'; text.len()];
            let cuts = [0, 1, text.len() / 2, text.len().saturating_sub(1)];
            let mut texts: Vec<Vec<u8>> = cuts.iter().map(|n| text[..(*n).min(text.len())].to_vec()).collect();
            texts.extend([plain, text.get(1..).unwrap_or(&[]).to_vec()]);
            if text.is_empty() {
                // An empty action is harder to read than one of a letter.
                texts.push(b"P".to_vec());
            }
            texts.into_iter().map(|text| Node::with_text(node.code, &text)).collect()
        }
        _ => vec![],
    }
}
