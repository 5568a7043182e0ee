//! Plain trees: the smallest of each sort, and large ones that are easy to look at.

use differential::tape::{self, LARGEST_LITERAL, Measure, Node, Sort};

pub fn tp() -> Node {
    Node::new(10, 0, vec![Node::with_text(43, b"q")])
}

pub fn predicate() -> Node {
    let [action, kind] = [&b"P"[..], b""].map(|text| Node::with_text(40, text));
    let none = || Node::counted(41, 1, vec![]);
    Node::new(7, 0, vec![Node::new(42, 0, vec![]), none(), action, kind, none()])
}

pub fn wildcard() -> Node {
    Node::new(28, 0, vec![])
}

/// `* == term`
pub fn equal(term: Node) -> Node {
    compared(wildcard(), term)
}

pub fn compared(left: Node, right: Node) -> Node {
    Node::new(8, 0, vec![Node::new(53, 4, vec![]), left, right])
}

/// `count where condition`
pub fn counting(condition: Node) -> Node {
    Node::new(30, 0, vec![Node::new(35, 0, vec![Node::counted(41, 2, vec![]), condition])])
}

pub fn call(name: &[u8], arguments: Vec<Node>) -> Node {
    Node::new(54, 0, vec![Node::with_text(40, name), Node::counted(41, 1, arguments)])
}

/// A call where a condition stands, and where a term stands.
pub fn called(call: Node) -> Node {
    Node::new(11, 0, vec![call])
}

pub fn called_for_value(call: Node) -> Node {
    Node::new(30, 0, vec![Node::new(36, 0, vec![call])])
}

/// An argument, or with 62 and 63 a body.
pub fn holding(code: u8, inner: Node) -> Node {
    Node::new(code, 0, vec![inner])
}

pub fn definition(name: &[u8], parameters: &[&[u8]], body: Node) -> Node {
    let pair = |parameter: &&[u8]| [Node::new(42, 0, vec![]), Node::with_text(40, parameter)];
    let list = Node::counted(41, 2, parameters.iter().flat_map(pair).collect());
    Node::new(60, 0, vec![Node::with_text(40, name), list, body])
}

/// A definition whose body is not read.
pub fn cedar(name: &[u8], parameters: &[&[u8]]) -> Node {
    definition(name, parameters, Node::new(61, 0, vec![]))
}

/// Whether an argument is a call.
pub fn is_call(argument: &Node) -> bool {
    matches!(argument.children[0].code, 11) || argument.children[0].children.first().is_some_and(|part| part.code == 36)
}

pub fn registry(definitions: Vec<Node>) -> Node {
    Node::counted(41, 1, definitions)
}

/// An array with so many entries.
pub fn array(entries: usize) -> Node {
    Node::counted(29, 1, vec![wildcard(); entries - 1])
}

/// A term with so many entries.
pub fn term(entries: usize) -> Node {
    if entries == 1 { wildcard() } else { array(entries) }
}

pub fn string(length: usize) -> Node {
    Node::with_text(23, &vec![b'a'; length])
}

/// Strings with so many bytes together.
pub fn texts(bytes: usize) -> Node {
    let lengths = (0..bytes).step_by(LARGEST_LITERAL).map(|at| (bytes - at).min(LARGEST_LITERAL));
    Node::counted(29, 1, lengths.map(string).collect())
}

/// So many negations of a condition.
pub fn negated(times: usize, condition: Node) -> Node {
    (0..times).fold(condition, |inner, _| Node::new(3, 0, vec![inner]))
}

/// A term that nests so deep.
fn arrays(nesting: usize) -> Node {
    (1..nesting).fold(wildcard(), |inner, _| Node::counted(29, 1, vec![inner]))
}

/// A tree this small is not made plain.
pub const SMALL: usize = 12;

/// Plain trees with as much nesting, text, or entries.
pub fn as_large(node: &Node, sort: Sort) -> Vec<Node> {
    let Measure { entries, nesting, text, .. } = tape::measure(node);
    if entries <= SMALL {
        return vec![];
    }
    // Beside the condition a definition has entries and a name of its own.
    let conditions = |others: usize, name: usize| {
        let negations = negated(nesting.saturating_sub(1), tp());
        [negations, equal(texts(text.saturating_sub(name))), equal(array(entries - others - 3))]
    };
    let defined = |body: Node| definition(b"m", &[], holding(62, body));
    let given = |term: Node| call(b"m", vec![holding(56, term)]);
    match sort {
        Sort::Condition => conditions(0, 0).to_vec(),
        Sort::Term => vec![arrays(nesting), texts(text), array(entries)],
        Sort::Call => vec![given(texts(text.saturating_sub(1))), given(array(entries - 4))],
        Sort::Definition => conditions(4, 1).map(defined).to_vec(),
        Sort::Definitions => conditions(5, 1).map(|body| registry(vec![defined(body)])).to_vec(),
        _ => vec![],
    }
}
