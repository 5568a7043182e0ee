//! Small trees, put together by hand.

use crate::tape::{Node, span};

pub fn text(t: &str) -> Node {
    Node::with_text(40, t.as_bytes())
}

pub fn list(width: usize, items: Vec<Node>) -> Node {
    Node::counted(41, width, items)
}

// ------------------------------------------------------------------ conditions

pub fn fields(fields: Vec<(&str, Node)>) -> Node {
    list(2, fields.into_iter().flat_map(|(name, term)| [text(name), term]).collect())
}

/// No namespace, this action, empty kind.
pub fn predicate(action: &str, of: Vec<(&str, Node)>) -> Node {
    Node::new(7, 0, vec![Node::new(42, 0, vec![]), list(1, vec![]), text(action), text(""), fields(of)])
}

/// `P{…}`: no namespace, action P, empty kind.
pub fn p(of: Vec<(&str, Node)>) -> Node {
    predicate("P", of)
}

pub fn and(left: Node, right: Node) -> Node {
    Node::new(1, 0, vec![left, right])
}

/// All of them, in order, nested as little as may be.
pub fn all(conditions: &[Node]) -> Node {
    match conditions {
        [one] => one.clone(),
        _ => {
            let (left, right) = conditions.split_at(conditions.len() / 2);
            and(all(left), all(right))
        }
    }
}

pub fn not(condition: Node) -> Node {
    Node::new(3, 0, vec![condition])
}

/// So many negations around a condition.
pub fn negated(condition: Node, times: usize) -> Node {
    (0..times).fold(condition, |c, _| not(c))
}

pub fn equal(left: Node, right: Node) -> Node {
    Node::new(8, 0, vec![Node::new(53, 4, vec![]), left, right])
}

pub fn sigil(code: u8, name: &str) -> Node {
    Node::new(12, 0, vec![Node::with_text(code, name.as_bytes())])
}

/// `tp(…)` of a slot with this code.
pub fn tp(code: u8, name: &str) -> Node {
    Node::new(10, 0, vec![Node::with_text(code, name.as_bytes())])
}

/// A refinement with this span of its own.
pub fn refined(base: Node, span: u64, of: Vec<(&str, Node)>) -> Node {
    Node::new(13, 0, vec![Node::new(42, span, vec![]), base, fields(of)])
}

// ------------------------------------------------------------------ terms

pub fn integer(n: u64) -> Node {
    Node::new(21, n, vec![])
}

pub fn variable(name: &str) -> Node {
    Node::with_text(27, name.as_bytes())
}

pub fn wildcard() -> Node {
    Node::new(28, 0, vec![])
}

pub fn array(items: Vec<Node>) -> Node {
    Node::counted(29, 1, items)
}

pub fn parameter(name: &str) -> Node {
    Node::with_text(32, name.as_bytes())
}

pub fn binder(name: &str) -> Node {
    Node::with_text(33, name.as_bytes())
}

/// `count` over no variables.
pub fn count(of: Node) -> Node {
    Node::new(30, 0, vec![Node::new(35, 0, vec![list(2, vec![]), of])])
}

// ------------------------------------------------------------------ calls

/// The span of a call, unless another is said.
pub const CALLED: u64 = span(7, 9);

/// The 54 alone.
pub fn call_at(name: &str, span: u64, arguments: Vec<Node>) -> Node {
    Node::new(54, span, vec![text(name), list(1, arguments)])
}

/// A bare call with span 7..9.
pub fn call(name: &str, arguments: Vec<Node>) -> Node {
    Node::new(11, 0, vec![call_at(name, CALLED, arguments)])
}

/// The same as a value.
pub fn value_call(name: &str, arguments: Vec<Node>) -> Node {
    Node::new(30, 0, vec![Node::new(36, 0, vec![call_at(name, CALLED, arguments)])])
}

pub fn term(t: Node) -> Node {
    Node::new(56, 0, vec![t])
}

pub fn condition(c: Node) -> Node {
    Node::new(55, 0, vec![c])
}

pub fn interval(code: u8, amount: i64) -> Node {
    Node::new(code, amount as u64, vec![])
}

// ------------------------------------------------------------------ definitions

/// A definition whose body is this 61, 62 or 63.
pub fn defined(name: &str, parameters: &[&str], body: Node) -> Node {
    let parameters = parameters.iter().flat_map(|p| [Node::new(42, 0, vec![]), text(p)]).collect();
    Node::new(60, 0, vec![text(name), list(2, parameters), body])
}

pub fn definition(name: &str, parameters: &[&str], body: Node) -> Node {
    defined(name, parameters, Node::new(62, 0, vec![body]))
}

pub fn value(name: &str, parameters: &[&str], body: Node) -> Node {
    defined(name, parameters, Node::new(63, 0, vec![body]))
}

pub fn cedar(name: &str) -> Node {
    defined(name, &[], Node::new(61, 0, vec![]))
}

/// The node with another span, or another value.
pub fn at(span: u64, node: Node) -> Node {
    Node { value: span, ..node }
}
