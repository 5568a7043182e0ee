//! Inputs that grow, to see whether the instructions grow faster than they do.

use crate::inputs::{both, condition_call, definition, list, parameter, predicate, term};
use differential::case::{Case, Operation};
use differential::tape::{Node, encode, span};

/// One input of a family.
pub struct Member {
    pub family: &'static str,
    pub size: String,
    pub case: Case,
}

/// The families in the order of their table, each from small to large.
pub fn all() -> Vec<Member> {
    let mut all = Vec::new();
    let mut add = |family, size: String, case| all.push(Member { family, size, case });
    for n in [10, 50, 100, 255] {
        add("10 and 11 of a registry", format!("{n} definitions"), names(n));
    }
    for (family, left) in [("Since nested to the left", true), ("Since nested to the right", false)] {
        for n in [10, 30, 60] {
            add(family, format!("{n} Since"), expansion(vec![], since(n, left, hour(), p(), p())));
        }
    }
    add("calls of a body of 60 Since to the left over a wide predicate", "200 calls".to_string(), wide_bodies(200));
    for parameters in [1, 4, 16] {
        for uses in [10, 50, 100] {
            let size = format!("{parameters} parameters, {uses} uses");
            add("parameters and their uses", size, many_uses(parameters, uses));
        }
    }
    all
}

fn expansion(definitions: Vec<Node>, rule: Node) -> Case {
    Case::new(Operation::Expand, u32::MAX, vec![encode(&list(1, definitions)), encode(&rule)])
}

/// So many definitions with names of one length that differ at their ends.
fn names(n: usize) -> Case {
    let one = |i: usize| {
        let parts =
            vec![Node::with_text(40, format!("macro_{i:03}").as_bytes()), list(2, vec![]), Node::new(61, 0, vec![])];
        Node::new(60, span(3, 4), parts)
    };
    Case::new(Operation::Registry, 0, vec![encode(&list(1, (0..n).map(one).collect()))])
}

fn p() -> Node {
    let number = |n| Node::new(21, n, vec![]);
    predicate("P", "", vec![("f", number(1)), ("g", number(2))])
}

fn hour() -> Node {
    Node::new(50, 1, vec![])
}

/// `tp(t)`, its slot with this code.
pub fn tp(code: u8) -> Node {
    Node::new(10, span(1, 2), vec![Node::with_text(code, b"t")])
}

/// So many Since inside one another, around `innermost`, on the left side or on the right.
pub fn since(n: usize, to_the_left: bool, within: Node, innermost: Node, other: Node) -> Node {
    (0..n).fold(innermost, |inner, _| {
        let (left, right) = if to_the_left { (inner, other.clone()) } else { (other.clone(), inner) };
        Node::new(6, span(9, 10), vec![left, within.clone(), right])
    })
}

/// A rule of so many calls. The walk comes to its end, and what it makes is too large: 3.
fn wide_bodies(calls: usize) -> Case {
    let fields = (0..WIDE).map(|_| ("f", Node::new(21, 1, vec![]))).collect();
    let body = since(60, true, hour(), predicate("P", "", fields), tp(45));
    let rule = balanced(&(0..calls).map(|i| condition_call("m", i as u32, vec![])).collect::<Vec<_>>());
    expansion(vec![definition("m", &[], body)], rule)
}

/// As many fields as the registry's tape has room for.
const WIDE: usize = 385;

/// All of these, in a tree as low as may be.
fn balanced(conditions: &[Node]) -> Node {
    match conditions {
        [one] => one.clone(),
        _ => {
            let (left, right) = conditions.split_at(conditions.len() / 2);
            both(balanced(left), balanced(right))
        }
    }
}

/// A call of a macro with so many parameters, which stand so many times in its body.
fn many_uses(parameters: usize, uses: usize) -> Case {
    let names: Vec<String> = (0..parameters).map(|i| format!("p{i:02}")).collect();
    let names: Vec<&str> = names.iter().map(String::as_str).collect();
    let fields = (0..uses).map(|i| ("f", parameter(names[i % parameters]))).collect();
    let arguments = (0..parameters).map(|_| term(Node::new(21, 1, vec![]))).collect();
    expansion(vec![definition("m", &names, predicate("P", "", fields))], condition_call("m", 7, arguments))
}
