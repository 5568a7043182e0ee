//! Document 01's fourteen bench cases, its `e(1, 2)`, and the order in a Since.

use crate::by_hand::{array, call, condition, definition, fields, integer, list, p, parameter, sigil, term, text};
use crate::case::{Case, Operation};
use crate::tape::{Node, encode, span};

fn definitions() -> Node {
    let slot = || Node::with_text(44, b"v");
    let refined = vec![Node::new(42, span(3, 4), vec![]), sigil(58, "s"), fields(vec![("h", integer(1))])];
    let exists = vec![slot(), Node::new(46, 0, vec![]), Node::new(10, 0, vec![slot()])];
    let binder = Node::with_text(33, b"t");
    list(
        1,
        vec![
            definition("m", &["x"], p(vec![("f", parameter("x")), ("g", binder)])),
            definition("k", &["s"], Node::new(13, 0, refined)),
            definition("w", &["d"], Node::new(4, 0, vec![Node::with_text(52, b"d"), p(vec![])])),
            definition("b", &["v"], Node::new(9, 0, exists)),
            definition("z", &[], sigil(59, "b")),
            definition("e", &["x", "x"], p(vec![("f", parameter("x"))])),
        ],
    )
}

/// The inputs in the order of document 01's table, `e(1, 2)` behind them.
pub fn cases() -> Vec<Case> {
    let hour = || Node::new(57, 0, vec![Node::new(50, 1, vec![])]);
    let p2 = || p(vec![("a", integer(2))]);
    let sum = Node::new(31, 0, vec![integer(1), parameter("z")]);
    let equal = vec![Node::new(53, 4, vec![]), array(vec![parameter("z")]), integer(1)];
    let inputs = vec![
        (4, call("m", vec![term(integer(5))])),
        (100, call("m", vec![])),
        (3, call("m", vec![term(integer(5))])),
        (2, call("m", vec![term(integer(5))])),
        (100, call("m", vec![term(parameter("y"))])),
        (100, call("k", vec![condition(p2())])),
        (100, call("k", vec![condition(Node::new(3, 0, vec![p2()]))])),
        (100, p(vec![("f", array(vec![parameter("z")]))])),
        (100, p(vec![("f", sum)])),
        (100, Node::new(8, 0, equal)),
        (100, call("w", vec![hour()])),
        (100, call("b", vec![term(Node::with_text(27, b"q"))])),
        (100, call("b", vec![term(integer(5))])),
        (100, call("z", vec![])),
        (100, call("e", vec![term(integer(1)), term(integer(2))])),
    ];
    let registry = encode(&definitions());
    inputs
        .into_iter()
        .map(|(limit, condition)| Case::new(Operation::Expand, limit, vec![registry.clone(), encode(&condition)]))
        .collect()
}

/// `?a since ?w P{}`: the within is looked at before the left side. In a body that is checked, in one that is substituted, in a rule.
pub fn orders() -> Vec<Case> {
    let since = || Node::new(6, 0, vec![sigil(58, "a"), Node::with_text(52, b"w"), p(vec![])]);
    let body = encode(&definition("o", &[], since()));
    let o = Node::new(54, span(7, 9), vec![text("o"), list(1, vec![])]);
    vec![
        Case::new(Operation::Check, 0, vec![body.clone()]),
        Case::new(Operation::Substitute, 100, vec![body, encode(&o)]),
        Case::new(Operation::Expand, 100, vec![encode(&list(1, vec![])), encode(&since())]),
    ]
}
