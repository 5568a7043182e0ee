//! What is timed: three expansions, from small to near the limits.

use differential::bench_cases;
use differential::case::{Case, Operation};
use differential::tape::{Node, encode, span};

pub fn all() -> Vec<(&'static str, Case)> {
    vec![
        ("a small rule", bench_cases::cases().swap_remove(0)),
        ("a library of 20 macros, 6 calls", landlord()),
        ("a rule near the limits", near_the_limits()),
    ]
}

pub fn text(t: &str) -> Node {
    Node::with_text(40, t.as_bytes())
}

pub fn list(width: usize, items: Vec<Node>) -> Node {
    Node::counted(41, width, items)
}

pub fn string(t: &str) -> Node {
    Node::with_text(23, t.as_bytes())
}

pub fn parameter(name: &str) -> Node {
    Node::with_text(32, name.as_bytes())
}

pub fn both(left: Node, right: Node) -> Node {
    Node::new(1, 0, vec![left, right])
}

/// `Home::action::kind{…}`
pub fn predicate(action: &str, kind: &str, fields: Vec<(&str, Node)>) -> Node {
    let fields = fields.into_iter().flat_map(|(name, term)| [text(name), term]).collect();
    let place = Node::new(42, span(1, 2), vec![]);
    Node::new(7, span(1, 2), vec![place, list(1, vec![text("Home")]), text(action), text(kind), list(2, fields)])
}

/// A condition macro, or with the body of a term a value macro.
pub fn definition(name: &str, parameters: &[&str], body: Node) -> Node {
    let parameters = parameters.iter().flat_map(|p| [Node::new(42, 0, vec![]), text(p)]).collect();
    let kind = if body.code < 20 { 62 } else { 63 };
    Node::new(60, span(3, 4), vec![text(name), list(2, parameters), Node::new(kind, 0, vec![body])])
}

pub fn call(name: &str, start: u32, arguments: Vec<Node>) -> Node {
    Node::new(54, span(start, start + 9), vec![text(name), list(1, arguments)])
}

pub fn condition_call(name: &str, start: u32, arguments: Vec<Node>) -> Node {
    Node::new(11, span(start, start + 9), vec![call(name, start, arguments)])
}

pub fn term(t: Node) -> Node {
    Node::new(56, 0, vec![t])
}

pub fn condition(c: Node) -> Node {
    Node::new(55, 0, vec![c])
}

pub fn hours(n: u64) -> Node {
    Node::new(57, 0, vec![Node::new(50, n, vec![])])
}

/// Twenty macros, four for each of five rooms.
fn library() -> Vec<Node> {
    ["kitchen", "bath", "hall", "cellar", "attic"].into_iter().flat_map(macros_of).collect()
}

/// Seen lately, refined, counted, since.
fn macros_of(room: &str) -> [Node; 4] {
    let event = || Node::new(12, span(5, 6), vec![Node::with_text(58, b"event")]);
    let within = || Node::with_text(52, b"d");
    let binder = |code: u8, name: &str| Node::with_text(code, name.as_bytes());
    let of_room = || ("room", string(room));
    let formerly = |body: Node| Node::new(4, span(9, 10), vec![within(), body]);

    let seen = formerly(predicate("Motion", "seen", vec![of_room(), ("person", parameter("who"))]));
    let injected = list(2, vec![text("room"), string(room), text("state"), string("ok")]);
    let refined = Node::new(13, span(7, 8), vec![Node::new(42, span(7, 8), vec![]), event(), injected]);
    let opened = formerly(predicate("Window", "opened", vec![of_room(), ("n", binder(33, "n"))]));
    let timepoint = || Node::new(46, 0, vec![]);
    let counted = vec![
        list(2, vec![binder(45, "t"), timepoint(), binder(45, "n"), timepoint()]),
        both(opened, Node::new(10, 0, vec![binder(45, "t")])),
    ];
    let openings = Node::new(30, 0, vec![Node::new(35, span(9, 10), counted)]);
    let closed = predicate("Window", "closed", vec![of_room()]);
    let shut_since = Node::new(6, span(9, 10), vec![closed, within(), event()]);
    [
        definition(&format!("seen_in_{room}"), &["who", "d"], seen),
        definition(&format!("ok_in_{room}"), &["event"], refined),
        definition(&format!("openings_of_{room}"), &["d"], openings),
        definition(&format!("shut_since_{room}"), &["event", "d"], shut_since),
    ]
}

/// A landlord's rule: six calls, one of them an argument of another, one as a value.
fn landlord() -> Case {
    let person = || term(Node::new(25, 2, vec![text("input"), text("person")]));
    let openings =
        Node::new(30, 0, vec![Node::new(36, span(60, 69), vec![call("openings_of_attic", 60, vec![hours(24)])])]);
    let alarm = predicate("Alarm", "raised", vec![("level", Node::new(21, 3, vec![]))]);
    let inner = condition_call("ok_in_bath", 40, vec![condition(alarm.clone())]);
    let calls = [
        condition_call("seen_in_kitchen", 10, vec![person(), hours(1)]),
        condition_call("ok_in_hall", 20, vec![condition(alarm)]),
        condition_call("shut_since_cellar", 30, vec![condition(inner), hours(8)]),
        Node::new(8, span(58, 70), vec![Node::new(53, 0, vec![]), openings, Node::new(21, 4, vec![])]),
        condition_call("seen_in_attic", 80, vec![person(), hours(2)]),
    ];
    let rule = calls.into_iter().reduce(both).expect("five conjuncts");
    Case::new(Operation::Expand, u32::MAX, vec![encode(&list(1, library())), encode(&rule)])
}

/// 26 calls with long arguments below 30 negations: condition and result both have nearly 1,024 entries.
fn near_the_limits() -> Case {
    let names = (0..4).map(|i| string(&format!("radiator {i}")));
    let items: Vec<Node> = names.chain((0..18).map(|i| Node::new(21, i, vec![]))).collect();
    let argument = || term(Node::counted(29, 1, items.clone()));
    let rule = (0..26)
        .map(|i| condition_call("seen_in_kitchen", 10 * i, vec![argument(), hours(1)]))
        .reduce(both)
        .expect("26 conjuncts");
    let nested = (0..30).fold(rule, |c, _| Node::new(3, 0, vec![c]));
    Case::new(Operation::Expand, u32::MAX, vec![encode(&list(1, library())), encode(&nested)])
}
