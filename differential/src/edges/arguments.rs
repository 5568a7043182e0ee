//! Point 14: how far an argument moves a result. A call that succeeds has charged the size of the body and, for each condition
//! and term place of a parameter, the size of its argument; its result is the body with the arguments in those places.

use super::{Edge, List, of};
use crate::by_hand::{
    CALLED, and, array, call_at, condition, count, definition, equal, integer, interval, negated, not, p, parameter,
    refined, sigil, term, tp, value, variable,
};
use crate::case::{Case, Operation};
use crate::tape::{self, Node};

pub const LISTS: &[List] = &[
    List::new(14, "conditions of 1 to 12 nodes in 0 to 4 places of a body", &[0], conditions),
    List::new(14, "terms of 1 to 12 nodes in 0 to 6 places of a body", &[0], terms),
    List::new(14, "two parameters, each moved by itself", &[0], two_parameters),
    List::new(14, "places in slots and withins move nothing", &[0], slots_and_withins),
    List::new(14, "arguments as large as a result has room for, and one more", &[0, 3], as_large_as_fits),
];

/// A body over what stands in its places, and over a slot of its own: `$t` in the definition, a generated name in the result.
struct Shape {
    places: u64,
    body: fn(&Node, &Node) -> Node,
    /// What the body becomes, where that is not the body with the argument in its places.
    result: Option<fn(&Node, &Node) -> Node>,
}

const fn shape(places: u64, body: fn(&Node, &Node) -> Node) -> Shape {
    Shape { places, body, result: None }
}

fn exists(slot: &Node, of: Node) -> Node {
    Node::new(9, 0, vec![slot.clone(), Node::new(46, 0, vec![]), of])
}

fn since(left: &Node, right: &Node) -> Node {
    Node::new(6, 0, vec![left.clone(), interval(50, 1), right.clone()])
}

fn sum(left: &Node, right: &Node) -> Node {
    Node::new(31, 0, vec![left.clone(), right.clone()])
}

const CONDITIONS: &[Shape] = &[
    shape(0, |_, _| p(vec![])),
    shape(1, |c, _| c.clone()),
    shape(1, |c, slot| exists(slot, not(c.clone()))),
    shape(2, |c, _| since(c, c)),
    shape(1, |c, _| equal(count(c.clone()), integer(1))),
    shape(2, |c, _| and(p(vec![("f", array(vec![count(c.clone())]))]), c.clone())),
    shape(3, |c, _| and(c.clone(), and(c.clone(), not(c.clone())))),
    shape(4, |c, _| and(since(c, c), since(c, c))),
];

const TERMS: &[Shape] = &[
    shape(0, |_, _| p(vec![])),
    shape(1, |t, _| p(vec![("f", t.clone())])),
    shape(2, |t, slot| exists(slot, equal(t.clone(), t.clone()))),
    shape(4, |t, _| p(vec![("f", array(vec![t.clone(), t.clone()])), ("g", sum(t, t))])),
    shape(6, |t, _| equal(count(p(vec![("f", sum(t, t)), ("g", t.clone())])), array(vec![t.clone(), sum(t, t)]))),
    // The refinement is folded into its predicate: a node that no result has.
    Shape {
        places: 3,
        body: |t, _| refined(p(vec![("a", t.clone())]), 0, vec![("b", t.clone()), ("a", t.clone())]),
        result: Some(|t, _| p(vec![("a", t.clone()), ("b", t.clone()), ("a", t.clone())])),
    },
];

/// Bodies of values, whose result is a term.
const VALUES: &[Shape] = &[
    shape(1, |t, _| t.clone()),
    shape(3, |t, _| array(vec![t.clone(), sum(t, t)])),
    shape(2, |t, slot| count(exists(slot, equal(t.clone(), t.clone())))),
];

/// Conditions and terms of so many nodes, deep and wide.
fn conditions_of(nodes: usize) -> Vec<Node> {
    let wide = p((1..nodes).map(|_| ("f", integer(1))).collect());
    vec![negated(p(vec![]), nodes - 1), wide]
}

fn terms_of(nodes: usize) -> Vec<Node> {
    let deep = (1..nodes).fold(integer(1), |inner, _| array(vec![inner]));
    vec![deep, array((1..nodes).map(|_| variable("q")).collect())]
}

fn substitute(definition: &Node, arguments: Vec<Node>, file: u16) -> Case {
    Case { file, ..of(Operation::Substitute, &[definition, &call_at("m", CALLED, arguments)]) }
}

/// A body whose parameter `x` has this hole in each place, called with this argument, in file 0 and in another.
fn moved(each: &mut dyn FnMut(Edge), shape: &Shape, hole: &Node, argument: &Node, is_value: bool) {
    let body = (shape.body)(hole, &Node::with_text(45, b"t"));
    let charged = tape::size(&body) + shape.places * tape::size(argument);
    let defined = if is_value { value("m", &["x"], body) } else { definition("m", &["x"], body) };
    let given = if hole.code == 12 { condition(argument.clone()) } else { term(argument.clone()) };
    for (file, name) in [(0, "t$7"), (65_535, "t$7#65535")] {
        let slot = Node::with_text(43, name.as_bytes());
        let result = shape.result.unwrap_or(shape.body)(argument, &slot);
        let edge = Edge::new(substitute(&defined, vec![given.clone()], file), 0);
        each(edge.at(0).charging(charged).making(tape::encode(&result)));
    }
}

fn conditions(each: &mut dyn FnMut(Edge)) {
    for shape in CONDITIONS {
        for argument in (1..=12).flat_map(conditions_of) {
            moved(each, shape, &sigil(58, "x"), &argument, false);
        }
    }
}

fn terms(each: &mut dyn FnMut(Edge)) {
    for (shape, is_value) in TERMS.iter().map(|s| (s, false)).chain(VALUES.iter().map(|s| (s, true))) {
        for argument in (1..=12).flat_map(terms_of) {
            moved(each, shape, &parameter("x"), &argument, is_value);
        }
    }
}

/// `x` in two places, `y` in one: whichever argument grows, it grows by itself.
fn two_parameters(each: &mut dyn FnMut(Edge)) {
    let body = |x: &Node, y: &Node| and(since(x, x), p(vec![("f", y.clone())]));
    for names in [["x", "y"], ["y", "x"]] {
        let of_definition = body(&sigil(58, "x"), &parameter("y"));
        for (x, y) in (1..=8).flat_map(|x| (1..=8).map(move |y| (x, y))) {
            let (first, second) = (negated(p(vec![]), x - 1), terms_of(y).swap_remove(1));
            let mut arguments = vec![condition(first.clone()), term(second.clone())];
            if names[0] == "y" {
                arguments.swap(0, 1);
            }
            let charged = tape::size(&of_definition) + (2 * x + y) as u64;
            let edge = Edge::new(substitute(&definition("m", &names, of_definition.clone()), arguments, 0), 0);
            each(edge.at(0).charging(charged).making(tape::encode(&body(&first, &second))));
        }
    }
}

/// A `?` in a slot takes an identifier, and one in a within an interval: neither is charged, and neither is a node.
fn slots_and_withins(each: &mut dyn FnMut(Edge)) {
    let bound = |code: u8, name: &str, t: Node| {
        let slot = Node::with_text(code, name.as_bytes());
        exists(&slot, and(tp(code, name), equal(t.clone(), t)))
    };
    for name in ["q", "a longer name"] {
        let body = bound(44, "x", parameter("x"));
        let charged = tape::size(&body) + 2;
        let edge = Edge::new(substitute(&definition("m", &["x"], body), vec![term(variable(name))], 0), 0);
        each(edge.at(0).charging(charged).making(tape::encode(&bound(43, name, variable(name)))));
    }
    for (code, amount) in [(48, 0), (50, 1), (51, -7), (64, i64::MAX)] {
        let body = |within: Node| Node::new(4, 0, vec![within, p(vec![])]);
        let defined = definition("m", &["x"], body(Node::with_text(52, b"x")));
        let edge = Edge::new(substitute(&defined, vec![Node::new(57, 0, vec![interval(code, amount)])], 0), 0);
        each(edge.at(0).charging(2).making(tape::encode(&body(interval(code, amount)))));
    }
}

/// Two places for an array: with 510 items the result has 1,024 entries, and with one more it is 3, charged all the same.
fn as_large_as_fits(each: &mut dyn FnMut(Edge)) {
    let defined = definition("m", &["x"], equal(parameter("x"), parameter("x")));
    for items in 505..=515_u64 {
        let argument = array((0..items).map(integer).collect());
        let result = equal(argument.clone(), argument.clone());
        let edge = Edge::new(substitute(&defined, vec![term(argument)], 0), if items <= 510 { 0 } else { 3 });
        let edge = edge.charging(3 + 2 * (items + 1));
        each(if items <= 510 { edge.at(0).making(tape::encode(&result)) } else { edge.at(CALLED).making(vec![]) });
    }
}
