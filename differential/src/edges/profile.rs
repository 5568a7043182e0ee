//! Point 10: the battery head's rules. The sixteenth and seventeenth node, aggregates there, every unit at its ends.

use super::least::{Place, least, places};
use super::{Edge, List, of};
use crate::by_hand::{
    all, and, array, at, call_at, condition, equal, integer, interval, negated, p, refined, term, tp, wildcard,
};
use crate::case::Operation;
use crate::tape::{self, Node};

pub const LISTS: &[List] = &[
    List::new(10, "1 and 14 to 18 nodes, each code the last", &[0, 54], nodes),
    List::new(10, "a 30 as the 2nd to 19th node, in each place, each aggregate", &[53, 54], aggregates),
    List::new(10, "every unit at 0, one day, one more, the ends of i64, each place", &[0, 55], amounts),
    List::new(10, "intervals inside each condition, in Since and calls: whose span", &[0, 55], spans),
    List::new(10, "intervals behind 52s", &[0, 55], behind_parameters),
    List::new(10, "an interval beside a 30 and the 16th and 17th node", &[53, 54, 55], orders),
    List::new(10, "texts of 64, 65, 81 and 82 bytes in each text place", &[0, 3], names),
];

fn profile(condition: &Node, number: u64) -> Edge {
    Edge::new(of(Operation::Profile, &[condition]), number)
}

/// The nodes of a condition, without Or.
fn count(condition: &Node) -> usize {
    tape::size(&tape::withdrawn(condition)) as usize
}

// ------------------------------------------------------------------ nodes

/// Conditions of just so many nodes that end in each place of the format, one that holds no aggregate.
fn nodes(each: &mut dyn FnMut(Edge)) {
    for nodes in [14, 15, 16, 17, 18] {
        let number = if nodes > 16 { 54 } else { 0 };
        for place in places().iter().filter(|place| !holds_an_aggregate(place)) {
            let last = place.in_condition();
            let negations = negated(last.clone(), nodes - count(&last));
            each(profile(&negations, number).at(0));
            // The same beside another condition, which comes before it.
            let beside = and(negated(tp(43, "t"), nodes - count(&last) - 2), last);
            each(profile(&beside, number).at(0));
        }
        let wide = |leaves: usize| all(&vec![tp(43, "t"); leaves]);
        each(profile(&negated(wide(nodes.div_ceil(2)), 1 - nodes % 2), number));
        each(profile(&p(vec![("f", wildcard()); nodes - 1]), number));
        each(profile(&p(vec![("f", array(vec![wildcard(); nodes - 2]))]), number));
    }
    (1..=16).for_each(|nodes| each(profile(&negated(p(vec![]), nodes - 1), 0)));
    for nodes in [19, 32, 33, 63, 64] {
        each(profile(&negated(p(vec![]), nodes - 1), 54).at(0));
    }
    each(profile(&negated(p(vec![]), 64), 3).because("nesting"));
}

fn holds_an_aggregate(place: &Place) -> bool {
    let mut any = matches!(place.owner, 60 | 62 | 63);
    if !any {
        place.in_condition().visit(&mut |node| any |= node.code == 30);
    }
    any
}

/// Everything that can be below a 30.
fn each_aggregate() -> [Node; 3] {
    [34, 35, 36].map(|code| Node::new(30, 0, vec![least(code)]))
}

/// Conditions in which a term is the second node, or a later one: how many nodes stand before it, and what is made.
type Holder = (usize, fn(Node) -> Node);

const HOLDERS: [Holder; 9] = [
    (1, |t| equal(t, integer(1))),
    (2, |t| equal(integer(1), t)),
    (1, |t| p(vec![("f", t)])),
    (2, |t| p(vec![("e", integer(1)), ("f", t)])),
    (2, |t| p(vec![("f", array(vec![t]))])),
    (2, |t| equal(Node::new(31, 2, vec![t, integer(1)]), integer(1))),
    (3, |t| equal(Node::new(31, 2, vec![integer(1), t]), integer(1))),
    (2, |t| refined(p(vec![]), 0, vec![("f", t)])),
    (1, |t| Node::new(11, 0, vec![call_at("m", 0, vec![term(t)])])),
];

/// A 30 as the seventeenth node is 53, the lower number; as the eighteenth it is not reached.
fn aggregates(each: &mut dyn FnMut(Edge)) {
    for (before, holder) in HOLDERS {
        for aggregate in each_aggregate() {
            for place in before + 1..=19 {
                let condition = negated(holder(aggregate.clone()), place - before - 1);
                each(profile(&condition, if place <= 17 { 53 } else { 54 }).at(0));
            }
        }
    }
}

// ------------------------------------------------------------------ intervals

/// The codes of intervals, each with the most that a day has of it. There is no week in a day.
const UNITS: [(u8, i64); 5] = [(48, 86_400), (49, 1_440), (50, 24), (51, 1), (64, 0)];

/// Amounts around 0, around a day, around what 32 and 64 bits hold, and such that come back to a day's seconds if they are
/// multiplied in 64 bits.
fn amounts_of(code: u8, day: i64) -> Vec<i64> {
    let mut all =
        vec![0, 1, 2, -1, -2, day - 1, day, day + 1, -day, -day - 1, i64::MIN, i64::MIN + 1, i64::MAX, i64::MAX - 1];
    all.extend([1 << 31, (1 << 31) + day, 1 << 32, (1 << 32) + 1, (1 << 32) + day, -(1 << 32), 1 << 62]);
    let seconds = tape::seconds(&interval(code, 1)).expect("an interval");
    for around in [1i128 << 32, 1 << 63, 1 << 64] {
        let wraps = (around + seconds - 1) / seconds;
        all.extend([wraps - 1, wraps, wraps + 1].into_iter().filter_map(|n| i64::try_from(n).ok()));
    }
    all
}

/// What has an interval, with the span that is answered for it.
const OWN: u64 = tape::span(70, 77);

const OWNERS: [fn(Node) -> Node; 6] = [
    |i| Node::new(4, OWN, vec![i, tp(43, "t")]),
    |i| Node::new(5, OWN, vec![i, tp(43, "t")]),
    |i| Node::new(6, OWN, vec![tp(43, "t"), i, tp(43, "t")]),
    // The left side has conditions of its own, each with a span.
    |i| Node::new(6, OWN, vec![at(1, and(at(2, tp(43, "t")), at(3, tp(43, "t")))), i, at(4, tp(43, "t"))]),
    |i| Node::new(11, OWN, vec![call_at("m", 5, vec![within(i)])]),
    // Behind another argument, which has conditions.
    |i| Node::new(11, OWN, vec![call_at("m", 5, vec![condition(at(6, tp(43, "t"))), within(i)])]),
];

/// An interval as an argument.
fn within(interval: Node) -> Node {
    Node::new(57, 0, vec![interval])
}

fn amounts(each: &mut dyn FnMut(Edge)) {
    for (code, day) in UNITS {
        for amount in amounts_of(code, day) {
            let allowed = (0..=day).contains(&amount);
            for owner in OWNERS {
                let edge = profile(&owner(interval(code, amount)), if allowed { 0 } else { 55 });
                each(edge.at(if allowed { 0 } else { OWN }));
            }
        }
    }
}

/// Conditions that stand around another, each with a span of its own.
const AROUND: [fn(Node) -> Node; 13] = [
    |c| Node::new(1, 11, vec![c, p(vec![])]),
    |c| Node::new(1, 12, vec![at(13, p(vec![])), c]),
    |c| Node::new(2, 14, vec![c, p(vec![])]),
    |c| Node::new(2, 15, vec![at(16, p(vec![])), c]),
    |c| Node::new(3, 17, vec![c]),
    |c| Node::new(4, 18, vec![interval(48, 5), c]),
    |c| Node::new(5, 19, vec![interval(51, 1), c]),
    |c| Node::new(6, 20, vec![c, interval(50, 24), p(vec![])]),
    |c| Node::new(6, 21, vec![p(vec![]), interval(49, 0), c]),
    |c| Node::new(9, 22, vec![Node::with_text(43, b"t"), Node::new(46, 0, vec![]), c]),
    |c| at(23, refined(c, 24, vec![])),
    |c| Node::new(11, 25, vec![call_at("m", 26, vec![condition(c)])]),
    |c| Node::new(11, 27, vec![call_at("m", 28, vec![within(interval(48, 1)), condition(c), within(interval(64, 0))])]),
];

/// Two conditions around what has the interval: the span is that of the nearest, however the others lie.
fn spans(each: &mut dyn FnMut(Edge)) {
    for owner in OWNERS {
        for bad in [interval(51, 2), interval(64, 1), interval(48, -1)] {
            AROUND.iter().for_each(|around| each(profile(&around(owner(bad.clone())), 55).at(OWN)));
            for (inner, outer) in AROUND.iter().flat_map(|inner| AROUND.iter().map(move |outer| (inner, outer))) {
                let whole = outer(inner(owner(bad.clone())));
                // What is around may be so large that the interval is never reached.
                let number = if nodes_before(&whole) <= 16 { 55 } else { 54 };
                each(profile(&whole, number).at(if number == 55 { OWN } else { 0 }));
            }
        }
    }
    for (inner, outer) in AROUND.iter().flat_map(|inner| AROUND.iter().map(move |outer| (inner, outer))) {
        let whole = outer(inner(OWNERS[0](interval(48, 86_400))));
        each(profile(&whole, if count(&whole) <= 16 { 0 } else { 54 }));
    }
    in_one_another(each);
}

/// The nodes that come before the first interval of more than a day or less than nothing.
fn nodes_before(whole: &Node) -> usize {
    let (mut nodes, mut found) = (0, None);
    tape::withdrawn(whole).visit(&mut |node| {
        nodes += usize::from(tape::is_node(node.code));
        if tape::seconds(node).is_some_and(|s| !(0..=86_400).contains(&s)) && found.is_none() {
            found = Some(nodes);
        }
    });
    found.expect("there is one")
}

/// Conditions with an interval in one another, as many as may be: each of them in turn has the bad one.
fn in_one_another(each: &mut dyn FnMut(Edge)) {
    for deep in 1..=7 {
        for bad in 0..deep {
            let amount = |level: u32| interval(50, if level == bad { 25 } else { 24 });
            let spanned = |level: u32| tape::span(100 + level, level);
            let formerly =
                (0..deep).rev().fold(p(vec![]), |c, i| Node::new(4 + (i % 2) as u8, spanned(i), vec![amount(i), c]));
            each(profile(&formerly, 55).at(spanned(bad)));
            // To the left the innermost comes first, and its within behind its left side.
            let left = (0..deep).rev().fold(p(vec![]), |c, i| Node::new(6, spanned(i), vec![c, amount(i), p(vec![])]));
            each(profile(&left, 55).at(spanned(bad)));
            let right = (0..deep).rev().fold(p(vec![]), |c, i| Node::new(6, spanned(i), vec![p(vec![]), amount(i), c]));
            each(profile(&right, 55).at(spanned(bad)));
        }
    }
    for (deep, bad) in (1..=4).flat_map(|deep| (0..deep).map(move |bad| (deep, bad))) {
        let amount = |level: u32| within(interval(50, if level == bad { 25 } else { 24 }));
        let called = |inner: Node, level: u32, first: bool| {
            let arguments =
                if first { vec![amount(level), condition(inner)] } else { vec![condition(inner), amount(level)] };
            Node::new(11, tape::span(level, 200), vec![call_at("m", tape::span(level, 300), arguments)])
        };
        for first in [false, true] {
            let calls = (0..deep).rev().fold(p(vec![]), |inner, level| called(inner, level, first));
            each(profile(&calls, 55).at(tape::span(bad, 200)));
        }
    }
}

/// A 52 is never 55, and what comes behind it is looked at.
fn behind_parameters(each: &mut dyn FnMut(Edge)) {
    let parameter = || Node::with_text(52, b"d");
    let around: [fn(Node, Node) -> Node; 4] = [
        |w, c| Node::new(4, 31, vec![w, c]),
        |w, c| Node::new(5, 32, vec![w, c]),
        |w, c| Node::new(6, 33, vec![p(vec![]), w, c]),
        |w, c| Node::new(6, 34, vec![c, w, p(vec![])]),
    ];
    for first in around {
        each(profile(&first(parameter(), p(vec![])), 0));
        for second in around {
            each(profile(&first(parameter(), second(parameter(), p(vec![]))), 0));
            for owner in OWNERS {
                let bad = owner(interval(64, 1));
                each(profile(&first(parameter(), second(parameter(), bad.clone())), 55).at(OWN));
                each(profile(&first(parameter(), second(interval(48, 3), bad)), 55).at(OWN));
                each(profile(&first(parameter(), second(parameter(), owner(interval(64, 0)))), 0));
            }
        }
    }
}

/// The first broken rule in entry order: an interval before and behind a 30, and at the sixteenth and seventeenth node.
fn orders(each: &mut dyn FnMut(Edge)) {
    let bad = || interval(51, -1);
    for aggregate in each_aggregate() {
        let compared = || equal(aggregate.clone(), integer(1));
        for owner in &OWNERS {
            each(profile(&and(owner(bad()), compared()), 55).at(OWN));
            each(profile(&and(compared(), owner(bad())), 53).at(0));
        }
        each(profile(&Node::new(4, OWN, vec![bad(), compared()]), 55).at(OWN));
        each(profile(&Node::new(6, OWN, vec![compared(), bad(), p(vec![])]), 53).at(0));
    }
    for owner in OWNERS {
        for negations in 0..=20 {
            let whole = negated(owner(bad()), negations);
            let reached = nodes_before(&whole) <= 16;
            each(profile(&whole, if reached { 55 } else { 54 }).at(if reached { OWN } else { 0 }));
        }
    }
}

/// Names may have 81 bytes, every other text 64, and a literal 255.
fn names(each: &mut dyn FnMut(Edge)) {
    let text_places = places().into_iter().filter(|place| tape::value(place.code) == tape::Value::TextLength);
    for place in text_places.filter(|place| !holds_an_aggregate(place)) {
        let largest = match place.code {
            22 | 23 => 255,
            27 | 43 => 81,
            _ => 64,
        };
        for length in [0, 1, 64, 65, 75, 76, 81, 82, 255, 256] {
            let condition = with_text(place.in_condition(), place.code, length);
            each(profile(&condition, if length <= largest { 0 } else { 3 }));
        }
    }
}

/// Every text of this code gets this length.
fn with_text(mut node: Node, code: u8, length: usize) -> Node {
    if node.code == code {
        return Node::with_text(code, &vec![b'n'; length]);
    }
    node.children = node.children.into_iter().map(|child| with_text(child, code, length)).collect();
    node
}
