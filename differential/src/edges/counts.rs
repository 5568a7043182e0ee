//! Point 9: how often each macro was used. The ceiling, the most definitions, refusals behind calls, and every place where a
//! call can stand.

use super::{Edge, List, of};
use crate::brim;
use crate::by_hand::{
    CALLED, all, and, array, at, binder, call, call_at, cedar, condition, count, definition, equal, integer, interval,
    list, negated, not, p, parameter, refined, sigil, term, tp, value, value_call, wildcard,
};
use crate::case::{COUNTS, Case, Counts, Operation};
use crate::tape::{self, LARGEST, Node};

pub const LISTS: &[List] = &[
    List::new(9, "0 to 3 calls of counts near the ceiling", &[0], near_the_ceiling),
    List::new(9, "the most definitions, each called", &[0, 3, 31], most_definitions),
    List::new(9, "every refusal behind calls that were substituted", AFTER_CALLS, refused_behind_calls),
    List::new(9, "1, 2, 3, 10 and 11 of tapes, names and buffers", &[1, 2, 3, 10, 11], refused_before),
    List::new(9, "a call in each place, up to three in one another", &[0, 32, 47], calls_in_places),
    List::new(9, "cells behind the last definition", &[0, 30], behind_the_last),
    List::new(9, "a registry just built has zeros", &[0, 1, 2, 3, 10, 11], just_built),
    List::new(9, "runs of expansions, each with the state of the one before", &[0, 30, 35, 47], runs),
];

const AFTER_CALLS: &[u64] = &[3, 30, 31, 32, 33, 34, 35, 36, 37, 38, 39, 40, 41, 42, 43, 44, 45, 46, 47, 48];

fn expand(registry: &Node, condition: &Node, counts: Counts, number: u64) -> Edge {
    Edge::new(Case { counts, ..of(Operation::Expand, &[registry, condition]) }, number)
}

/// So much more in one cell, up to the ceiling.
fn counted(mut counts: Counts, place: usize, calls: u64) -> Counts {
    counts[place] = u32::try_from(u64::from(counts[place]) + calls).unwrap_or(u32::MAX);
    counts
}

/// States to be handed in: just built, numbered, and one below the ceiling.
fn states() -> [Counts; 3] {
    [[0; COUNTS], std::array::from_fn(|i| 1000 + i as u32), [u32::MAX - 1; COUNTS]]
}

// ------------------------------------------------------------------ the ceiling

/// `name` called so many times, one beside the other or one in the other's argument.
fn called(name: &str, times: usize, nested: bool) -> Node {
    let one = |argument: Node| call(name, vec![condition(argument)]);
    match (times, nested) {
        (0, _) => p(vec![]),
        (_, true) => (0..times).fold(p(vec![]), |inner, _| one(inner)),
        (_, false) => all(&vec![one(p(vec![])); times]),
    }
}

/// 4,294,967,292 to 4,294,967,295 and 0 in a cell, and 0 to 3 calls; then two cells at once.
fn near_the_ceiling(each: &mut dyn FnMut(Edge)) {
    let names = ["a", "b", "c"];
    let registry = list(1, names.iter().map(|name| definition(name, &["x"], p(vec![]))).collect());
    let near = [0, u32::MAX - 3, u32::MAX - 2, u32::MAX - 1, u32::MAX];
    for (place, given, calls) in product(&[0, 1, 2], &near, &[0, 1, 2, 3]) {
        for nested in [false, true] {
            // The cells beside it are near the ceiling too, and stay.
            let mut state = [u32::MAX - 1; COUNTS];
            state[place] = given;
            let condition = called(names[place], calls, nested);
            each(expand(&registry, &condition, state, 0).leaving(counted(state, place, calls as u64)));
        }
    }
    for (first, second, calls) in product(&near[1..], &near[1..], &[0, 1, 2, 3]) {
        for others in 0..=3 {
            let mut state = [7; COUNTS];
            (state[0], state[2]) = (first, second);
            let condition = and(called("a", calls, false), called("c", others, true));
            let after = counted(counted(state, 0, calls as u64), 2, others as u64);
            each(expand(&registry, &condition, state, 0).leaving(after));
        }
    }
}

fn product<A: Copy, B: Copy, C: Copy>(a: &[A], b: &[B], c: &[C]) -> Vec<(A, B, C)> {
    let pairs = a.iter().flat_map(|a| b.iter().map(move |b| (*a, *b)));
    pairs.flat_map(|(a, b)| c.iter().map(move |c| (a, b, *c))).collect()
}

// ------------------------------------------------------------------ many definitions

fn name(i: usize) -> String {
    format!("d{i}")
}

/// `v() == 1`
fn compared(name: &str) -> Node {
    equal(value_call(name, vec![]), integer(1))
}

/// 255 definitions that can all be called do not fit: a Cedar definition has four entries, and 255 of them with the list's
/// own are 1,021; a definition that can be called has five at the least (a term) or six (a condition). So at most three of
/// 255 can be called, and at most 204 or 170 definitions can be called all. Here each of 255 places is called, the three
/// are called, and 204 and 170 definitions are called one and all.
fn most_definitions(each: &mut dyn FnMut(Edge)) {
    let numbered: Counts = std::array::from_fn(|i| i as u32);
    let one = |place: usize| cedar_but(COUNTS, &[place]);
    for place in 0..COUNTS {
        let edge = expand(&one(place), &compared(&name(place)), numbered, 0);
        each(edge.leaving(counted(numbered, place, 1)).charging(1));
        let cedar = (place + 1) % COUNTS;
        each(expand(&one(place), &compared(&name(cedar)), numbered, 31).at(CALLED));
        each(expand(&one(place), &call(&name(cedar), vec![]), numbered, 31).at(CALLED));
    }
    for places in [[0, 1, 2], [0, 127, 254], [252, 253, 254]] {
        let condition = all(&places.map(|place| compared(&name(place))));
        let after = places.into_iter().fold(numbered, |state, place| counted(state, place, 1));
        each(expand(&cedar_but(COUNTS, &places), &condition, numbered, 0).leaving(after));
    }
    // One more that can be called, or one more at all, does not fit.
    let none = p(vec![]);
    each(expand(&cedar_but(COUNTS, &[0, 1, 2, 3]), &none, numbered, 3).because("entries"));
    each(expand(&cedar_but(COUNTS + 1, &[]), &none, numbered, 3).because("entries"));
    each_called(each);
}

/// So many definitions, Cedar but for these.
fn cedar_but(definitions: usize, places: &[usize]) -> Node {
    let one = |i: usize| match places.contains(&i) {
        true => value(&name(i), &[], wildcard()),
        false => cedar(&name(i)),
    };
    list(1, (0..definitions).map(one).collect())
}

/// 170 conditions and 204 values, the most that fit, each called once. The calls of 204 values do not fit one condition,
/// which has six entries for each: two conditions have them, the second with the first one's state.
fn each_called(each: &mut dyn FnMut(Edge)) {
    let conditions = |n: usize| list(1, (0..n).map(|i| definition(&name(i), &[], tp(45, "t"))).collect());
    let values = |n: usize| list(1, (0..n).map(|i| value(&name(i), &[], wildcard())).collect());
    let calls: Vec<Node> = (0..170).map(|i| call(&name(i), vec![])).collect();
    let sum = |from: usize, to: usize| {
        let calls: Vec<Node> = (from..to).map(|i| value_call(&name(i), vec![])).collect();
        equal(added(&calls), wildcard())
    };
    for state in states() {
        let after = |to: usize| (0..to).fold(state, |state, place| counted(state, place, 1));
        each(expand(&conditions(170), &all(&calls), state, 0).leaving(after(170)).charging(170));
        each(expand(&values(204), &sum(0, 102), state, 0).leaving(after(102)).charging(102));
        each(expand(&values(204), &sum(102, 204), after(102), 0).leaving(after(204)));
        each(expand(&conditions(171), &p(vec![]), state, 3).because("entries"));
        each(expand(&values(205), &p(vec![]), state, 3).because("entries"));
    }
}

/// The sum of them, nested as little as may be.
fn added(terms: &[Node]) -> Node {
    match terms {
        [one] => one.clone(),
        _ => {
            let (left, right) = terms.split_at(terms.len() / 2);
            Node::new(31, 0, vec![added(left), added(right)])
        }
    }
}

// ------------------------------------------------------------------ refusals

/// A condition that is refused, the number and span, and what is charged before it is.
struct Refused {
    condition: Node,
    number: u64,
    span: u64,
    charged: u64,
}

/// Spans of the conditions that are refused, and of a refinement's own.
const THERE: u64 = tape::span(30, 33);
const INNER: u64 = tape::span(40, 44);

fn refused(condition: Node, number: u64, span: u64, charged: u64) -> Refused {
    Refused { condition, number, span, charged }
}

/// Macros whose calls are refused, one way or the other.
fn macros() -> Node {
    let within = Node::new(4, INNER, vec![Node::with_text(52, b"d"), p(vec![])]);
    let pasted = p(vec![("a", parameter("x")), ("b", parameter("x")), ("c", parameter("x"))]);
    list(
        1,
        vec![
            definition("ok", &[], p(vec![])),
            definition("two", &["x", "y"], p(vec![])),
            definition("three", &["x", "y", "z"], p(vec![])),
            definition("condition", &["x"], at(INNER, sigil(58, "x"))),
            definition("term", &["x"], at(INNER, p(vec![("f", parameter("x"))]))),
            definition("slot", &["v"], at(INNER, tp(44, "v"))),
            definition("within", &["d"], within),
            definition("unbound", &[], at(INNER, sigil(58, "nothing"))),
            definition("binder", &[], at(INNER, sigil(59, "b"))),
            definition("refines", &["s"], refined(sigil(58, "s"), INNER, vec![("h", integer(1))])),
            definition("calls", &[], at(INNER, call("ok", vec![]))),
            definition("thrice", &["x"], pasted),
            value("value", &[], integer(1)),
            value("many", &[], brim::array(400, 0)),
            cedar("cedar"),
        ],
    )
}

/// Each number that the walk can give, with each code that brings it.
fn refusals() -> Vec<Refused> {
    let one = || term(integer(1));
    let slot = |code: u8| Node::new(9, THERE, vec![Node::with_text(code, b"v"), Node::new(46, 0, vec![]), p(vec![])]);
    let within = |code: u8| Node::new(code, THERE, vec![Node::with_text(52, b"d"), p(vec![])]);
    let since = Node::new(6, THERE, vec![p(vec![]), Node::with_text(52, b"d"), p(vec![])]);
    let field = |t: Node| at(THERE, p(vec![("f", t)]));
    vec![
        refused(call("nobody", vec![]), 30, CALLED, 0),
        refused(compared("nobody"), 30, CALLED, 0),
        refused(call("cedar", vec![]), 31, CALLED, 0),
        refused(compared("cedar"), 31, CALLED, 0),
        refused(call("value", vec![]), 32, CALLED, 0),
        refused(compared("ok"), 33, CALLED, 0),
        refused(call("ok", vec![one()]), 34, CALLED, 0),
        refused(call("two", vec![one()]), 34, CALLED, 0),
        refused(at(THERE, sigil(58, "x")), 36, THERE, 0),
        refused(at(THERE, sigil(59, "x")), 36, THERE, 0),
        refused(within(4), 37, THERE, 0),
        refused(within(5), 37, THERE, 0),
        refused(since, 37, THERE, 0),
        refused(at(THERE, tp(44, "v")), 38, THERE, 0),
        refused(at(THERE, tp(45, "v")), 38, THERE, 0),
        refused(slot(44), 38, THERE, 0),
        refused(slot(45), 38, THERE, 0),
        refused(field(parameter("z")), 39, THERE, 0),
        refused(field(array(vec![binder("z")])), 39, THERE, 0),
        refused(equal(parameter("z"), integer(1)), 40, 0, 0),
        refused(equal(integer(1), binder("z")), 40, 0, 0),
    ]
}

/// The same for what is refused while a body is walked: the body is charged before.
fn refusals_of_bodies() -> Vec<Refused> {
    let (one, many) = (|| term(integer(1)), || condition(call("many", vec![])));
    vec![
        refused(call("unbound", vec![]), 41, INNER, 1),
        refused(call("condition", vec![one()]), 42, INNER, 1),
        refused(call("binder", vec![]), 43, INNER, 1),
        refused(call("within", vec![one()]), 44, INNER, 2),
        refused(call("term", vec![condition(p(vec![]))]), 45, INNER, 2),
        refused(call("slot", vec![one()]), 46, CALLED, 1),
        refused(call("refines", vec![condition(not(p(vec![])))]), 47, INNER, 5),
        refused(refined(not(p(vec![])), THERE, vec![]), 47, THERE, 0),
        refused(call("calls", vec![]), 48, INNER, 1),
        // A 54 with its arguments, 1,206 entries; and an outcome, in which 400 stand three times.
        refused(call("three", vec![many(), many(), many()]), 3, CALLED, 1200),
        refused(call("thrice", vec![many()]), 3, CALLED, 1604),
    ]
}

fn refused_behind_calls(each: &mut dyn FnMut(Edge)) {
    let registry = macros();
    for Refused { condition, number, span, charged } in refusals().into_iter().chain(refusals_of_bodies()) {
        for (around, calls) in beside_calls(&condition).into_iter().chain(in_arguments(&condition)) {
            for state in states() {
                let edge = expand(&registry, &around, state, number).at(span);
                each(edge.charging(charged + calls).leaving(state));
            }
        }
    }
    // The whole is too large only where no 54 is around it.
    let over = and(equal(value_call("many", vec![]), value_call("many", vec![])), compared("many"));
    for (around, calls) in beside_calls(&over) {
        for state in states() {
            each(expand(&registry, &around, state, 3).at(0).charging(1200 + calls).leaving(state));
        }
    }
    budgets(each);
}

/// The condition behind one to three calls of `ok`.
fn beside_calls(refused: &Node) -> Vec<(Node, u64)> {
    let ok = || call("ok", vec![]);
    let beside = |n: usize| and(all(&vec![ok(); n]), refused.clone());
    let since = Node::new(6, 0, vec![ok(), interval(48, 1), refused.clone()]);
    let counted = equal(count(ok()), count(refused.clone()));
    vec![(beside(1), 1), (beside(2), 2), (beside(3), 3), (since, 1), (counted, 1)]
}

/// The same in an argument, behind another one's call. It is negated, since a bare call of a value may stand there.
fn in_arguments(refused: &Node) -> Vec<(Node, u64)> {
    let ok = || condition(call("ok", vec![]));
    let behind = |first: Node| {
        let arguments = vec![first, condition(not(refused.clone()))];
        Node::new(11, 0, vec![call_at("two", tape::span(50, 55), arguments)])
    };
    vec![(behind(ok()), 1), (behind(condition(call("two", vec![ok(), ok()]))), 3)]
}

/// 35 behind so many calls that were charged: three of `ok` cost three, and what stands in their arguments is charged first.
fn budgets(each: &mut dyn FnMut(Edge)) {
    let registry = macros();
    let three = all(&vec![call("ok", vec![]); 3]);
    let nested = call("two", vec![condition(call("ok", vec![])), condition(call("ok", vec![]))]);
    let pasted = call("condition", vec![condition(call("ok", vec![]))]);
    for condition in [three, nested, pasted] {
        for limit in 0..=3 {
            for state in states() {
                let mut edge = expand(&registry, &condition, state, if limit < 3 { 35 } else { 0 }).charging(limit);
                edge.case.limit = limit as u32;
                each(if limit < 3 { edge.at(CALLED).leaving(state) } else { edge });
            }
        }
    }
}

/// 1, 2, 3 of either tape, 10 and 11 come before any call.
fn refused_before(each: &mut dyn FnMut(Edge)) {
    let (registry, condition) = (macros(), call("ok", vec![]));
    for state in states() {
        let whole = expand(&registry, &condition, state, 1);
        for buffer in 0..3 {
            let mut edge = whole.clone().leaving(state).because(["result", "work", "message"][buffer]);
            edge.case.sizes[buffer] -= 1;
            each(edge);
        }
        let deep = negated(condition.clone(), LARGEST.nesting);
        let large = list(1, vec![value("v", &[], brim::array(1020, 0))]);
        let names = |name: &str| list(1, vec![cedar("a"), cedar(name)]);
        for (first, second, number) in [
            (&condition, &condition, 2),
            (&registry, &registry, 2),
            (&registry, &deep, 3),
            (&large, &condition, 3),
            (&names("where"), &condition, 10),
            (&names("a"), &condition, 11),
        ] {
            each(expand(first, second, state, number).leaving(state).charging(0));
        }
    }
}

// ------------------------------------------------------------------ places

/// A place where a condition or a term can stand, with what is around it.
#[derive(Clone, Copy)]
struct Around {
    /// Whether a condition belongs into it, otherwise a term; and whether it is itself a condition.
    hole: Hole,
    is: Hole,
    /// Whether expansion looks there.
    looked_at: bool,
    /// The macro that is called around it, if the place is an argument.
    calls: Option<usize>,
    make: fn(Node) -> Node,
}

#[derive(Clone, Copy, PartialEq, Eq)]
enum Hole {
    Condition,
    Term,
}

/// The macros of these places: a condition and a value that use no argument, and what is called inside.
const KEEPS: usize = 0;
const WORTH: usize = 1;
const INSIDE: usize = 2;
const VALUE: usize = 3;

fn users() -> Node {
    list(
        1,
        vec![
            definition("keeps", &["x"], p(vec![])),
            value("worth", &["x"], integer(1)),
            definition("inside", &[], p(vec![])),
            value("value", &[], integer(1)),
        ],
    )
}

const fn around(hole: Hole, is: Hole, looked_at: bool, make: fn(Node) -> Node) -> Around {
    Around { hole, is, looked_at, calls: None, make }
}

const fn argument(hole: Hole, is: Hole, calls: usize, make: fn(Node) -> Node) -> Around {
    Around { hole, is, looked_at: true, calls: Some(calls), make }
}

fn exists(body: Node) -> Node {
    Node::new(9, 0, vec![Node::with_text(43, b"t"), Node::new(46, 0, vec![]), body])
}

fn sum(body: Node) -> Node {
    Node::new(30, 0, vec![Node::new(34, 0, vec![Node::with_text(43, b"t"), list(2, vec![]), body])])
}

/// Where 01 says that expansion looks and where it does not: conditions of conditions and aggregates, operands, sides of
/// arithmetic and arguments; not the fields of a predicate or a refinement, nor an array.
const PLACES: [Around; 26] = {
    use Hole::{Condition as C, Term as T};
    [
        around(C, C, true, |c| Node::new(1, 0, vec![c, p(vec![])])),
        around(C, C, true, |c| Node::new(1, 0, vec![p(vec![]), c])),
        around(C, C, true, |c| Node::new(2, 0, vec![c, p(vec![])])),
        around(C, C, true, |c| Node::new(2, 0, vec![p(vec![]), c])),
        around(C, C, true, |c| Node::new(3, 0, vec![c])),
        around(C, C, true, |c| Node::new(4, 0, vec![interval(48, 1), c])),
        around(C, C, true, |c| Node::new(5, 0, vec![interval(49, 1), c])),
        around(C, C, true, |c| Node::new(6, 0, vec![c, interval(50, 1), p(vec![])])),
        around(C, C, true, |c| Node::new(6, 0, vec![p(vec![]), interval(51, 1), c])),
        around(C, C, true, exists),
        around(C, C, true, |c| refined(c, THERE, vec![])),
        argument(C, C, KEEPS, |c| call("keeps", vec![condition(c)])),
        around(T, C, true, |t| equal(t, integer(1))),
        around(T, C, true, |t| equal(integer(1), t)),
        around(T, C, false, |t| p(vec![("f", t)])),
        around(T, C, false, |t| p(vec![("f", array(vec![t]))])),
        around(T, C, false, |t| refined(p(vec![]), 0, vec![("f", t)])),
        argument(T, C, KEEPS, |t| call("keeps", vec![term(t)])),
        around(T, T, true, |t| Node::new(31, 0, vec![t, integer(1)])),
        around(T, T, true, |t| Node::new(31, 1, vec![integer(1), t])),
        around(T, T, false, |t| array(vec![t])),
        around(T, T, false, |t| array(vec![integer(1), t])),
        argument(T, T, WORTH, |t| value_call("worth", vec![term(t)])),
        around(C, T, true, count),
        around(C, T, true, sum),
        argument(C, T, WORTH, |c| value_call("worth", vec![condition(c)])),
    ]
};

/// What is called: a condition, a value, and a value where a condition belongs.
#[derive(Clone, Copy, PartialEq, Eq)]
enum Called {
    Condition,
    Value,
    BareValue,
}

/// Each call in each place that is in each place that is in each place.
fn calls_in_places(each: &mut dyn FnMut(Edge)) {
    let places: Vec<&Around> = PLACES.iter().collect();
    let mut chains: Vec<Vec<&Around>> = places.iter().map(|place| vec![*place]).collect();
    for _ in 0..3 {
        for chain in &chains {
            for called in [Called::Condition, Called::Value, Called::BareValue] {
                each_in_chain(chain, called, each);
            }
        }
        let longer = |chain: &Vec<&'static Around>| {
            let inner = chain[chain.len() - 1].hole;
            let fitting = PLACES.iter().filter(move |place| place.is == inner);
            fitting.map(|place| [&chain[..], &[place]].concat()).collect::<Vec<_>>()
        };
        chains = chains.iter().flat_map(longer).collect();
    }
}

/// Outermost first. The whole is a condition, and what is called is what its place takes.
fn each_in_chain(chain: &[&Around], called: Called, each: &mut dyn FnMut(Edge)) {
    let inner = chain[chain.len() - 1];
    if chain[0].is != Hole::Condition || (inner.hole == Hole::Term) != (called == Called::Value) {
        return;
    }
    let leaf = match called {
        Called::Condition => call("inside", vec![]),
        Called::Value => value_call("value", vec![]),
        Called::BareValue => call("value", vec![]),
    };
    let whole = chain.iter().rev().fold(leaf, |inner, place| (place.make)(inner));
    let number = number_of(chain, called);
    for state in [states()[1], states()[2]] {
        let edge = expand(&users(), &whole, state, number);
        each(if number == 0 { edge.leaving(after(chain, called, state)) } else { edge.leaving(state) });
    }
}

/// How many of a chain's places expansion comes to: all before the first where it does not look, and that one.
fn reached(chain: &[&Around]) -> usize {
    chain.iter().position(|place| !place.looked_at).map_or(chain.len(), |i| i + 1)
}

fn is_looked_at(chain: &[&Around]) -> bool {
    chain.iter().all(|place| place.looked_at)
}

/// A bare call of a value is 32 but as an argument of its own. A refinement is 47 unless a predicate comes of its base: a
/// call's body is one.
fn number_of(chain: &[&Around], called: Called) -> u64 {
    let last = chain[chain.len() - 1];
    if called == Called::BareValue && is_looked_at(chain) && last.calls.is_none() {
        return 32;
    }
    let refines = |place: &&Around| (place.make)(p(vec![])).code == 13 && place.hole == Hole::Condition;
    let becomes_a_predicate = |i: usize| match chain.get(i + 1) {
        None => true,
        Some(inner) => inner.calls.is_some() || matches!((inner.make)(wildcard()).code, 7) || keeps_a_predicate(inner),
    };
    let broken = |i: &usize| refines(&chain[*i]) && is_looked_at(&chain[..*i]) && !becomes_a_predicate(*i);
    if (0..chain.len()).any(|i| broken(&i)) { 47 } else { 0 }
}

/// A refinement becomes a predicate itself.
fn keeps_a_predicate(inner: &Around) -> bool {
    (inner.make)(p(vec![])).code == 13
}

/// One for each macro around that is called where expansion looks, and one for what is called inside.
fn after(chain: &[&Around], called: Called, state: Counts) -> Counts {
    let around = chain[..reached(chain)].iter().filter_map(|place| place.calls);
    let state = around.fold(state, |state, macro_place| counted(state, macro_place, 1));
    let inside = if called == Called::Condition { INSIDE } else { VALUE };
    if is_looked_at(chain) { counted(state, inside, 1) } else { state }
}

// ------------------------------------------------------------------ states

/// Registries of 0 to 255 definitions: the cells behind the last are not touched, whatever they hold.
fn behind_the_last(each: &mut dyn FnMut(Edge)) {
    for definitions in [0, 1, 2, 3, 127, 254, 255] {
        let last = definitions - usize::from(definitions > 0);
        let registry = cedar_but(definitions, if definitions == 0 { &[] } else { std::slice::from_ref(&last) });
        for state in states().into_iter().chain([[u32::MAX; COUNTS], [1; COUNTS]]) {
            each(expand(&registry, &p(vec![]), state, 0).leaving(state));
            each(expand(&registry, &compared("nobody"), state, 30).leaving(state));
            if definitions > 0 {
                let after = counted(state, last, 1);
                each(expand(&registry, &compared(&name(last)), state, 0).leaving(after));
            }
        }
    }
}

/// Zeros whatever was there and whatever is answered.
fn just_built(each: &mut dyn FnMut(Edge)) {
    let large = list(1, vec![value("v", &[], brim::array(1020, 0))]);
    let names = |name: &str| list(1, vec![cedar("a"), cedar(name)]);
    let registries = [
        (macros(), 0),
        (list(1, vec![]), 0),
        (cedar_but(COUNTS, &[]), 0),
        (p(vec![]), 2),
        (large, 3),
        (names("in"), 10),
        (names("a"), 11),
    ];
    for state in states() {
        for (registry, number) in &registries {
            let case = Case { counts: state, ..of(Operation::Registry, &[registry]) };
            each(Edge::new(case.clone(), *number).leaving([0; COUNTS]));
            let mut short = Edge::new(case, 1).leaving([0; COUNTS]);
            short.case.sizes[2] -= 1;
            each(short);
        }
    }
}

/// Successes and refusals in turn, from a registry just built and from one that was used often.
fn runs(each: &mut dyn FnMut(Edge)) {
    let registry = macros();
    let ok = || call("ok", vec![]);
    let two = |a: Node, b: Node| call("two", vec![condition(a), condition(b)]);
    let bad = refined(not(ok()), THERE, vec![]);
    let steps = [
        (ok(), 100, 0, [1, 0]),
        (and(ok(), ok()), 100, 0, [2, 0]),
        (and(ok(), call("nobody", vec![])), 100, 30, [0, 0]),
        (two(ok(), two(ok(), ok())), 100, 0, [3, 2]),
        (and(ok(), ok()), 1, 35, [0, 0]),
        (bad, 100, 47, [0, 0]),
        (two(ok(), p(vec![])), 2, 0, [1, 1]),
    ];
    for built in states() {
        let mut state = built;
        for (condition, limit, number, calls) in steps.iter().cycle().take(3 * steps.len()) {
            let mut edge = expand(&registry, condition, state, *number);
            edge.case.limit = *limit;
            state = counted(counted(state, 0, calls[0]), 1, calls[1]);
            each(edge.leaving(state));
        }
    }
}
