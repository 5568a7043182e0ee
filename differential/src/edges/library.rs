//! Point 1: the check of a whole library. Lists of every length, the most refused definitions, every index.

use super::least::fewest;
use super::{Edge, List, of};
use crate::by_hand::{
    at, binder, call, cedar, count, definition, equal, integer, list, p, parameter, refined, sigil, tp, value,
    value_call, variable, wildcard,
};
use crate::case::{COUNTS, Case, Operation};
use crate::tape::{self, LARGEST, Node};

pub const LISTS: &[List] = &[
    List::new(1, "0 to 204 refused definitions by 20 and 21, 0 to 127 by 22", &[0], lengths),
    List::new(1, "205 refused do not fit, nor 128 by 22", &[0, 3], one_too_many),
    List::new(1, "255 definitions, all passing, and one to three refused", &[0, 3], most_definitions),
    List::new(1, "every kind of verdict at every place", &[0], verdicts),
    List::new(1, "check_at every index, and past the end", &[0, 20, 21, 22], indexes),
    List::new(1, "10 and 11 before every verdict, at every index", &[10, 11], names),
];

/// A definition and its verdict.
#[derive(Clone)]
struct Judged {
    definition: Node,
    number: u64,
    span: u64,
}

fn judged(definition: Node, number: u64, span: u64) -> Judged {
    Judged { definition, number, span }
}

/// A row of the list, as 02 has it: index, number, start and end.
fn rows(all: &[Judged]) -> Vec<u8> {
    let mut rows = Vec::new();
    for (i, one) in all.iter().enumerate().filter(|(_, one)| one.number != 0) {
        let words = [i as u64, one.number, tape::span_start(one.span), tape::span_end(one.span)];
        words.iter().for_each(|word| rows.extend((*word as u32).to_le_bytes()));
    }
    rows
}

fn library(all: &[Judged]) -> Node {
    list(1, all.iter().map(|one| one.definition.clone()).collect())
}

/// The whole list.
fn checked(all: &[Judged]) -> Edge {
    Edge::new(of(Operation::CheckLibrary, &[&library(all)]), 0).at(0).making(rows(all))
}

fn check_at(registry: &Node, index: u32, number: u64) -> Edge {
    Edge::new(Case { index, ..of(Operation::CheckAt, &[registry]) }, number)
}

/// One index, past the end 0.
fn checked_at(all: &[Judged], index: u32) -> Edge {
    let (number, span) = all.get(index as usize).map_or((0, 0), |one| (one.number, one.span));
    check_at(&library(all), index, number).at(span)
}

/// Where a registry of so many definitions ends, and far behind it.
fn past_the_end(definitions: usize) -> [u32; 6] {
    [definitions as u32, definitions as u32 + 1, 255, 256, 1 << 31, u32::MAX]
}

fn name(i: usize) -> String {
    format!("d{i}")
}

/// The least definition with this verdict: five entries, by 22 eight. Its span is no other's.
fn least_with(number: u64, i: usize) -> Judged {
    let own = tape::span(i as u32, 1 << 31);
    let body = |term: Node| at(own, value(&name(i), &[], term));
    match number {
        20 => judged(body(parameter("y")), 20, 0),
        21 => judged(body(variable("y")), 21, 0),
        22 => judged(at(own, definition(&name(i), &[], at(own, call("k", vec![])))), 22, own),
        _ => judged(body(wildcard()), 0, 0),
    }
}

// ------------------------------------------------------------------ lengths

/// So many of these numbers in turn, and so many that pass: refused ones first, last, or spread.
fn lengths(each: &mut dyn FnMut(Edge)) {
    for numbers in [&[20][..], &[21], &[20, 21], &[22], &[22, 22, 20]] {
        let most = (LARGEST.entries - 1) / if numbers.contains(&22) { 8 } else { 5 };
        for refused in [0, 1, 2, 3, 7, 50, 100, most - 1, most] {
            let number = |i: usize| if i < refused { numbers[i % numbers.len()] } else { 0 };
            let spread = |i: usize| if (i * refused) % most < refused { numbers[i % numbers.len()] } else { 0 };
            each(checked(&all_of(most, number)));
            each(checked(&all_of(most, |i| number(most - 1 - i))));
            each(checked(&all_of(most, spread)));
            each(checked(&all_of(refused, number)));
        }
    }
}

fn all_of(definitions: usize, number: impl Fn(usize) -> u64) -> Vec<Judged> {
    (0..definitions).map(|i| least_with(number(i), i)).collect()
}

/// A refused definition has a body that is no Cedar: five entries at the least, since a term has one. So of 1,024 entries,
/// one of them the list's, 204 is the most; by 22, which takes a call, 127.
fn one_too_many(each: &mut dyn FnMut(Edge)) {
    assert_eq!([fewest(61), fewest(62), fewest(63)], [1, 3, 2], "a body's entries, behind 60, 40 and 41");
    for (number, most, entries) in [(20, 204, 1021), (21, 204, 1021), (22, 127, 1017)] {
        let fitting = all_of(most, |_| number);
        assert_eq!(tape::measure(&library(&fitting)).entries, entries);
        each(checked(&fitting));
        for more in [1, 2, 10] {
            let library = library(&all_of(most + more, |_| number));
            each(Edge::new(of(Operation::CheckLibrary, &[&library]), 3).at(0).making(vec![]).because("entries"));
            each(check_at(&library, 0, 3).because("entries"));
        }
    }
}

/// Of 255 definitions all but three are Cedar, which pass: 255 refused do not fit, and no 22 beside 254.
fn most_definitions(each: &mut dyn FnMut(Edge)) {
    let cedar_but = |places: &[(usize, u64)], definitions: usize| -> Vec<Judged> {
        let mut all: Vec<Judged> = (0..definitions).map(|i| judged(cedar(&name(i)), 0, 0)).collect();
        places.iter().for_each(|(place, number)| all[*place] = least_with(*number, *place));
        all
    };
    each(checked(&cedar_but(&[], COUNTS)));
    for place in 0..COUNTS {
        for number in [20, 21, 0] {
            each(checked(&cedar_but(&[(place, number)], COUNTS)));
        }
        let three = [(place, 20), ((place + 1) % COUNTS, 21), ((place + 100) % COUNTS, 20)];
        each(checked(&cedar_but(&three, COUNTS)));
        let with_a_call = cedar_but(&[(place % 254, 22), ((place + 1) % 254, 20)], COUNTS - 1);
        each(checked(&with_a_call));
    }
    let too_many = [
        cedar_but(&[(0, 20), (1, 20), (2, 20), (3, 20)], COUNTS),
        cedar_but(&[(7, 22)], COUNTS),
        cedar_but(&[], COUNTS + 1),
    ];
    for all in too_many {
        each(Edge::new(of(Operation::CheckLibrary, &[&library(&all)]), 3).making(vec![]).because("entries"));
    }
}

// ------------------------------------------------------------------ verdicts

/// The span of what is refused, and of what is around it.
const THERE: u64 = tape::span(30, 33);

/// Every code that a check refuses, in conditions, values and aggregates, and what passes beside it.
fn kinds() -> Vec<Judged> {
    let there = |condition: Node| at(THERE, condition);
    let within = |slot: Node| Node::new(4, THERE, vec![slot, p(vec![])]);
    let summed = Node::new(34, THERE, vec![Node::with_text(43, b"v"), list(2, vec![]), p(vec![])]);
    let field = |t: Node| there(p(vec![("f", t)]));
    let bodies = vec![
        (0, 0, definition("", &["x"], field(parameter("x")))),
        (20, THERE, definition("", &["x"], field(parameter("y")))),
        (20, THERE, definition("", &[], there(sigil(58, "x")))),
        (0, 0, definition("", &[], there(sigil(59, "x")))),
        (20, THERE, definition("", &["a", "b"], there(tp(44, "v")))),
        (21, THERE, definition("", &["v"], there(tp(43, "v")))),
        (0, 0, definition("", &["v"], there(tp(44, "v")))),
        (20, THERE, definition("", &["é", "z", "é"], within(Node::with_text(52, b"d")))),
        (21, THERE, definition("", &[], there(equal(variable("q"), integer(1))))),
        (20, THERE, definition("", &["s"], there(refined(sigil(58, "s"), 0, vec![("h", parameter("u"))])))),
        (22, THERE, definition("", &[], there(call("k", vec![])))),
        (22, THERE, definition("", &[], equal(Node::new(30, 0, vec![at(THERE, aggregate_call())]), integer(1)))),
        (20, 0, value("", &[], parameter("y"))),
        (21, 0, value("", &[], variable("y"))),
        (0, 0, value("", &[], binder("t"))),
        (21, THERE, value("", &[], Node::new(30, 0, vec![summed]))),
        (20, THERE, value("", &[], count(there(tp(44, "v"))))),
        (22, THERE, value("", &[], Node::new(30, 0, vec![at(THERE, aggregate_call())]))),
        (0, 0, cedar("")),
    ];
    bodies.into_iter().map(|(number, span, definition)| judged(definition, number, span)).collect()
}

/// The 36 of a call.
fn aggregate_call() -> Node {
    value_call("k", vec![]).children.remove(0)
}

/// The library turned so that another one is first, each with the name of its place.
fn turned(mut all: Vec<Judged>, by: usize) -> Vec<Judged> {
    all.rotate_left(by);
    for (i, one) in all.iter_mut().enumerate() {
        one.definition.children[0] = Node::with_text(40, name(i).as_bytes());
        one.definition.value = tape::span(i as u32, 77);
    }
    all
}

/// A verdict does not depend on the other definitions, nor on the place.
fn verdicts(each: &mut dyn FnMut(Edge)) {
    for by in 0..kinds().len() {
        let all = turned(kinds(), by);
        (0..=all.len()).for_each(|definitions| each(checked(&all[..definitions])));
        all.iter().for_each(|one| each(checked(std::slice::from_ref(one))));
    }
}

fn indexes(each: &mut dyn FnMut(Edge)) {
    let mut libraries = vec![vec![], all_of(204, |i| [20, 21, 0][i % 3]), all_of(127, |_| 22)];
    let mut cedar_but_three: Vec<Judged> = (0..COUNTS).map(|i| judged(cedar(&name(i)), 0, 0)).collect();
    [(0, 20), (127, 21), (254, 20)].into_iter().for_each(|(i, number)| cedar_but_three[i] = least_with(number, i));
    libraries.push(cedar_but_three);
    (0..kinds().len()).for_each(|by| libraries.push(turned(kinds(), by)));
    for all in libraries {
        (0..all.len() as u32).chain(past_the_end(all.len())).for_each(|index| each(checked_at(&all, index)));
    }
}

/// A reserved name or one that stands twice, at each place of a library that has every verdict.
fn names(each: &mut dyn FnMut(Edge)) {
    let all = turned(kinds(), 0);
    for place in 1..all.len() {
        for (new, number) in [("where", 10), ("d0", 11)] {
            let mut named = all.clone();
            named[place].definition.children[0] = Node::with_text(40, new.as_bytes());
            let (registry, span) = (library(&named), named[place].definition.value);
            each(Edge::new(of(Operation::CheckLibrary, &[&registry]), number).at(span).making(vec![]));
            let indexes = (0..all.len() as u32).chain(past_the_end(all.len()));
            indexes.for_each(|index| each(check_at(&registry, index, number).at(span)));
        }
    }
}
