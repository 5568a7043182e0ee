//! Point 7: two registries joined. A difference in every entry at every depth, and the ends of N, T and the definitions.

use super::changes::{self, Kind};
use super::least::{self, Site, every_code, fits, least, places, sites};
use super::{Edge, List, of};
use crate::brim;
use crate::by_hand::{at, cedar, defined, definition, equal, integer, list, p, tp, value, wildcard};
use crate::case::Operation;
use crate::tape::{self, LARGEST, Node, Sort, Value};

pub const LISTS: &[List] = &[
    List::new(7, "another value or text 51, another span 0, each place and depth", &[0, 51], other_values),
    List::new(7, "another code 51, each place and depth", &[51], other_codes),
    List::new(7, "every other code 51, each place", &[51], every_other_code),
    List::new(7, "all spans differ 0, each place and depth", &[0], other_spans),
    List::new(7, "each entry of a definition of 1,000 changed, its spans alone too", &[0, 51], large),
    List::new(7, "51 has the span of the second's first that differs", &[0, 51], several),
    List::new(7, "an Or and its written-out form", &[0, 51], written_out),
    List::new(7, "1,023 to 1,025 entries merged, 3,071 to 3,073 bytes of text", &[0, 3, 51], sizes),
    List::new(7, "255 and 256 definitions", &[0, 3], many),
    List::new(7, "10 and 11 in either, before 51 and behind 2 and 3", &[0, 2, 3, 10, 11, 51], names),
];

/// The span of the second registry's definition, which 51 answers.
const SECOND: u64 = tape::span(20, 21);

fn merge(first: &Node, second: &Node, number: u64) -> Edge {
    Edge::new(of(Operation::Merge, &[first, second]), number)
}

fn registry(definitions: &[&Node]) -> Node {
    list(1, definitions.iter().copied().cloned().collect())
}

/// One definition in each registry: 51 with the second's span, or 0 with the first registry as it is, without Or.
fn pair(first: &Node, second: &Node, agree: bool) -> Edge {
    let second = at(SECOND, second.clone());
    let edge = merge(&registry(&[first]), &registry(&[&second]), if agree { 0 } else { 51 });
    if agree { edge.making(tape::encode(&tape::withdrawn(&registry(&[first])))) } else { edge.at(SECOND) }
}

/// Each place of a definition, from where it stands first to the depth at which no more level fits. Of its codes 42 and 54
/// have a span and nothing else that could differ, as the 60 has: they are in the pairs that agree.
fn at_every_depth(each: &mut dyn FnMut(Site)) {
    for place in places() {
        (0..).map_while(|levels| place.in_definition(levels)).for_each(&mut *each);
    }
}

/// The definition's own name is no difference: the other one is another definition.
fn is_own_name(site: &Site) -> bool {
    site.way == [0]
}

fn other_values(each: &mut dyn FnMut(Edge)) {
    at_every_depth(&mut |site| {
        for (kind, changed) in changes::values(&site) {
            let second = site.with(changed);
            if is_own_name(&site) {
                let second = at(SECOND, second);
                let both = tape::encode(&registry(&[&site.tree, &second]));
                each(merge(&registry(&[&site.tree]), &registry(&[&second]), 0).making(both));
            } else if fits(&second) {
                each(pair(&site.tree, &second, kind == Kind::Span));
            } else {
                // At depth 64 an array has no room for an item, nor a predicate for a field.
                assert!(site.depth() == 64 && matches!(site.entry().code, 29 | 41));
            }
        }
    });
}

/// The next code that may stand there, or where its least tree is too deep the one behind it. At depth 64 an aggregate can
/// only be a 36 and an argument a 57, since what the others need would be deeper.
fn other_codes(each: &mut dyn FnMut(Edge)) {
    at_every_depth(&mut |site| match changes::codes(&site).map(|changed| site.with(changed)).find(fits) {
        Some(second) => each(pair(&site.tree, &second, false)),
        None => {
            assert!(tape::codes(site.sort).len() == 1 || site.depth() == 64 && matches!(site.entry().code, 36 | 57))
        }
    });
}

fn every_other_code(each: &mut dyn FnMut(Edge)) {
    for site in places().iter().filter_map(|place| place.in_definition(0)) {
        for changed in changes::codes(&site) {
            each(pair(&site.tree, &site.with(changed), false));
        }
    }
}

fn other_spans(each: &mut dyn FnMut(Edge)) {
    at_every_depth(&mut |site| each(pair(&site.tree, &with_other_spans(&site.tree), true)));
}

fn with_other_spans(node: &Node) -> Node {
    let value = if tape::value(node.code) == Value::Span { !node.value } else { node.value };
    let children = node.children.iter().map(with_other_spans).collect();
    Node { text: node.text.clone(), ..Node::new(node.code, value, children) }
}

/// A definition with every code, fifteen parameters (one more may come), and 1,000 entries.
fn large_definition() -> Node {
    let parameters: Vec<String> = (0..15).map(|i| format!("p{i}")).collect();
    let parameters: Vec<&str> = parameters.iter().map(String::as_str).collect();
    let body = every_code();
    let bare = definition("d", &parameters, body.clone());
    let missing = 1000 - tape::measure(&bare).entries;
    let body = brim::grow_condition(body, brim::Figure::Entries, missing).expect("room for more");
    definition("d", &parameters, body)
}

fn large(each: &mut dyn FnMut(Edge)) {
    let whole = large_definition();
    each(pair(&whole, &whole, true));
    each(pair(&whole, &with_other_spans(&whole), true));
    for site in sites(&whole, Sort::Definition).iter().filter(|site| !is_own_name(site)) {
        for (kind, changed) in changes::values(site) {
            each(pair(&whole, &site.with(changed), kind == Kind::Span));
        }
        if let Some(changed) = changes::codes(site).next() {
            each(pair(&whole, &site.with(changed), false));
        }
    }
}

/// Of five definitions in both registries each set of them differs; the second has them in another order.
fn several(each: &mut dyn FnMut(Edge)) {
    let one = |i: u32, n: u64| at(tape::span(i, 9), value(&format!("d{i}"), &[], integer(n)));
    let first: Vec<Node> = (0..5).map(|i| one(i, 0)).collect();
    for differ in 0..1u32 << 5 {
        for turn in 0..5 {
            let order = (0..5).map(|i| (i * 2 + turn) % 5);
            let second: Vec<Node> = order.map(|i| at(tape::span(i, 100), one(i, u64::from(differ >> i & 1)))).collect();
            let found = second.iter().find(|d| d.children[2].children[0].value == 1);
            let edge = merge(&list(1, first.clone()), &list(1, second.clone()), if differ == 0 { 0 } else { 51 });
            each(edge.at(found.map_or(0, |d| d.value)));
        }
    }
}

/// `a or b` agrees with the negation of the conjunction of the two negations, whichever registry has it, at each depth.
fn written_out(each: &mut dyn FnMut(Edge)) {
    let or_places = places().into_iter().filter(|place| place.code == 2);
    for place in or_places {
        for site in (0..).map_while(|levels| place.in_definition(levels)) {
            let (or, without) = (Node::clone(&site.tree), tape::withdrawn(&site.tree));
            each(pair(&or, &with_other_spans(&without), true));
            each(pair(&without, &with_other_spans(&or), true));
            // Not so if one of the four is not there.
            each(pair(&or, &site.with(least(3)), false));
            let two = Node::new(3, 0, vec![Node::new(1, 0, vec![least(10), least(10)])]);
            each(pair(&site.with(two), &or, false));
        }
    }
}

// ------------------------------------------------------------------ sizes

/// A definition of just so many entries, with so much text, its name's too.
fn sized(name: &str, entries: usize, text: usize) -> Node {
    // 60, 40, 41 and 63 stand before the array.
    value(name, &[], brim::array(entries - 4, text - name.len()))
}

/// What the merged registry has, and whether that is too much.
fn sized_pair(first: Node, second: Node, merged: [usize; 2], each: &mut dyn FnMut(Edge)) {
    let [entries, text] = merged;
    let over = entries > LARGEST.entries || text > LARGEST.text;
    let edge = merge(&first, &second, if over { 3 } else { 0 }).at(0);
    let reason = if entries > LARGEST.entries { "entries" } else { "text" };
    each(if over { edge.because(reason) } else { edge });
}

fn sizes(each: &mut dyn FnMut(Edge)) {
    let shared = sized("s", 100, 30);
    let again = with_other_spans(&shared);
    for (entries, text) in
        [(1023, 500), (1024, 500), (1025, 500), (300, 3071), (300, 3072), (300, 3073), (1024, 3072), (1025, 3073)]
    {
        for part in [10, 90, 150, entries - 160] {
            let part_text = text * part / entries;
            let own = sized("a", part, part_text);
            let with = |registry: &[&Node], entries: usize, text: usize| sized_pair_of(&own, registry, entries, text);
            let (a, b) = with(&[], entries, text);
            sized_pair(a, b, [entries, text], each);
            // A definition in both counts once.
            let (a, mut b) = with(&[&shared], entries, text);
            b.children.insert(0, again.clone());
            b.value += 1;
            sized_pair(a, b, [entries, text], each);
        }
        if entries <= 1024 && text <= 3072 {
            let first = registry(&[&sized("first", entries - 1, text)]);
            sized_pair(first.clone(), with_other_spans(&first), [entries, text], each);
            sized_pair(first.clone(), list(1, vec![]), [entries, text], each);
            sized_pair(list(1, vec![]), first, [entries, text], each);
        }
    }
    with_ors(each);
    differing_too(each);
}

/// Two registries: the first has `own` and `others`, the second a definition with what is missing of these figures.
fn sized_pair_of(own: &Node, others: &[&Node], entries: usize, text: usize) -> (Node, Node) {
    let first = registry(&[&[own], others].concat());
    let has = tape::measure(&first);
    let second = registry(&[&sized("b", entries - has.entries, text - has.text)]);
    (first, second)
}

/// An Or counts three entries more, in the first registry and in the second.
fn with_ors(each: &mut dyn FnMut(Edge)) {
    let or = definition("or", &[], Node::new(2, 0, vec![tp(45, "t"), tp(45, "t")]));
    let has = tape::measure(&tape::withdrawn(&or)).entries;
    for entries in 1022..=1026 {
        let other = sized("other", entries - 1 - has, 9);
        let text = 9 + tape::measure(&or).text;
        sized_pair(registry(&[&or]), registry(&[&other]), [entries, text], each);
        sized_pair(registry(&[&other]), registry(&[&or]), [entries, text], each);
        let (both, again) = (registry(&[&other, &or]), registry(&[&tape::withdrawn(&or)]));
        match entries {
            ..=1024 => each(merge(&both, &again, 0)),
            // The first tape itself is too large when it is rewritten.
            _ => each(merge(&both, &again, 3).because("entries when Or is rewritten")),
        }
    }
}

/// 51 comes before the last 3.
fn differing_too(each: &mut dyn FnMut(Edge)) {
    let (a, b) = (value("d", &[], integer(1)), at(SECOND, value("d", &[], integer(2))));
    for entries in [500, 513, 514, 600] {
        let (first, second) = (sized("first", entries, 9), sized("second", entries, 9));
        each(merge(&registry(&[&first, &a]), &registry(&[&second, &b]), 51).at(SECOND));
        each(merge(&registry(&[&a, &first]), &registry(&[&b, &second]), 51).at(SECOND));
    }
}

/// A definition has four entries at the least, and a registry's list one: 255 fit, and 256 are 1,025 entries. So there is no
/// other end than that of the entries, and 256 definitions are 3 whatever they are.
fn many(each: &mut dyn FnMut(Edge)) {
    assert_eq!(least::fewest(60), 4);
    let numbered = |from: usize, to: usize| list(1, (from..to).map(|i| cedar(&format!("d{i}"))).collect());
    for (a, b) in [(0, 255), (1, 254), (127, 128), (200, 55), (254, 1), (255, 0), (0, 254), (100, 154)] {
        let whole = tape::encode(&numbered(0, a + b));
        each(merge(&numbered(0, a), &numbered(a, a + b), 0).making(whole.clone()));
        // All of the first stand in the second too.
        each(merge(&numbered(0, a), &numbered(0, a + b), 0).making(whole));
    }
    for (a, b) in [(1, 255), (128, 128), (200, 56), (255, 1)] {
        each(merge(&numbered(0, a), &numbered(a, a + b), 3).at(0).because("entries"));
        each(merge(&numbered(0, a), &numbered(a - 1, a + b - 1), 0));
    }
    each(merge(&numbered(0, 255), &numbered(0, 255), 0));
    each(merge(&numbered(0, 255), &numbered(255, 510), 3).at(0).because("entries"));
    each(merge(&numbered(0, 256), &numbered(0, 1), 3).because("entries"));
    each(merge(&numbered(0, 1), &numbered(0, 256), 3).because("entries"));
}

// ------------------------------------------------------------------ names

const RESERVED: [&str; 16] = [
    "decimal", "datetime", "duration", "ip", "let", "in", "where", "for", "sum", "count", "tp", "formerly", "previous",
    "since", "true", "false",
];

/// A registry that is 10, 11 or neither, with the span that is answered.
fn named(kind: u64, start: u32) -> (Node, u64) {
    let one = |name: &str, i: u32| at(tape::span(start + i, 99), definition(name, &[], p(vec![])));
    let names = match kind {
        10 => ["a", "b", "where", "a"],
        11 => ["a", "b", "a", "where"],
        _ => ["a", "b", "c", "d"],
    };
    let definitions = names.iter().zip(0..).map(|(name, i)| one(name, i)).collect();
    (list(1, definitions), if kind == 0 { 0 } else { tape::span(start + 2, 99) })
}

fn names(each: &mut dyn FnMut(Edge)) {
    for a in [0, 10, 11] {
        for b in [0, 10, 11] {
            let ((first, at_first), (second, at_second)) = (named(a, 100), named(b, 200));
            let (number, span) = if a > 0 { (a, at_first) } else { (b, at_second) };
            each(merge(&first, &second, number).at(span));
            // A name that differs comes behind 10 and 11.
            let mut differing = second.clone();
            differing.children[1].children[2] = Node::new(63, 0, vec![wildcard()]);
            let (number, span) = if number > 0 { (number, span) } else { (51, differing.children[1].value) };
            each(merge(&first, &differing, number).at(span));
            behind_the_tapes(&first, &second, each);
        }
    }
    for name in RESERVED {
        let reserved = list(1, vec![at(SECOND, cedar(name))]);
        let other = list(1, vec![defined("d", &["x"], Node::new(61, 0, vec![]))]);
        each(merge(&reserved, &other, 10).at(SECOND));
        each(merge(&other, &reserved, 10).at(SECOND));
        each(merge(&reserved, &reserved, 10).at(SECOND));
    }
}

/// The 2 and 3 of both tapes come before any name.
fn behind_the_tapes(first: &Node, second: &Node, each: &mut dyn FnMut(Edge)) {
    let too_large = list(1, vec![sized("large", 1024, 9)]);
    let no_registry = equal(wildcard(), wildcard());
    each(merge(first, &too_large, 3).because("entries"));
    each(merge(first, &no_registry, 2));
    each(merge(&too_large, second, 3).because("entries"));
    each(merge(&no_registry, second, 2));
    each(merge(&too_large, &no_registry, 3));
    each(merge(&no_registry, &too_large, 2));
}
