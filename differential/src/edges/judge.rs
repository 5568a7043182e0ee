//! Point 3: another supplier's result. Every renaming, every entry changed, every length of a name.

use super::changes::{self, Kind};
use super::least::{Site, every_code, sites};
use super::{Edge, List, of};
use crate::by_hand::{
    all, and, at, binder, call_at, condition, count, definition, list, p, parameter, predicate, term, text, tp,
    variable,
};
use crate::case::{Case, Operation};
use crate::judge::{Names, names};
use crate::model;
use crate::tape::{self, Node, Sort};
use std::collections::BTreeMap;

pub const LISTS: &[List] = &[
    List::new(3, "consistent renamings and exchanges of generated names", &[0], renamings),
    List::new(3, "two names sent to one, one to two, a name to a protected one", &[50], wrong_renamings),
    List::new(3, "a protected name renamed, a 40 renamed", &[50], not_to_be_renamed),
    List::new(3, "generated names that equal protected ones", &[0, 50], generated_and_protected),
    List::new(3, "names and other texts of a definition that is not called", &[0, 50], uncalled),
    List::new(3, "every entry of a result changed once", &[0, 50], every_entry),
    List::new(3, "names of 63 to 82 bytes in the supplied tape, by file", &[0, 3, 50], lengths),
    List::new(3, "the longest names that are generated, 75 and 81 bytes", &[0, 50], longest),
];

const FILES: [u16; 3] = [0, 1, 65_535];

/// `exists $t, P{f: ?x, g: $t} && tp($u)`, and a macro that uses no argument.
fn called() -> Vec<Node> {
    let inner = and(p(vec![("f", parameter("x")), ("g", binder("t"))]), tp(45, "u"));
    let exists = Node::new(9, 0, vec![Node::with_text(45, b"t"), Node::new(46, 0, vec![]), inner]);
    let unused = predicate("Q", vec![("w", binder("w"))]);
    vec![definition("m", &["x"], exists), definition("n", &["y"], unused)]
}

/// A definition that no condition calls, with a text of every kind in it.
fn other() -> Node {
    let inner = predicate("action", vec![("field", variable("plain27")), ("g", Node::with_text(23, b"string"))]);
    let inner = and(inner, Node::new(8, 0, vec![Node::new(53, 0, vec![]), binder("binder"), parameter("parameter")]));
    let exists = Node::new(9, 0, vec![Node::with_text(43, b"plain43"), Node::new(47, 1, vec![text("type")]), inner]);
    definition("other", &["parameter"], exists)
}

fn registry() -> Node {
    list(1, [called(), vec![other()]].concat())
}

/// Calls of m at 7 and at 20, and one of n at 30 with an argument that is not used. Names of the input stand in arguments,
/// fields and slots.
fn input() -> Node {
    let at_start = |name: &str, start: u32, argument: Node| {
        Node::new(11, tape::span(1, 2), vec![call_at(name, tape::span(start, 99), vec![argument])])
    };
    let unused = condition(and(tp(43, "unused43"), p(vec![("f", variable("unused27"))])));
    all(&[
        at_start("m", 7, term(variable("a"))),
        at_start("m", 20, term(variable("b"))),
        at_start("n", 30, unused),
        at(tape::span(5, 6), p(vec![("f", variable("c"))])),
        tp(43, "d"),
    ])
}

/// The names that the calls generate in file 0; each has the file number behind it in another.
const GENERATED: [&str; 5] = ["t$7", "u$7", "t$20", "u$20", "w$30"];
/// The names of condition and registry, those first that stand in the result.
const PROTECTED: [&str; 8] = ["a", "b", "c", "d", "unused43", "unused27", "plain27", "plain43"];

fn generated(name: &str, file: u16) -> String {
    if file == 0 { name.to_string() } else { format!("{name}#{file}") }
}

fn judge(registry: &Node, condition: &Node, supplied: &Node, file: u16, number: u64) -> Edge {
    let edge = Edge::new(Case { file, ..of(Operation::Judge, &[registry, condition, supplied]) }, number);
    if number == 0 { edge.making(tape::encode(&ours(registry, condition, file))) } else { edge.making(vec![]) }
}

/// Our own result.
fn ours(registry: &Node, condition: &Node, file: u16) -> Node {
    let case = Case { file, ..of(Operation::Expand, &[registry, condition]) };
    model::answer(&case).1.result.expect("it expands")
}

/// The names of 27 and 43 sent to others.
fn renamed(node: &Node, renaming: &BTreeMap<String, String>) -> Node {
    let own = std::str::from_utf8(&node.text).expect("well-formed");
    if let (27 | 43, Some(new)) = (node.code, renaming.get(own)) {
        return Node::with_text(node.code, new.as_bytes());
    }
    let children = node.children.iter().map(|child| renamed(child, renaming)).collect();
    Node { text: node.text.clone(), ..Node::new(node.code, node.value, children) }
}

/// Pairs of generated names, which get the file number, and what they become.
fn renaming(pairs: &[(&str, &str)], file: u16) -> BTreeMap<String, String> {
    pairs.iter().map(|(from, to)| (generated(from, file), to.to_string())).collect()
}

fn try_renaming(pairs: &[(&str, &str)], file: u16, number: u64, each: &mut dyn FnMut(Edge)) {
    let (registry, condition) = (registry(), input());
    let supplied = renamed(&ours(&registry, &condition, file), &renaming(pairs, file));
    each(judge(&registry, &condition, &supplied, file, number));
}

// ------------------------------------------------------------------ renamings

/// New names, among them texts that stand in the inputs only as something else than a name.
const FREE: [&str; 16] =
    ["n", "", "K\u{fc}che", "t$8", "t$7#9", "$", "x", "y", "t", "u", "P", "f", "m", "other", "string", "binder"];

fn renamings(each: &mut dyn FnMut(Edge)) {
    for file in FILES {
        try_renaming(&[], file, 0, each);
        for name in GENERATED {
            FREE.iter().for_each(|free| try_renaming(&[(name, free)], file, 0, each));
        }
        let all_new: Vec<(&str, &str)> = GENERATED.into_iter().zip(FREE).collect();
        (1..=5).for_each(|n| try_renaming(&all_new[..n], file, 0, each));
        let own: Vec<String> = GENERATED.iter().map(|name| generated(name, file)).collect();
        for (i, j) in (0..5).flat_map(|i| (0..5).map(move |j| (i, j))).filter(|(i, j)| i != j) {
            // Exchanged, sent round, and one in the place of another that becomes something new.
            try_renaming(&[(GENERATED[i], &own[j]), (GENERATED[j], &own[i])], file, 0, each);
            try_renaming(&[(GENERATED[i], &own[j]), (GENERATED[j], "n")], file, 0, each);
            let k = (0..5).find(|k| ![i, j].contains(k)).expect("five");
            try_renaming(&[(GENERATED[i], &own[j]), (GENERATED[j], &own[k]), (GENERATED[k], &own[i])], file, 0, each);
        }
        for turn in 0..5 {
            let round: Vec<_> = (0..5).map(|i| (GENERATED[i], own[(i + turn) % 5].as_str())).collect();
            try_renaming(&round, file, 0, each);
        }
    }
}

fn wrong_renamings(each: &mut dyn FnMut(Edge)) {
    let (registry, condition) = (registry(), input());
    for file in FILES {
        let own: Vec<String> = GENERATED.iter().map(|name| generated(name, file)).collect();
        for (i, j) in (0..5).flat_map(|i| (0..5).map(move |j| (i, j))).filter(|(i, j)| i != j) {
            try_renaming(&[(GENERATED[i], &own[j])], file, 50, each);
            try_renaming(&[(GENERATED[i], "n"), (GENERATED[j], "n")], file, 50, each);
        }
        // Whether the result holds the protected name or not.
        for (name, protected) in GENERATED.iter().flat_map(|g| PROTECTED.iter().map(move |p| (g, p))) {
            try_renaming(&[(name, protected)], file, 50, each);
        }
        // One entry of a name that stands twice.
        let result = ours(&registry, &condition, file);
        for site in sites(&result, Sort::Condition).iter().filter(|site| matches!(site.entry().code, 27 | 43)) {
            if times(&result, &site.entry().text) > 1 {
                let changed = Node::with_text(site.entry().code, b"n");
                each(judge(&registry, &condition, &site.with(changed), file, 50));
            }
        }
    }
}

/// How often a name stands in a tree.
fn times(tree: &Node, name: &[u8]) -> usize {
    let mut times = 0;
    tree.visit(&mut |node| times += usize::from(matches!(node.code, 27 | 43) && node.text == name));
    times
}

fn not_to_be_renamed(each: &mut dyn FnMut(Edge)) {
    let (registry, condition) = (registry(), input());
    for file in FILES {
        let result = ours(&registry, &condition, file);
        for (from, to) in PROTECTED[..4].iter().flat_map(|from| ["n", "a", "b", "unused27"].map(|to| (from, to))) {
            let renaming = BTreeMap::from([(from.to_string(), to.to_string())]);
            let supplied = renamed(&result, &renaming);
            if supplied != result {
                each(judge(&registry, &condition, &supplied, file, 50));
            }
        }
        // A consistent renaming of the texts of 40, or of one of them, is none.
        for site in sites(&result, Sort::Condition).iter().filter(|site| site.entry().code == 40) {
            each(judge(&registry, &condition, &site.with(text("n")), file, 50));
            let mut everywhere = Node::clone(&site.tree);
            rename_texts(&mut everywhere, &site.entry().text);
            each(judge(&registry, &condition, &everywhere, file, 50));
        }
    }
}

fn rename_texts(node: &mut Node, from: &[u8]) {
    if node.code == 40 && node.text == from {
        *node = text("n");
    }
    node.children.iter_mut().for_each(|child| rename_texts(child, from));
}

// ------------------------------------------------------------------ protected names

/// The name that is generated stands in the condition too, or in a definition: it keeps its name, and no other gets it.
fn generated_and_protected(each: &mut dyn FnMut(Edge)) {
    for file in FILES {
        let own: Vec<String> = GENERATED.iter().map(|name| generated(name, file)).collect();
        for (i, name) in own.iter().enumerate() {
            let beside = |extra: Node| and(input(), extra);
            let unused = call_at("n", tape::span(60, 61), vec![term(variable(name))]);
            let in_registry = list(1, [called(), vec![definition("also", &[], tp(43, name))]].concat());
            let inputs = [
                (registry(), beside(p(vec![("f", variable(name))]))),
                (registry(), beside(tp(43, name))),
                (registry(), beside(Node::new(11, 0, vec![unused]))),
                (in_registry, input()),
            ];
            for (registry, condition) in inputs {
                let result = ours(&registry, &condition, file);
                each(judge(&registry, &condition, &result, file, 0));
                let mut send = |from: &str, to: &str, number: u64| {
                    let renaming = BTreeMap::from([(from.to_string(), to.to_string())]);
                    each(judge(&registry, &condition, &renamed(&result, &renaming), file, number));
                };
                send(name, "new", 50);
                let another = &own[(i + 1) % own.len()];
                send(another, "new", 0);
                send(another, name, 50);
            }
        }
    }
}

/// Names of a definition that is not called are protected as well; its parameters, binders, texts and strings are not.
fn uncalled(each: &mut dyn FnMut(Edge)) {
    for (file, name) in FILES.into_iter().flat_map(|file| GENERATED.map(|name| (file, name))) {
        for (to, number) in [
            ("plain27", 50),
            ("plain43", 50),
            ("parameter", 0),
            ("binder", 0),
            ("string", 0),
            ("action", 0),
            ("field", 0),
            ("type", 0),
            ("other", 0),
        ] {
            try_renaming(&[(name, to)], file, number, each);
        }
    }
    // Without the definition its names are free.
    let registry = list(1, called());
    for (name, to) in GENERATED.iter().flat_map(|name| ["plain27", "plain43"].map(|to| (name, to))) {
        let supplied = renamed(&ours(&registry, &input(), 0), &renaming(&[(name, to)], 0));
        each(judge(&registry, &input(), &supplied, 0, 0));
    }
}

// ------------------------------------------------------------------ entries

/// A result with generated names, and one that holds every code of the format: what stands in a field is copied as it is.
fn every_entry(each: &mut dyn FnMut(Edge)) {
    let kept = p(vec![("f", count(tape::withdrawn(&every_code())))]);
    for (condition, file) in [(input(), 0), (input(), 9), (kept, 0)] {
        let registry = registry();
        let result = ours(&registry, &condition, file);
        let protected = names([&registry, &condition]);
        for site in sites(&result, Sort::Condition) {
            for (kind, changed) in changes::values(&site) {
                let number = if may_be_renamed(&site, kind, &protected) { 0 } else { 50 };
                each(judge(&registry, &condition, &site.with(changed), file, number));
            }
            for supplied in changes::codes(&site).map(|changed| site.with(changed)) {
                // The negation that an Or was written out to may come as that Or.
                let number = if tape::withdrawn(&supplied) == result { 0 } else { 50 };
                each(judge(&registry, &condition, &supplied, file, number));
            }
        }
    }
}

/// A text that is changed in one entry is a renaming if it is a generated name and stands nowhere else.
fn may_be_renamed(site: &Site, kind: Kind, protected: &Names) -> bool {
    let entry = site.entry();
    let is_name = kind == Kind::Text && matches!(entry.code, 27 | 43);
    is_name && !protected.contains(&entry.text) && times(&site.tree, &entry.text) == 1
}

// ------------------------------------------------------------------ lengths

/// A name may have 75 bytes, in a file above 0 81; every other text 64.
fn lengths(each: &mut dyn FnMut(Edge)) {
    for file in FILES {
        let longest = if file == 0 { 75 } else { 81 };
        for length in [63, 64, 65, 74, 75, 76, 80, 81, 82, 255] {
            let new = "n".repeat(length);
            let number = if length <= longest { 0 } else { 3 };
            GENERATED.iter().for_each(|name| try_renaming(&[(name, &new)], file, number, each));
        }
        let (registry, condition) = (registry(), input());
        let result = ours(&registry, &condition, file);
        for site in sites(&result, Sort::Condition).iter().filter(|site| site.entry().code == 40) {
            for (length, number) in [(64, 50), (65, 3), (75, 3), (81, 3)] {
                each(judge(&registry, &condition, &site.with(text(&"n".repeat(length))), file, number));
            }
        }
    }
}

/// A binder of 64 bytes at a start of ten digits: 75 bytes, and with a file number of five digits 81.
fn longest(each: &mut dyn FnMut(Edge)) {
    let binder = "b".repeat(64);
    let registry = list(1, vec![definition("m", &[], tp(45, &binder))]);
    let condition = Node::new(11, 0, vec![call_at("m", tape::span(u32::MAX, 1), vec![])]);
    for (file, length) in [(0, 75), (1, 77), (9_999, 80), (10_000, 81), (65_535, 81)] {
        let result = ours(&registry, &condition, file);
        assert_eq!(result.children[0].text.len(), length);
        each(judge(&registry, &condition, &result, file, 0));
        each(judge(&registry, &condition, &tp(43, "short"), file, 0));
        each(judge(&registry, &condition, &at(9, result), file, 50));
        each(judge(&registry, &condition, &tp(44, "short"), file, 50));
    }
}
