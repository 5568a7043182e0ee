//! Point 11: provider tapes. Every code in every entry, every depth and length, every byte changed, there and back.

use super::least::least;
use super::{Edge, List, of};
use crate::brim;
use crate::by_hand::{array, list, negated, text, tp};
use crate::case::{Case, Operation};
use crate::provider::{argument_of, term_of};
use crate::tape::{self, LARGEST, LARGEST_LITERAL, LARGEST_TEXT, Node, Value};

pub const LISTS: &[List] = &[
    List::new(11, "codes 0 to 80 at each entry", &[0, 2, 56, 58], codes),
    List::new(11, "roots of every code", &[0, 2, 56, 58], roots),
    List::new(11, "depth 63 to 65, each code the innermost", &[0, 3, 56, 58], depths),
    List::new(11, "texts of 0 to 256 bytes in each text place", &[0, 3, 56, 58], texts),
    List::new(11, "1,023 to 1,025 entries, 3,071 to 3,073 bytes of text", &[0, 3], sizes),
    List::new(11, "each byte changed to 0 to 255", &[0, 2, 3, 56, 58], bytes),
    List::new(11, "cut at each length, and longer", &[0, 2, 3], cuts),
    List::new(11, "there and back", &[0], there_and_back),
    List::new(11, "terms that no argument becomes, an Or among them", &[3, 58], no_argument),
];

const OPERATIONS: [Operation; 3] = [Operation::Provider, Operation::ArgumentToTerm, Operation::TermToArgument];

fn string(code: u8, length: usize) -> Node {
    Node::with_text(code, &vec![b's'; length])
}

fn set(items: Vec<Node>) -> Node {
    Node::counted(76, 1, items)
}

fn field(names: &[&str]) -> Node {
    Node::counted(71, 1, names.iter().map(|name| text(name)).collect())
}

/// A set with each code of an argument but the field. No value of it is 0, and none but a bool's is 1, so that no other
/// code fits where one stands, but for a 72 and a 74, and a 73 in the place of a 75.
fn without_field() -> Node {
    let inner = set(vec![string(72, 3), string(74, 4)]);
    set(vec![string(72, 5), Node::new(73, 5u64.wrapping_neg(), vec![]), string(74, 2), Node::new(75, 1, vec![]), inner])
}

/// The same with a field.
fn with_field() -> Node {
    let Node { children, .. } = without_field();
    set([children, vec![field(&["a", "bc"]), set(vec![field(&["d", "e"]), string(72, 6)])]].concat())
}

fn call(arguments: Vec<Node>) -> Node {
    Node::new(70, tape::span(3, 8), vec![text("name"), list(1, arguments)])
}

/// A call with every code of a provider tape.
fn every_code() -> Node {
    call(vec![with_field(), without_field()])
}

/// The tapes that the three operations take, each with the number it gives.
fn taken() -> Vec<(Operation, Node, u64)> {
    let term = term_of(&without_field()).expect("no field");
    vec![
        (Operation::Provider, every_code(), 0),
        (Operation::Provider, with_field(), 0),
        (Operation::Provider, without_field(), 0),
        (Operation::ArgumentToTerm, with_field(), 56),
        (Operation::ArgumentToTerm, without_field(), 0),
        (Operation::TermToArgument, term.clone(), 0),
        (Operation::TermToArgument, array(vec![term, Node::with_text(27, b"name")]), 58),
    ]
}

fn bytes_of(operation: Operation, bytes: Vec<u8>, number: u64) -> Edge {
    Edge::new(Case::new(operation, 0, vec![bytes]), number)
}

// ------------------------------------------------------------------ codes

/// Each code of 0 to 80 in the place of each entry's, whatever it has for a value.
fn codes(each: &mut dyn FnMut(Edge)) {
    for (operation, tree, number) in taken() {
        let tape = tape::encode(&tree);
        let entries = tape::measure(&tree).entries;
        for (entry, code) in (0..entries).flat_map(|entry| (0..=80).map(move |code| (entry, code))) {
            let (mut changed, own) = (tape.clone(), tape[8 + entry]);
            changed[8 + entry] = code;
            let two = tape[8 + entries + 8 * entry] == 2;
            each(bytes_of(operation, changed, after_change(operation, own, two, code, number)));
        }
    }
}

/// What is answered with this code in the place of the entry's own: what is well-formed stays so only between codes with a
/// text, with an integer in the place of a bool, and with a product in that of an array of two terms.
fn after_change(operation: Operation, own: u8, two: bool, code: u8, number: u64) -> u64 {
    match (operation, own, code) {
        _ if own == code => number,
        (Operation::TermToArgument, 22 | 23, 22 | 23) | (Operation::TermToArgument, 24, 21) => number,
        // Three more codes of a term have a text, and no argument becomes them.
        (Operation::TermToArgument, 22 | 23, 27 | 32 | 33) | (Operation::TermToArgument, 27, 32 | 33) => 58,
        (Operation::TermToArgument, 27, 22 | 23) => 0,
        (Operation::TermToArgument, 29, 31) if two => 58,
        (Operation::TermToArgument, ..) => 2,
        (_, 72 | 74, 72 | 74) | (_, 75, 73) => number,
        _ => 2,
    }
}

/// The least tree of each code, and the bare code of one that is none: a provider's roots are 70 to 76, an argument's 71 to
/// 76, a term's 20 to 33.
fn roots(each: &mut dyn FnMut(Edge)) {
    for code in 0..=80 {
        let numbers = [
            if (70..=76).contains(&code) { 0 } else { 2 },
            match code {
                71 => 56,
                72..=76 => 0,
                _ => 2,
            },
            match code {
                21..=24 | 29 => 0,
                20..=33 => 58,
                _ => 2,
            },
        ];
        for (operation, number) in OPERATIONS.into_iter().zip(numbers) {
            each(Edge::new(of(operation, &[&least(code)]), number));
        }
    }
}

// ------------------------------------------------------------------ limits

/// What can be innermost: each code of an argument, or of a term that has nothing below it.
fn innermost(operation: Operation) -> Vec<(Node, u64)> {
    let bare = |codes: &[u8], number: u64| codes.iter().map(|code| (least(*code), number)).collect::<Vec<_>>();
    match operation {
        Operation::TermToArgument => [bare(&[21, 22, 23, 24, 29], 0), bare(&[20, 25, 26, 27, 28, 32, 33], 58)].concat(),
        _ => {
            let of_field = if operation == Operation::Provider { 0 } else { 56 };
            let fields = vec![(field(&["a", "b"]), of_field), (field(&[]), of_field)];
            [bare(&[72, 73, 74, 75, 76], 0), fields].concat()
        }
    }
}

/// Only a set has arguments below it, and only an array among what becomes one: they nest, and each code is the innermost.
/// A call is no level.
fn depths(each: &mut dyn FnMut(Edge)) {
    let around = |operation: Operation, node: Node| match operation {
        Operation::TermToArgument => array(vec![node]),
        _ => set(vec![node]),
    };
    for operation in OPERATIONS {
        for (inner, number) in innermost(operation) {
            for depth in [1, 2, 32, 62, 63, 64, 65, 66] {
                let nested = (1..depth).fold(inner.clone(), |node, _| around(operation, node));
                let number = if depth > LARGEST.nesting { 3 } else { number };
                each(Edge::new(of(operation, &[&nested]), number));
                if operation == Operation::Provider {
                    // Alone below a call, and behind another argument.
                    each(Edge::new(of(operation, &[&call(vec![nested.clone()])]), number));
                    each(Edge::new(of(operation, &[&call(vec![Node::new(75, 0, vec![]), nested])]), number));
                }
            }
        }
    }
    nodes_below(each);
}

/// The terms that nest otherwise: arithmetic, and an aggregate, which is two levels with its condition the third.
fn nodes_below(each: &mut dyn FnMut(Edge)) {
    for levels in [61, 62, 63, 64] {
        for (code, below) in [(31, 1), (30, 2)] {
            let nested = (0..levels).fold(least(code), |node, _| array(vec![node]));
            let number = if levels + 1 + below > LARGEST.nesting { 3 } else { 58 };
            each(Edge::new(of(Operation::TermToArgument, &[&nested]), number));
        }
    }
}

fn texts(each: &mut dyn FnMut(Edge)) {
    for length in [0, 1, 63, 64, 65, 254, 255, 256] {
        let within = |largest: usize, number: u64| if length > largest { 3 } else { number };
        let (name, literal) = (within(LARGEST_TEXT, 0), within(LARGEST_LITERAL, 0));
        let long = || Node::with_text(40, &vec![b'n'; length]);
        let of_call = Node::new(70, 0, vec![long(), list(1, vec![])]);
        each(Edge::new(of(Operation::Provider, &[&of_call]), name));
        let paths = [vec![long()], vec![long(), text("a")], vec![text("a"), long()]];
        for field in paths.map(|path| Node::counted(71, 1, path)) {
            for field in [field.clone(), set(vec![field])] {
                each(Edge::new(of(Operation::Provider, &[&call(vec![field.clone()])]), name));
                each(Edge::new(of(Operation::Provider, &[&field]), name));
                each(Edge::new(of(Operation::ArgumentToTerm, &[&field]), within(LARGEST_TEXT, 56)));
            }
        }
        for literals in [[string(72, length), string(22, length)], [string(74, length), string(23, length)]] {
            let [argument, term] = literals;
            for wrap in [|node: Node, _: u8| node, |node: Node, code: u8| Node::counted(code, 1, vec![node])] {
                let (argument, term) = (wrap(argument.clone(), 76), wrap(term.clone(), 29));
                each(Edge::new(of(Operation::Provider, &[&call(vec![argument.clone()])]), literal));
                each(Edge::new(of(Operation::Provider, &[&argument]), literal));
                each(Edge::new(of(Operation::ArgumentToTerm, &[&argument]), literal));
                each(Edge::new(of(Operation::TermToArgument, &[&term]), literal));
            }
        }
        for code in [27, 32, 33] {
            each(Edge::new(of(Operation::TermToArgument, &[&string(code, length)]), within(LARGEST_TEXT, 58)));
        }
    }
}

/// A set of just so many entries, itself counted, with so much text.
fn sized(entries: usize, text: usize) -> Node {
    argument_of_array(&brim::array(entries, text))
}

/// The wildcards that fill an array are no arguments: here they are bools.
fn argument_of_array(filled: &Node) -> Node {
    let item = |node: &Node| if node.code == 28 { Node::new(24, 1, vec![]) } else { node.clone() };
    argument_of(&array(filled.children.iter().map(item).collect())).expect("bools and strings")
}

fn sizes(each: &mut dyn FnMut(Edge)) {
    let figures =
        [(1023, 9), (1024, 9), (1025, 9), (40, 3071), (40, 3072), (40, 3073), (1024, 3072), (1025, 3072), (1024, 3073)];
    for (entries, text_bytes) in figures {
        let number = if entries > LARGEST.entries || text_bytes > LARGEST.text { 3 } else { 0 };
        let reason = if entries > LARGEST.entries { "entries" } else { "text" };
        let wanted = |edge: Edge| if number == 3 { edge.because(reason) } else { edge };
        let argument = sized(entries, text_bytes);
        each(wanted(Edge::new(of(Operation::Provider, &[&argument]), number)));
        each(wanted(Edge::new(of(Operation::ArgumentToTerm, &[&argument]), number)));
        let term = term_of(&argument).expect("no field");
        each(wanted(Edge::new(of(Operation::TermToArgument, &[&term]), number)));
        // 70, 40 and 41 stand before the argument of a call.
        let whole = call(vec![sized(entries - 3, text_bytes - 4)]);
        each(wanted(Edge::new(of(Operation::Provider, &[&whole]), number)));
        let many = call(sized(entries - 2, text_bytes - 4).children);
        each(wanted(Edge::new(of(Operation::Provider, &[&many]), number)));
    }
    // A call may have more arguments than a definition has parameters.
    for arguments in [15, 16, 17, 255, 256, 1021] {
        each(Edge::new(of(Operation::Provider, &[&call(vec![Node::new(75, 0, vec![]); arguments])]), 0));
    }
}

// ------------------------------------------------------------------ damage

/// Every byte changed to every other.
fn bytes(each: &mut dyn FnMut(Edge)) {
    for (operation, tree, number) in taken() {
        let tape = tape::encode(&tree);
        for (at, new) in (0..tape.len()).flat_map(|at| (0..=255).map(move |new| (at, new))) {
            if new != tape[at] {
                let mut changed = tape.clone();
                changed[at] = new;
                let wanted = after_byte(operation, &tape, &changed, at, number);
                each(bytes_of(operation, changed, wanted));
            }
        }
    }
}

/// What is answered with one byte changed. Another count or length leaves entries or text over, or runs out of them: 2,
/// whatever else it is. Of a text all bytes are ASCII, so that one of another kind is no character.
fn after_byte(operation: Operation, tape: &[u8], changed: &[u8], at: usize, number: u64) -> u64 {
    let size =
        |bytes: &[u8], from: usize| u32::from_le_bytes(bytes[from..from + 4].try_into().expect("4 bytes")) as usize;
    let entries = size(tape, 0);
    let (codes, values, text) = (8, 8 + entries, 8 + 9 * entries);
    let new = changed[at];
    match at {
        0..8 if size(changed, 0) > LARGEST.entries || size(changed, 4) > LARGEST.text => 3,
        0..8 => 2,
        _ if at < values => after_change(operation, tape[at], tape[values + 8 * (at - codes)] == 2, new, number),
        _ if at < text => match tape::value(tape[codes + (at - values) / 8]) {
            Value::Span | Value::Any => number,
            Value::Below(end) if (at - values).is_multiple_of(8) && u64::from(new) < end => number,
            _ => 2,
        },
        _ if (0x20..0x7F).contains(&new) => number,
        _ => 2,
    }
}

/// Cut anywhere it is 2, and so with a byte more.
fn cuts(each: &mut dyn FnMut(Edge)) {
    for (operation, tree, number) in taken() {
        let tape = tape::encode(&tree);
        (0..tape.len()).for_each(|length| each(bytes_of(operation, tape[..length].to_vec(), 2)));
        each(bytes_of(operation, tape.clone(), number));
        for more in [1, 2, 8, 9] {
            each(bytes_of(operation, [&tape[..], &vec![b'a'; more]].concat(), 2));
        }
        // N or T over is told from 8 bytes, and not from 7.
        for header in [[1025, 0], [0, 3073], [u32::MAX, 0], [0, u32::MAX], [u32::MAX, u32::MAX]] {
            let header: Vec<u8> = header.iter().flat_map(|n| n.to_le_bytes()).collect();
            each(bytes_of(operation, header.clone(), 3));
            each(bytes_of(operation, header[..7].to_vec(), 2));
        }
        each(bytes_of(operation, vec![0; 8], 2));
    }
}

// ------------------------------------------------------------------ there and back

/// An argument becomes a term, and the term the same argument; and so the other way round.
fn there_and_back(each: &mut dyn FnMut(Edge)) {
    let ends = [0, 1, 2, u64::MAX, 1 << 63, (1 << 63) - 1, 1 << 32];
    let integers = ends.map(|n| Node::new(73, n, vec![]));
    let mut arguments = vec![without_field(), set(vec![]), set(integers.to_vec()), set(vec![set(vec![]); 7])];
    arguments.extend(integers);
    arguments.extend([0, 1].map(|n| Node::new(75, n, vec![])));
    for code in [72, 74] {
        arguments.extend(["", "a", "K\u{fc}che", "\u{10FFFF}"].map(|t| Node::with_text(code, t.as_bytes())));
        arguments.extend([64, 65, 255].map(|length| string(code, length)));
    }
    arguments.extend([(1024, 3072), (1024, 0), (13, 3060)].map(|(entries, text)| sized(entries, text)));
    arguments.push((1..64).fold(Node::new(75, 1, vec![]), |node, _| set(vec![node])));
    for argument in arguments {
        let term = term_of(&argument).expect("no field");
        each(Edge::new(of(Operation::ArgumentToTerm, &[&argument]), 0).making(tape::encode(&term)));
        each(Edge::new(of(Operation::TermToArgument, &[&term]), 0).making(tape::encode(&argument)));
    }
}

/// A term with an Or is 58, or 3 where its rewriting is too large: entries 3 more, levels 2 more.
fn no_argument(each: &mut dyn FnMut(Edge)) {
    let counted = |condition: Node| Node::new(30, 0, vec![Node::new(35, 0, vec![list(2, vec![]), condition])]);
    let or = || Node::new(2, 0, vec![tp(43, "t"), tp(43, "t")]);
    for code in [20, 25, 26, 27, 28, 30, 31, 32, 33] {
        for before in 0..3 {
            let items = [vec![Node::new(21, 0, vec![]); before], vec![least(code)]].concat();
            each(Edge::new(of(Operation::TermToArgument, &[&array(items)]), 58));
        }
    }
    for more in 0..6 {
        // 29, 30, 35, 41 and the Or's five stand beside the filling.
        let entries = 1021 - 3 + more;
        let filled = [vec![counted(or())], brim::array(entries - 8, 0).children].concat();
        let term = array(filled);
        assert_eq!(tape::measure(&term).entries, entries);
        each(Edge::new(of(Operation::TermToArgument, &[&term]), if entries + 3 > LARGEST.entries { 3 } else { 58 }));
    }
    for negations in 55..62 {
        // 30, 35, the Or's three levels and what it holds.
        let term = counted(negated(or(), negations));
        each(Edge::new(of(Operation::TermToArgument, &[&term]), if negations + 6 > LARGEST.nesting { 3 } else { 58 }));
    }
}
