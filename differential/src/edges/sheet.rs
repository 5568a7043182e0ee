//! Point 13: the house sheet. Budgets that are just met, every count and length, inputs that end early.

use super::{Edge, List};
use crate::brim;
use crate::by_hand::{
    CALLED, all, call, call_at, cedar, condition, definition, equal, integer, list, negated, p, sigil, value,
    value_call, wildcard,
};
use crate::case::{Case, Operation};
use crate::sheet::{FILE, LIMIT, LONGEST_REGISTRY, LONGEST_SHEET, MOST_CONDITIONS, with_length};
use crate::tape::{self, Node};

pub const LISTS: &[List] = &[
    List::new(13, "budgets that are just met, and one less", &[0, 35], budgets),
    List::new(13, "the program's budget of 1,000, and 1,001 charged", &[0, 35], thousand),
    List::new(13, "0 to 34 conditions, and more by the count alone", &[0, 2, 57], counts),
    List::new(13, "sheets of 65,535 to 65,537 bytes", &[0, 2, 57], lengths),
    List::new(13, "an input that ends early, at each byte", &[0, 2, 57], cuts),
    List::new(13, "lengths and counts that do not fit, at each byte of them", &[0, 2, 57], wrong_lengths),
    List::new(13, "registries of 12,296 and 12,297 bytes", &[0, 2, 3, 35], registries),
    List::new(13, "the registry's refusals before 57, and refused conditions", REFUSED, refused),
];

const REFUSED: &[u64] = &[0, 2, 3, 10, 11, 30, 31, 36, 43, 57];

/// What the program reads: a registry behind its length, and a sheet.
fn input(registry: &Node, sheet: &[u8]) -> Vec<u8> {
    [with_length(&tape::encode(registry)), sheet.to_vec()].concat()
}

fn sheet_of(conditions: &[Node]) -> Vec<u8> {
    sheet_of_tapes(&conditions.iter().map(tape::encode).collect::<Vec<_>>())
}

fn sheet_of_tapes(tapes: &[Vec<u8>]) -> Vec<u8> {
    let parts = tapes.iter().flat_map(|tape| with_length(tape));
    (tapes.len() as u32).to_le_bytes().into_iter().chain(parts).collect()
}

/// Under another budget or file than the program's a sheet is gone through step by step alone.
fn under(input: Vec<u8>, budget: u32, file: u16, lines: &str) -> Edge {
    let case = Case { file, ..Case::new(Operation::Sheet, budget, vec![input]) };
    Edge::of_sheet(case, lines)
}

fn program(input: Vec<u8>, lines: &str) -> Edge {
    under(input, LIMIT, FILE, lines)
}

/// The line of a registry or a sheet that is refused.
fn refusal(number: u64) -> String {
    format!("0 {number} 0 0 0\n")
}

// ------------------------------------------------------------------ budgets

/// `k()` and `m(x)`, whose call with `!!P{}` costs 1 and then 3; `v()` costs 250.
fn macros() -> Node {
    let pasted = sigil(58, "x");
    let array = brim::array(250, 0);
    list(1, vec![definition("k", &[], p(vec![])), definition("m", &["x"], pasted), value("v", &[], array)])
}

/// A condition of a sheet, with what it charges, one after the other.
fn charging() -> Vec<(Node, Vec<u32>)> {
    vec![
        (call("k", vec![]), vec![1]),
        (p(vec![]), vec![]),
        (all(&[call("k", vec![]), call("k", vec![])]), vec![1, 1]),
        (call("m", vec![condition(negated(p(vec![]), 2))]), vec![1, 3]),
        (call("k", vec![]), vec![1]),
        (p(vec![]), vec![]),
    ]
}

/// The lines of these conditions under a budget, told from their charges alone: the first that is above what is left is 35
/// with the call's span, and those before it stay charged.
fn lines(conditions: &[(Node, Vec<u32>)], budget: u32) -> String {
    let (mut left, mut lines) = (budget, String::new());
    for (place, (_, charges)) in conditions.iter().enumerate() {
        let (mut charged, mut refused) = (0, false);
        for charge in charges {
            refused |= *charge > left;
            if !refused {
                left -= charge;
                charged += charge;
            }
        }
        let (start, end) = (tape::span_start(CALLED), tape::span_end(CALLED));
        let number = if refused { format!("35 {start} {end}") } else { "0 0 0".to_string() };
        lines += &format!("{} {number} {charged}\n", place + 1);
    }
    lines
}

/// Every budget from 0 to one more than is charged: each condition meets what is left exactly once, and misses it by one.
fn budgets(each: &mut dyn FnMut(Edge)) {
    let conditions = charging();
    for turn in 0..conditions.len() {
        let mut turned = conditions.clone();
        turned.rotate_left(turn);
        let sheet = sheet_of(&turned.iter().map(|(condition, _)| condition.clone()).collect::<Vec<_>>());
        let whole: u32 = turned.iter().flat_map(|(_, charges)| charges).sum();
        for budget in (0..=whole + 1).chain([1000, u32::MAX - 1, u32::MAX]) {
            for file in [0, 1, 65_535] {
                each(under(input(&macros(), &sheet), budget, file, &lines(&turned, budget)));
            }
        }
    }
}

/// Four of 250 meet the program's limit; what charges nothing succeeds behind them, and one node more does not.
fn thousand(each: &mut dyn FnMut(Edge)) {
    let large = || (equal(value_call("v", vec![]), integer(1)), vec![250]);
    let small = || (call("k", vec![]), vec![1]);
    let free = || (p(vec![]), vec![]);
    let sheets = [
        vec![large(), large(), large(), large()],
        vec![large(), large(), large(), large(), free(), small(), free()],
        vec![small(), large(), large(), large(), large(), small()],
        vec![large(), large(), large(), small(), large(), small()],
        vec![large(); 32],
        vec![small(); 32],
    ];
    for conditions in sheets {
        let sheet = sheet_of(&conditions.iter().map(|(condition, _)| condition.clone()).collect::<Vec<_>>());
        each(program(input(&macros(), &sheet), &lines(&conditions, LIMIT)));
        for budget in [999, 1001, 250, 249] {
            each(under(input(&macros(), &sheet), budget, 7, &lines(&conditions, budget)));
        }
    }
}

// ------------------------------------------------------------------ counts and lengths

/// So many lines of conditions that charge nothing.
fn free_lines(conditions: usize) -> String {
    (1..=conditions).map(|place| format!("{place} 0 0 0 0\n")).collect()
}

fn counts(each: &mut dyn FnMut(Edge)) {
    let most = MOST_CONDITIONS as usize;
    for conditions in 0..=most + 2 {
        let sheet = sheet_of(&vec![p(vec![]); conditions]);
        let lines = if conditions > most { refusal(57) } else { free_lines(conditions) };
        each(program(input(&macros(), &sheet), &lines));
        each(under(input(&macros(), &sheet), 0, 3, &lines));
        // A condition more or less than the count says, and the count alone.
        for wrong in [sheet[..sheet.len() - usize::from(conditions > 0)].to_vec(), [&sheet[..], b"\0"].concat()] {
            let fits = wrong == sheet;
            let lines = if conditions > most {
                refusal(57)
            } else if fits {
                lines.clone()
            } else {
                refusal(2)
            };
            each(program(input(&macros(), &wrong), &lines));
        }
        let bare = &sheet[..4];
        let lines = if conditions == 0 { String::new() } else { refusal(if conditions > most { 57 } else { 2 }) };
        each(program(input(&macros(), bare), &lines));
    }
    for count in [33, 255, 256, 1 << 16, 1 << 31, u32::MAX] {
        each(program(input(&macros(), &count.to_le_bytes()), &refusal(57)));
    }
}

/// A sheet of just so many bytes: real conditions, and a last one of zeros, which is no tape.
fn padded(conditions: usize, bytes: usize) -> Vec<u8> {
    let mut tapes = vec![tape::encode(&p(vec![])); conditions - 1];
    let used = sheet_of_tapes(&tapes).len() + 4;
    tapes.push(vec![0; bytes - used]);
    sheet_of_tapes(&tapes)
}

/// 65,536 bytes are the count and the lengths too.
fn lengths(each: &mut dyn FnMut(Edge)) {
    for bytes in [LONGEST_SHEET - 1, LONGEST_SHEET, LONGEST_SHEET + 1, LONGEST_SHEET + 2, 2 * LONGEST_SHEET] {
        for conditions in [1, 2, 31, 32, 33] {
            let sheet = padded(conditions, bytes);
            assert_eq!(sheet.len(), bytes);
            let fits = bytes <= LONGEST_SHEET && conditions <= MOST_CONDITIONS as usize;
            let last = format!("{conditions} 2 0 0 0\n");
            let lines = if fits { free_lines(conditions - 1) + &last } else { refusal(57) };
            each(program(input(&macros(), &sheet), &lines));
            each(under(input(&macros(), &sheet), 9, 9, &lines));
        }
        // Not filled, and longer than a sheet may be.
        let unfilled = [&0u32.to_le_bytes()[..], &vec![0; bytes - 4]].concat();
        each(program(input(&macros(), &unfilled), &refusal(if bytes <= LONGEST_SHEET { 2 } else { 57 })));
    }
    full_of_tapes(each);
}

/// Thirty-two tapes of conditions that fill a sheet to its last byte, and one text byte more.
fn full_of_tapes(each: &mut dyn FnMut(Edge)) {
    // The count, 32 lengths, and 32 tapes of 2,043 bytes: 4 + 128 + 65,376; the last has 28 more.
    let tape_of = |bytes: usize| {
        let entries = (bytes - 8 - 1000) / 9;
        let text = bytes - 8 - 9 * entries;
        // 8, 53 and 28 stand beside the array.
        tape::encode(&equal(brim::array(entries - 3, text), wildcard()))
    };
    for more in [0, 1] {
        let mut tapes = vec![tape_of(2043); 31];
        tapes.push(tape_of(2043 + 28 + more));
        let sheet = sheet_of_tapes(&tapes);
        assert_eq!(sheet.len(), LONGEST_SHEET + more);
        each(program(input(&macros(), &sheet), &if more == 0 { free_lines(32) } else { refusal(57) }));
    }
}

// ------------------------------------------------------------------ ends

/// An input cut at each byte is 2, in the registry and in the sheet, and whole it is not.
fn cuts(each: &mut dyn FnMut(Edge)) {
    let registry = list(1, vec![definition("k", &[], p(vec![]))]);
    let conditions = [call("k", vec![]), p(vec![]), call("k", vec![])];
    for number in 0..=conditions.len() {
        let whole = input(&registry, &sheet_of(&conditions[..number]));
        for length in 0..whole.len() {
            each(program(whole[..length].to_vec(), &refusal(2)));
        }
        let charged = ["1 0 0 0 1\n", "2 0 0 0 0\n", "3 0 0 0 1\n"][..number].concat();
        each(program(whole.clone(), &charged));
        each(program([&whole[..], b"\0"].concat(), &refusal(2)));
    }
    // A count above 32 is 57 as soon as it is whole.
    let many = input(&registry, &33u32.to_le_bytes());
    for length in 0..=many.len() {
        each(program(many[..length].to_vec(), &refusal(if length == many.len() { 57 } else { 2 })));
    }
}

/// Each byte of the count and the lengths of a sheet changed to each other.
fn wrong_lengths(each: &mut dyn FnMut(Edge)) {
    let registry = list(1, vec![]);
    let whole = sheet_of(&[p(vec![]), p(vec![])]);
    let condition = tape::encode(&p(vec![])).len();
    for byte in [0, 1, 2, 3, 4, 5, 6, 7, 8 + condition, 9 + condition, 10 + condition, 11 + condition] {
        for new in 0..=255 {
            let mut sheet = whole.clone();
            sheet[byte] = new;
            let lines = match (byte, new) {
                _ if sheet == whole => free_lines(2),
                (0, 33..) | (1..=3, 1..) => refusal(57),
                _ => refusal(2),
            };
            each(program(input(&registry, &sheet), &lines));
        }
    }
    // A condition of no bytes is that condition's 2.
    let empty = |n: usize| sheet_of_tapes(&vec![vec![]; n]);
    for conditions in [1, 2, 32] {
        let lines: String = (1..=conditions).map(|place| format!("{place} 2 0 0 0\n")).collect();
        each(program(input(&registry, &empty(conditions)), &lines));
    }
}

// ------------------------------------------------------------------ registries

/// A registry of just so many entries, with so much text, that has a `k()` to be called.
fn sized_registry(entries: usize, text: usize) -> Node {
    let k = definition("k", &[], p(vec![]));
    let has = tape::measure(&list(1, vec![k.clone()]));
    // 60, 40, 41 and 63 stand before the array, and its name is one byte.
    let large = value("v", &[], brim::array(entries - has.entries - 4, text - has.text - 1));
    list(1, vec![k, large])
}

/// 12,296 bytes are 1,024 entries and 3,072 bytes of text, the largest tape. A length above is 2 whatever follows, though
/// the registry itself would be 3.
fn registries(each: &mut dyn FnMut(Edge)) {
    let largest = sized_registry(1024, 3072);
    assert_eq!(tape::encode(&largest).len(), LONGEST_REGISTRY);
    let large_call = equal(value_call("v", vec![]), integer(1));
    let sheet = sheet_of(&[call("k", vec![]), large_call, call("k", vec![])]);
    let (start, end) = (tape::span_start(CALLED), tape::span_end(CALLED));
    each(program(input(&largest, &sheet), &format!("1 0 0 0 1\n2 35 {start} {end} 0\n3 0 0 0 1\n")));
    for (entries, text) in [(1024, 3071), (1023, 3072)] {
        each(program(input(&sized_registry(entries, text), &sheet_of(&[call("k", vec![])])), "1 0 0 0 1\n"));
    }
    // Too large, but not too long.
    each(program(input(&sized_registry(1025, 100), &sheet), &refusal(3)));
    each(program(input(&sized_registry(100, 3073), &sheet), &refusal(3)));
    for (entries, text) in [(1024, 3073), (1025, 3072), (1025, 3064)] {
        let registry = sized_registry(entries, text);
        let number = if tape::encode(&registry).len() > LONGEST_REGISTRY { 2 } else { 3 };
        each(program(input(&registry, &sheet), &refusal(number)));
    }
    for length in [12_295, 12_296, 12_297, 12_298, 65_536, u32::MAX] {
        let prefix = length.to_le_bytes();
        each(program(prefix.to_vec(), &refusal(2)));
        each(program([&prefix[..], &tape::encode(&largest)].concat(), &refusal(2)));
        let zeros = vec![0; (length as usize).min(70_000)];
        each(program([&prefix[..], &zeros, &sheet].concat(), &refusal(2)));
    }
}

/// 2, 3, 10 and 11 of the registry come before 57 and 2 of the sheet. A refused condition is one line among the others.
fn refused(each: &mut dyn FnMut(Edge)) {
    let named = |name: &str| list(1, vec![cedar("a"), Node { value: CALLED, ..cedar(name) }]);
    let registries = [
        (p(vec![]), refusal(2)),
        (sized_registry(1025, 100), refusal(3)),
        (named("in"), "0 10 7 9 0\n".to_string()),
        (named("a"), "0 11 7 9 0\n".to_string()),
    ];
    let sheets =
        [sheet_of(&[p(vec![])]), vec![], b"\0\0\0".to_vec(), 33u32.to_le_bytes().to_vec(), vec![0; LONGEST_SHEET + 1]];
    for (registry, line) in &registries {
        sheets.iter().for_each(|sheet| each(program(input(registry, sheet), line)));
    }
    for (sheet, number) in sheets[1..].iter().zip([2, 2, 57, 57]) {
        each(program(input(&list(1, vec![]), sheet), &refusal(number)));
    }
    let registry = list(1, vec![definition("k", &[], p(vec![])), definition("z", &[], sigil(59, "b")), cedar("c")]);
    let bare = |name: &str| Node::new(11, 0, vec![call_at(name, CALLED, vec![])]);
    let conditions = [
        (tape::encode(&bare("k")), "0 0 0 1"),
        (tape::encode(&bare("nobody")), "30 7 9 0"),
        (tape::encode(&negated(p(vec![]), 64)), "3 0 0 0"),
        (vec![], "2 0 0 0"),
        (tape::encode(&bare("c")), "31 7 9 0"),
        (tape::encode(&sigil(58, "x")), "36 0 0 0"),
        (tape::encode(&bare("z")), "43 0 0 1"),
        (tape::encode(&bare("k")), "0 0 0 1"),
    ];
    for turn in 0..conditions.len() {
        let mut turned = conditions.clone();
        turned.rotate_left(turn);
        let lines: String = turned.iter().enumerate().map(|(i, (_, line))| format!("{} {line}\n", i + 1)).collect();
        let tapes: Vec<Vec<u8>> = turned.iter().map(|(tape, _)| tape.clone()).collect();
        each(program(input(&registry, &sheet_of_tapes(&tapes)), &lines));
    }
}
