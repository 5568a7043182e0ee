//! The systematic lists: that each has the cases it names, and that model and upstream answer as the lists say.

use differential::case::{Answer, Case, Operation};
use differential::compare::{Lent, Machine};
use differential::edges::{self, Place, fewest, places};
use differential::tape::{self, LARGEST, Node, Sort, codes, is_node};
use differential::{model, sheet, upstream};
use std::collections::{BTreeMap, BTreeSet};

#[test]
fn model_and_upstream_answer_as_the_lists_say() {
    upstream::quiet_panics();
    for list in edges::lists() {
        let tried = edges::try_list(&list, &mut []);
        assert_eq!(tried.differences, 0, "point {}, {}: {:?}", list.point, list.line, tried.shown);
        assert!(tried.cases > 0);
    }
}

/// The places that the lists of a merge go through are all that the format's table has below a definition.
#[test]
fn places_are_those_of_the_format() {
    let by_owner = |place: &Place| (place.owner, place.code);
    let ours: BTreeSet<(u8, u8)> = places().iter().map(by_owner).collect();
    let below_a_definition = differential::places::all(&[Sort::Definition]).into_iter().filter(|place| place.0 != 0);
    let all: Vec<_> = below_a_definition.map(|(above, _, _, code)| (above, code)).collect();
    assert_eq!(ours, all.iter().copied().collect());
    assert_eq!(places().len(), all.len());
}

/// Each code of a definition stands at every depth from its first on, down to where what it needs below it ends at 64.
#[test]
fn each_code_stands_at_every_depth() {
    let mut depths: BTreeMap<u8, BTreeSet<usize>> = BTreeMap::new();
    for place in places() {
        for site in (0..).map_while(|levels| place.in_definition(levels)) {
            depths.entry(place.code).or_default().insert(site.depth());
        }
    }
    for (code, depths) in depths {
        let (first, last) = (*depths.first().expect("one"), *depths.last().expect("one"));
        assert_eq!(depths.len(), last - first + 1, "{code}: no depth left out");
        let below = match code {
            // A body is no deeper than its definition.
            61..=63 => continue,
            // The two levels more that an Or has, and the condition in it.
            2 => 3,
            1 | 3..=6 | 9 | 13 | 8 | 31 | 34 | 35 => 1,
            30 => 2,
            // A type, a `?` for an interval and an operator stand only beside a condition or a term, these two above one.
            46 | 47 | 52 | 53 | 55 | 56 => 1,
            _ => 0,
        };
        assert_eq!(last, LARGEST.nesting - below, "{code}");
        // An aggregate has its 30 above it.
        let above = if matches!(code, 34..=36) { 2 } else { 1 };
        assert!(first == above || !is_node(code), "{code}");
    }
}

/// 204 refused definitions are the most, and 255 definitions: from the entries that each needs at the least.
#[test]
fn the_figures_of_a_library() {
    let room = LARGEST.entries - fewest(41);
    let behind_the_name = |body: u8| fewest(60) - fewest(61) + fewest(body);
    assert_eq!(room / behind_the_name(61), 255);
    assert_eq!(room - 255 * behind_the_name(61), 3);
    assert_eq!([62, 63].map(|body| room / behind_the_name(body)), [170, 204]);
    assert_eq!(codes(Sort::Body), [61, 62, 63]);
}

// ------------------------------------------------------------------ how far an argument moves a result

/// The condition and term places of a parameter in a definition.
fn places_of(definition: &Node, name: &[u8]) -> u64 {
    let mut places = 0;
    definition.visit(&mut |node| places += u64::from(matches!(node.code, 58 | 32) && node.text == name));
    places
}

/// A call that succeeded: the trees of its definition and of its arguments, and what came of it.
struct Succeeded {
    definition: Node,
    arguments: Vec<Node>,
    size: u64,
    charged: u64,
}

impl Succeeded {
    fn of(case: &Case) -> Option<Succeeded> {
        let (answer, notes) = model::answer(case);
        let (definition, call) = (notes.trees[0].clone(), &notes.trees[1]);
        let result = (answer.number == 0).then(|| tape::accept(&answer.result, Sort::Any, 81).expect("a tape"))?;
        let arguments = call.children[1].children.clone();
        Some(Succeeded { definition, arguments, size: tape::size(&result), charged: answer.charged })
    }
}

/// Document 02's sentence on point 14, of every two calls in its lists that differ in one argument, both conditions or both terms.
#[test]
fn an_argument_moves_a_result_once_for_each_place() {
    let mut succeeded = Vec::new();
    for list in edges::lists().iter().filter(|list| list.point == 14) {
        (list.cases)(&mut |edge| succeeded.extend(Succeeded::of(&edge.case)));
    }
    let mut pairs = 0;
    for (i, one) in succeeded.iter().enumerate() {
        for other in succeeded[i + 1..].iter().filter(|other| other.definition == one.definition) {
            let both = one.arguments.iter().zip(&other.arguments).enumerate();
            let differ: Vec<_> = both.filter(|(_, (a, b))| a != b).collect();
            let [(parameter, (a, b))] = differ[..] else { continue };
            if a.code != b.code || a.code == 57 {
                continue;
            }
            let name = &one.definition.children[1].children[2 * parameter + 1].text;
            let (places, a, b) = (places_of(&one.definition, name), tape::size(a), tape::size(b));
            assert_eq!(one.size + places * b, other.size + places * a, "sizes");
            assert_eq!(one.charged + places * b, other.charged + places * a, "charges");
            pairs += 1;
        }
    }
    assert!(pairs > 10_000, "{pairs} pairs");
}

// ------------------------------------------------------------------ faults that the lists are there for

type Fault = fn(&Case, &mut Answer);

/// The model behind the archive's calls, with one fault.
struct Faulty(Fault);

impl Machine for Faulty {
    fn run(&mut self, case: &Case, lent: Lent) {
        let (mut answer, _) = model::answer(case);
        (self.0)(case, &mut answer);
        for (buffer, head) in [(lent.result, &answer.result), (lent.message, &answer.message)] {
            buffer.fill(0);
            buffer[..head.len()].copy_from_slice(head);
        }
        lent.work.fill(0);
        *lent.counts = answer.counts;
        let words = if case.operation == Operation::Preview { 7 } else { 5 };
        lent.answer[..words].copy_from_slice(&answer.words()[..words]);
    }
}

/// Whether a point's lists notice a fault.
fn noticed(point: u8, fault: Fault) -> bool {
    upstream::quiet_panics();
    let mut lists = edges::lists().into_iter().filter(|list| list.point == point);
    lists.any(|list| edges::try_list(&list, &mut [Box::new(Faulty(fault))]).differences > 0)
}

fn measure(tree: &Node) -> usize {
    tape::measure(tree).nesting
}

/// The number 0 where the answer was this one for this reason.
fn passes(case: &Case, answer: &mut Answer, number: u64, reason: &str) {
    if answer.number == number && model::answer(case).1.reason == reason {
        answer.number = 0;
    }
}

const FAULTS: [(u8, &str, Fault); 16] = [
    (9, "a count passes its ceiling", |case, answer| {
        let at_the_end = |i: &usize| case.counts[*i] == u32::MAX && answer.charged > 0;
        (0..255).filter(at_the_end).for_each(|i| answer.counts[i] = 0);
    }),
    (9, "the cell of the last of 255 definitions is forgotten", |case, answer| answer.counts[254] = case.counts[254]),
    (1, "the list ends with its 203rd row", |_, answer| answer.result.truncate(203 * 16)),
    (1, "index 255 is index 254", |case, answer| {
        if case.operation == Operation::CheckAt && case.index == 255 {
            *answer = model::answer(&Case { index: 254, ..case.clone() }).0;
        }
    }),
    (7, "definitions 64 levels deep agree", |case, answer| {
        if answer.number == 51 && model::answer(case).1.trees.iter().all(|tree| measure(tree) == 64) {
            *answer = Answer { result: case.tapes[0].clone(), ..Answer::success(case.counts) };
        }
    }),
    (7, "1,025 entries are merged", |case, answer| passes(case, answer, 3, "entries")),
    (10, "seventeen nodes pass", |case, answer| {
        if answer.number == 54 && tape::size(&model::answer(case).1.trees[0]) == 17 {
            answer.number = 0;
        }
    }),
    (10, "an interval behind a 57 has the span of the 54", |case, answer| {
        if answer.number == 55 && model::answer(case).1.cause.1 == 11 {
            (answer.start, answer.end) = (5, 0);
        }
    }),
    (3, "a name is sent to a protected one", |case, answer| {
        if model::answer(case).1.judged == Some("a name renamed to a protected one") {
            answer.number = 0;
        }
    }),
    (3, "a supplied name is longer", |case, answer| passes(case, answer, 3, "name")),
    (11, "65 levels are accepted", |case, answer| passes(case, answer, 3, "nesting")),
    (11, "a literal of 256 bytes is accepted", |case, answer| passes(case, answer, 3, "literal")),
    (13, "the budget is one less", |case, answer| {
        answer.result = sheet::lines_under(&case.tapes[0], sheet::LIMIT - 1, sheet::FILE).into_bytes();
    }),
    (14, "a `?` in a slot is charged", |case, answer| {
        let mut slots = 0;
        model::answer(case).1.trees[0].visit(&mut |node| slots += u64::from(node.code == 44));
        answer.charged += slots;
    }),
    (14, "an argument is charged only where it stands first", |case, answer| {
        let definition = &model::answer(case).1.trees[0];
        answer.charged -= places_of(definition, b"x").saturating_sub(1);
    }),
    (5, "N of a refusal", |_, answer| answer.size[0] += u64::from(answer.number == 35)),
];

#[test]
fn faults_at_the_edges_are_noticed() {
    for (point, what, fault) in FAULTS {
        assert!(noticed(point, fault), "{what}");
    }
    for point in [1, 13] {
        assert!(!noticed(point, |_, _| {}), "the model itself, point {point}");
    }
}
