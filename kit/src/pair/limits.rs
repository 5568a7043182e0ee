//! The plainest cases whose result reaches a largest figure, or is one beyond it.
//!
//! A tape at a limit is large. Macros make as large a result of little: a body that pastes its argument often, a call
//! inside a call. So a difference at a limit need not be looked at in a tape of a thousand entries.

use super::plain;
use super::progress::grouped;
use super::report::LETTERS;
use super::run::Found;
use super::shape::{Part, Shape};
use crate::commands::result_tree;
use crate::figures::{self, Measured};
use differential::case::Operation;
use differential::tape::{LARGEST, LARGEST_CALLS, LARGEST_LITERAL, Node};

/// Which of the largest figures the smallest case reaches, or is one beyond: in its tapes, and in what was answered.
pub fn reached(found: &Found) -> Vec<String> {
    let mut lines = of_shape(&found.smallest.shape);
    for (letter, outcome) in LETTERS.iter().zip(&found.outcomes) {
        let tree = outcome.as_ref().ok().filter(|response| response.number() == 0);
        if let Some(tree) = tree.and_then(|response| result_tree(&response.result)) {
            lines.extend(said(&format!("{letter}'s result"), &figures::of_whole(&tree, false)));
        }
    }
    lines
}

/// The same of a case's tapes, as they are and as they are rewritten without Or.
pub fn of_shape(shape: &Shape) -> Vec<String> {
    let of_part = |(i, part): (usize, &Part)| {
        let (tape, longest) = (format!("tape {}", i + 1), shape.case.operation.longest_name(i, shape.case.file));
        match part {
            Part::Bytes(bytes) => said(&tape, &figures::of_sizes(bytes)),
            Part::Tree(tree) => {
                let [given, without] = [false, true].map(|rewritten| figures::of_whole(tree, rewritten));
                let other: Vec<_> = without.into_iter().filter(|measured| !given.contains(measured)).collect();
                let of_tree = [&given[..], &figures::of_parts(tree, longest)].concat();
                [said(&tape, &of_tree), said(&format!("{tape} without Or"), &other)].concat()
            }
        }
    };
    shape.parts.iter().enumerate().flat_map(of_part).collect()
}

/// Those that are reached exactly, and those that are exceeded by one.
fn said(of: &str, figures: &[Measured]) -> Vec<String> {
    let line = |measured: &Measured| {
        let how = match measured.over()? {
            0 => "as many as there may be",
            1 => "one more than there may be",
            _ => return None,
        };
        Some(format!("{} {} in {of}, {how}", grouped(measured.is as u64), measured.figure.noun()))
    };
    figures.iter().filter_map(line).collect()
}

pub fn cases() -> Vec<Shape> {
    let and_one_more = |n: usize| [n, n + 1];
    let entries = and_one_more(LARGEST.entries).into_iter().flat_map(of_entries);
    let text = and_one_more(LARGEST.text).into_iter().flat_map(of_text);
    let nesting = and_one_more(LARGEST.nesting).into_iter().map(of_nesting);
    entries.chain(text).chain(nesting).collect()
}

fn shape(operation: Operation, trees: [Node; 2]) -> Shape {
    Shape::asking(operation, u32::MAX, trees.to_vec())
}

/// `value m(x) = [?x; pastes, last]`
fn pasting(pastes: usize, last: Option<Node>) -> Node {
    let items = vec![Node::with_text(32, b"x"); pastes].into_iter().chain(last).collect();
    plain::definition(b"m", &[b"x"], plain::holding(63, Node::counted(29, 1, items)))
}

/// `left == m(m(inner))`, where m pastes often enough: the least such rule.
fn of_entries(entries: usize) -> Option<Shape> {
    // Of the result: the comparison and its sign, the left side, and two levels of arrays.
    let left = |pastes: usize, inner: usize| {
        entries.checked_sub(2 + 1 + pastes * (1 + pastes * inner)).filter(|left| *left > 0)
    };
    let all = (2..=LARGEST.entries)
        .flat_map(|pastes| (1..).map_while(move |inner| Some((pastes, inner, left(pastes, inner)?))));
    let (pastes, inner, left) = all.min_by_key(|(pastes, inner, left)| pastes + inner + left)?;
    let inside = plain::call(b"m", vec![plain::holding(56, plain::term(inner))]);
    let around = plain::call(b"m", vec![plain::holding(55, plain::called(inside))]);
    let condition = plain::compared(plain::term(left), plain::called_for_value(around));
    Some(shape(Operation::Expand, [plain::registry(vec![pasting(pastes, None)]), condition]))
}

/// `m(["a\{255}"; strings])`, where m pastes its argument and has what is missing itself; alone and in a rule.
fn of_text(bytes: usize) -> Vec<Shape> {
    let (strings, missing) = (bytes / LARGEST_LITERAL, bytes % LARGEST_LITERAL);
    let divides = |pastes: &usize| strings.is_multiple_of(*pastes);
    let Some(pastes) = (1..=strings).filter(divides).min_by_key(|pastes| pastes + strings / pastes) else {
        return vec![];
    };
    let argument = plain::texts(strings / pastes * LARGEST_LITERAL);
    let call = plain::call(b"m", vec![plain::holding(56, argument)]);
    let definition = pasting(pastes, Some(plain::string(missing)));
    let rule = plain::equal(plain::called_for_value(call.clone()));
    vec![
        shape(Operation::Substitute, [definition.clone(), call]),
        shape(Operation::Expand, [plain::registry(vec![definition]), rule]),
    ]
}

/// `m(m(m(m(..))))`, as many calls as may stand inside one another, where m negates its argument often enough.
fn of_nesting(nesting: usize) -> Shape {
    let negations = nesting - 1;
    let parameter = Node::new(12, 0, vec![Node::with_text(58, b"x")]);
    let body = plain::holding(62, plain::negated(negations / LARGEST_CALLS, parameter));
    let innermost = plain::negated(negations % LARGEST_CALLS, plain::tp());
    let called = |inner: Node| plain::called(plain::call(b"m", vec![plain::holding(55, inner)]));
    let condition = (0..LARGEST_CALLS).fold(innermost, |inner, _| called(inner));
    shape(Operation::Expand, [plain::registry(vec![plain::definition(b"m", &[b"x"], body)]), condition])
}

#[cfg(test)]
mod tests {
    use super::*;
    use crate::archive;
    use crate::commands::result_tree;
    use differential::tape;

    /// What the results measure, and that one beyond is refused with 3.
    #[test]
    fn each_figure_is_reached_exactly() {
        let answers: Vec<_> = cases().iter().map(|shape| archive::by_model(&shape.case())).collect();
        let measured = |i: usize| tape::measure(&result_tree(&answers[i].result).expect("a result"));
        assert_eq!((measured(0).entries, answers[1].number()), (LARGEST.entries, 3));
        assert_eq!((measured(2).text, measured(3).text), (LARGEST.text, LARGEST.text));
        assert_eq!((answers[4].number(), answers[5].number()), (3, 3));
        assert_eq!((measured(6).nesting, answers[7].number()), (LARGEST.nesting, 3));
    }

    #[test]
    fn they_are_small() {
        let sizes: Vec<usize> = cases().iter().map(Shape::entries).collect();
        assert!(sizes.iter().all(|entries| *entries <= 50), "{sizes:?}");
    }
}
