//! Each wrong head is shown by a rule of at most a dozen entries in each part and twenty in all, or by as few as its limit
//! lets be.

use differential::case::Case;
use differential::generate;
use kit::archive;
use kit::pair::{Effort, Shape, figures, shrink};
use kit::second::{FAULTS, Fault, Second};
use kit::serve::Head;
use std::time::Duration;

/// The entries of the largest tape, where a dozen do not do: docs/SUPPLIER.md says why.
const MORE: [(&str, usize); 8] = [
    ("entries-short", 21),
    ("entries-over", 22),
    ("nesting-over", 25),
    ("parameters-over", 38),
    ("calls-over", 24),
    ("result-short", 21),
    ("fields-before", 13),
    ("fields-merged", 13),
];

/// Only a largest figure shows these: what has them needs more than twenty entries in all.
const FIGURES: [&str; 6] =
    ["entries-short", "entries-over", "nesting-over", "parameters-over", "calls-over", "result-short"];

fn shows(fault: Fault, case: &Case) -> bool {
    let mut head = Second { fault };
    let is_known = head.hello().operations.iter().any(|name| name == case.operation.name());
    is_known && head.answer(case) != archive::by_model(case)
}

/// The first case of seed 1 that shows a fault, made small.
fn shown(fault: Fault) -> Shape {
    let cases = (0..40_000).map(|index| generate::case(1, index));
    let case = cases.into_iter().find(|case| shows(fault, case)).expect("one of them");
    let effort = Effort { tries: 30_000, time: Duration::from_secs(120) };
    shrink(&case, effort, &mut |case| Ok(shows(fault, case))).expect("shrunk").shape
}

#[test]
fn few_entries_show_each_wrong_head() {
    let answers = |fault: &Fault| !matches!(fault, Fault::Hangs | Fault::Dies | Fault::Garbage);
    for (name, fault, _) in FAULTS.iter().filter(|(_, fault, _)| answers(fault)) {
        let most = MORE.iter().find(|(other, _)| other == name).map_or(12, |(_, most)| *most);
        let shape = shown(*fault);
        assert!(shape.largest() <= most && shape.unreadable() == 0, "{name}: {}", shape.text());
        assert!(shape.entries() <= 20 || FIGURES.contains(name), "{name}: {}", shape.text());
    }
}

/// A difference that is first seen on a tape that is no tree is made as small, whatever it is that shows it, unless that is a
/// largest figure, which then is said.
#[test]
fn malformed_tapes_become_as_small() {
    let cases = (0..20_000).map(|index| generate::case(1, index));
    let malformed: Vec<Case> = cases.filter(|case| Shape::of(case).unreadable() > 0 && case.tapes.len() < 3).collect();
    let mut shown = 0;
    for (name, fault, _) in FAULTS.iter().filter(|(_, fault, _)| *fault != Fault::Hangs) {
        let Some(case) = malformed.iter().find(|case| shows(*fault, case)) else { continue };
        let effort = Effort { tries: 10_000, time: Duration::from_secs(60) };
        let shape = shrink(case, effort, &mut |case| Ok(shows(*fault, case))).expect("shrunk").shape;
        let is_said = FIGURES.contains(name) || !figures(&shape).is_empty();
        assert!(shape.entries() <= 20 || is_said, "{name}: {}", shape.text());
        shown += 1;
    }
    assert!(shown >= 5, "{shown}");
}
