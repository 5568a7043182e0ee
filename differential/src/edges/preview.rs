//! Point 5: the preview of every expansion of the other lists, and its own buffers.

use super::{Edge, List, lists, of};
use crate::by_hand::{call, definition, list, p};
use crate::case::{Case, Operation};
use crate::model;
use crate::sheet;

pub const LISTS: &[List] = &[
    List::new(5, "the preview of every expansion of these lists", EXPANSIONS, expansions),
    List::new(5, "work and message one byte short, and long", &[0, 1], buffers),
];

/// All that an expansion can answer, but for 1, which is a buffer's.
const EXPANSIONS: &[u64] =
    &[0, 2, 3, 10, 11, 30, 31, 32, 33, 34, 35, 36, 37, 38, 39, 40, 41, 42, 43, 44, 45, 46, 47, 48];

/// What a judge expands is an expansion, and so is each condition of a sheet.
fn expansions(each: &mut dyn FnMut(Edge)) {
    for list in lists().iter().filter(|list| list.point != 5) {
        (list.cases)(&mut |edge| {
            let case = edge.case;
            match case.operation {
                Operation::Expand => each(preview(&case)),
                Operation::Judge => each(preview(&Case { tapes: case.tapes[..2].to_vec(), ..case })),
                Operation::Sheet => of_sheet(&case).iter().for_each(|step| each(preview(step))),
                _ => {}
            }
        });
    }
}

/// The expansions of a sheet's conditions, each with what is left of the budget.
fn of_sheet(case: &Case) -> Vec<Case> {
    let Some((registry, rest)) = sheet::split(&case.tapes[0]) else { return vec![] };
    let Ok(conditions) = sheet::open(registry, rest) else { return vec![] };
    let steps = sheet::steps(registry, &conditions, case.limit, case.file, case.counts);
    steps.into_iter().map(|(step, _)| step).collect()
}

/// With long buffers it answers what expansion does: number, span, charge, and the result's N and T. (That all seven words
/// are those of the expansion is compared with each answer.)
fn preview(case: &Case) -> Edge {
    let case = Case { file: case.file, ..Case::new(Operation::Preview, case.limit, case.tapes.clone()) };
    let number = model::words_of_expansion(&case)[0];
    Edge::new(case, number)
}

fn buffers(each: &mut dyn FnMut(Edge)) {
    let registry = list(1, vec![definition("k", &[], p(vec![]))]);
    let whole = of(Operation::Preview, &[&registry, &call("k", vec![])]);
    for (buffer, reason) in [(1, "work"), (2, "message")] {
        for missing in [1, 2, 1024, whole.sizes[buffer]] {
            let mut short = whole.clone();
            short.sizes[buffer] -= missing;
            each(Edge::new(short, 1).at(0).charging(0).because(reason));
        }
        for more in [0, 1, 100] {
            let mut long = whole.clone();
            long.sizes[buffer] += more;
            each(Edge::new(long, 0).charging(1));
        }
    }
}
