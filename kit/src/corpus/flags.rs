//! What can be chosen by: marks of a case, each with one exact meaning. docs/SUPPLIER.md has the same table.

use crate::figures::{self, Measured};
use crate::reading;
use differential::case::{Answer, COUNTS, Case};
use differential::model;
use differential::tape::{self, Node, Sort, Unread};

#[derive(Clone, Copy, Debug, PartialEq, Eq, PartialOrd, Ord)]
pub enum Flag {
    /// The number is 2 or 3 since a tape is not accepted.
    Acceptance,
    /// Counts are given or handed back that are not all 0.
    Counts,
    /// A largest figure is reached exactly or passed.
    Figure,
    /// The file number is above 0.
    File,
    /// The limit for charges is reached exactly or would be passed.
    Limit,
    /// A tape holds code 2.
    Or,
    /// The number is not 0.
    Refusal,
    /// Two tapes are the same bytes, so that one buffer may be lent for both.
    SharedBuffers,
    /// A buffer is below its least size: the number is 1.
    ShortBuffer,
    /// A buffer has another size than its least one.
    Sizes,
    /// A tape's text has a byte above 7F.
    Utf8,
    /// A tape holds code 64.
    Weeks,
}

pub const FLAGS: [Flag; 12] = [
    Flag::Acceptance,
    Flag::Counts,
    Flag::Figure,
    Flag::File,
    Flag::Limit,
    Flag::Or,
    Flag::Refusal,
    Flag::SharedBuffers,
    Flag::ShortBuffer,
    Flag::Sizes,
    Flag::Utf8,
    Flag::Weeks,
];

impl Flag {
    pub fn name(self) -> &'static str {
        match self {
            Flag::Acceptance => "acceptance",
            Flag::Counts => "counts",
            Flag::Figure => "figure",
            Flag::File => "file",
            Flag::Limit => "limit",
            Flag::Or => "or",
            Flag::Refusal => "refusal",
            Flag::SharedBuffers => "shared-buffers",
            Flag::ShortBuffer => "short-buffer",
            Flag::Sizes => "sizes",
            Flag::Utf8 => "utf8",
            Flag::Weeks => "weeks",
        }
    }

    fn holds(self, case: &Case, answer: &Answer) -> bool {
        let least = case.operation.buffers();
        match self {
            Flag::Acceptance => matches!(answer.number, 2 | 3) && refused_tape(case).is_some(),
            Flag::Counts => [case.counts, answer.counts].iter().any(|counts| *counts != [0; COUNTS]),
            Flag::Figure => answer.number == 3 || at_a_figure(case, answer),
            Flag::File => case.file > 0,
            Flag::Limit => is_limit_reached(case, answer),
            Flag::Or => case.tapes.iter().any(|tape| codes(tape).contains(&2)),
            Flag::Refusal => answer.number != 0,
            Flag::SharedBuffers => (1..case.tapes.len()).any(|i| case.tapes[..i].contains(&case.tapes[i])),
            Flag::ShortBuffer => answer.number == 1,
            Flag::Sizes => case.sizes != least,
            Flag::Utf8 => case.tapes.iter().any(|tape| !text(tape).is_ascii()),
            Flag::Weeks => case.tapes.iter().any(|tape| codes(tape).contains(&64)),
        }
    }
}

/// The flags of a case with this answer, in the order of their names.
pub fn flags(case: &Case, answer: &Answer) -> Vec<Flag> {
    FLAGS.into_iter().filter(|flag| flag.holds(case, answer)).collect()
}

/// Whether exactly the limit was charged, or the answer is that more would have been.
fn is_limit_reached(case: &Case, answer: &Answer) -> bool {
    let whole = answer.charged > 0 && answer.charged == u64::from(case.limit);
    answer.number == 35 || answer.number == 0 && whole
}

/// The codes of a tape, so far as it goes: it may be malformed.
fn codes(tape: &[u8]) -> &[u8] {
    let (entries, _) = reading::sizes(tape).unwrap_or_default();
    let behind = tape.get(8..).unwrap_or_default();
    &behind[..entries.min(behind.len())]
}

/// The text of a tape, so far as it goes.
fn text(tape: &[u8]) -> &[u8] {
    let (entries, text) = reading::sizes(tape).unwrap_or_default();
    let behind = tape.get(8 + 9 * entries..).unwrap_or_default();
    &behind[..text.min(behind.len())]
}

/// The first tape that is not accepted, and why.
pub fn refused_tape(case: &Case) -> Option<(usize, Unread)> {
    (0..).zip(read(case)).find_map(|(i, read)| Some((i, read.err()?)))
}

/// Each tape as it is given.
fn read(case: &Case) -> impl Iterator<Item = Result<Node, Unread>> {
    let tapes = case.tapes.iter().zip(case.operation.roots()).enumerate();
    tapes.map(|(i, (bytes, root))| {
        model::read(bytes, *root, case.operation.longest_name(i, case.file)).map(|(given, _)| given)
    })
}

/// Whether an accepted tape, as it is given or rewritten, or the result stands exactly at a largest figure.
fn at_a_figure(case: &Case, answer: &Answer) -> bool {
    let at = |figures: &[Measured]| figures.iter().any(|measured| measured.over() == Some(0));
    let of_tape = |(i, read): (usize, Result<Node, Unread>)| {
        read.is_ok_and(|tree| {
            let parts = figures::of_parts(&tree, case.operation.longest_name(i, case.file));
            [false, true].into_iter().any(|rewritten| at(&figures::of_whole(&tree, rewritten))) || at(&parts)
        })
    };
    let result = tape::accept(&answer.result, result_root(case), usize::MAX);
    read(case).enumerate().any(of_tape) || result.is_ok_and(|result| at(&figures::of_whole(&result, false)))
}

/// The root that a result may have.
fn result_root(case: &Case) -> Sort {
    match case.operation.roots() {
        [Sort::Term] => Sort::ProviderArgument,
        _ => Sort::Any,
    }
}
