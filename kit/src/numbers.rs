//! What the numbers mean, in a few words each.

const MEANINGS: [(u64, &str); 37] = [
    (0, "success"),
    (1, "a buffer is too short"),
    (2, "no tape with the root wanted, or a text in it that is no UTF-8"),
    (3, "over a largest figure"),
    (10, "reserved name"),
    (11, "name defined before"),
    (20, "undeclared parameter"),
    (21, "plain identifier in a body"),
    (22, "call in a body"),
    (30, "unknown macro"),
    (31, "Cedar macro"),
    (32, "value macro as a condition"),
    (33, "condition macro as a value"),
    (34, "number of arguments"),
    (35, "budget"),
    (36, "stray sigil as a condition"),
    (37, "stray sigil as an interval"),
    (38, "stray sigil as a variable"),
    (39, "stray sigil in a field"),
    (40, "stray sigil as an operand"),
    (41, "parameter not bound"),
    (42, "argument is no condition"),
    (43, "`$` as a condition"),
    (44, "argument is no interval"),
    (45, "argument is no term"),
    (46, "argument is no identifier"),
    (47, "refined what is no predicate"),
    (48, "call met in a body"),
    (50, "not equal"),
    (51, "the definitions differ"),
    (52, "weeks that have no number of days"),
    (53, "an aggregate"),
    (54, "more than sixteen nodes"),
    (55, "an interval outside of 0 to one day"),
    (56, "a field in an argument"),
    (57, "too long a sheet"),
    (58, "a term that no argument becomes"),
];

/// A short name of a number, for those that have no message and for tables.
pub fn meaning(number: u64) -> &'static str {
    MEANINGS.iter().find(|(other, _)| *other == number).map_or("an unknown number", |(_, meaning)| meaning)
}
