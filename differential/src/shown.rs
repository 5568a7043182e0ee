//! What a case shows, in words.

use crate::record::Shows;
use std::collections::BTreeMap;

/// What these are, one phrase for each; codes are put together.
pub fn words(shows: &[Shows]) -> Vec<String> {
    let mut codes: BTreeMap<&'static str, Vec<String>> = BTreeMap::new();
    let mut phrases = Vec::new();
    for show in shows {
        match show.code() {
            Some((place, code)) => codes.entry(place).or_default().push(code),
            None => phrases.extend(show.phrase()),
        }
    }
    phrases.extend(codes.into_iter().map(|(place, codes)| format!("{place}: {}", first_of(&codes))));
    phrases
}

/// A dozen of them at the most.
fn first_of(codes: &[String]) -> String {
    const MOST: usize = 12;
    match codes.get(MOST..) {
        Some(rest @ [_, ..]) => format!("{} and {} more", codes[..MOST].join(", "), rest.len()),
        _ => codes.join(", "),
    }
}

/// A code and its name.
fn code(code: u8) -> String {
    format!("{} ({code})", name(code))
}

/// What each code is.
const NAMES: [(u8, &str); 62] = [
    (1, "and"),
    (2, "or"),
    (3, "not"),
    (4, "formerly"),
    (5, "previous"),
    (6, "since"),
    (7, "predicate"),
    (8, "comparison"),
    (9, "exists"),
    (10, "tp"),
    (11, "call as a condition"),
    (12, "sigil as a condition"),
    (13, "refinement"),
    (20, "entity"),
    (21, "integer"),
    (22, "decimal"),
    (23, "string"),
    (24, "boolean"),
    (25, "context field"),
    (26, "scope field"),
    (27, "variable"),
    (28, "wildcard"),
    (29, "array"),
    (30, "aggregate"),
    (31, "arithmetic"),
    (32, "parameter as a term"),
    (33, "binder as a term"),
    (34, "sum"),
    (35, "count"),
    (36, "call as an aggregate"),
    (40, "text"),
    (41, "list"),
    (42, "span"),
    (43, "name as a slot"),
    (44, "parameter as a slot"),
    (45, "binder as a slot"),
    (46, "type Timepoint"),
    (47, "named type"),
    (48, "seconds"),
    (49, "minutes"),
    (50, "hours"),
    (51, "days"),
    (52, "parameter as an interval"),
    (53, "operator"),
    (54, "call"),
    (55, "condition as an argument"),
    (56, "term as an argument"),
    (57, "interval as an argument"),
    (58, "`?`"),
    (59, "`$`"),
    (60, "definition"),
    (61, "Cedar body"),
    (62, "condition as a body"),
    (63, "term as a body"),
    (64, "weeks"),
    (70, "provider call"),
    (71, "field of a provider's argument"),
    (72, "string of a provider's argument"),
    (73, "integer of a provider's argument"),
    (74, "decimal of a provider's argument"),
    (75, "boolean of a provider's argument"),
    (76, "array of a provider's argument"),
];

fn name(code: u8) -> &'static str {
    NAMES.iter().find(|(other, _)| *other == code).map_or("unknown code", |(_, name)| name)
}

fn several(n: usize, what: &str) -> String {
    match n {
        0 => format!("no {what}"),
        1 => format!("one {what}"),
        _ => format!("{n} {what}s"),
    }
}

/// A number that was cut to a largest one.
fn or_more(n: usize, most: usize, what: &str) -> String {
    if n == most { format!("{n} or more {what}s") } else { several(n, what) }
}

impl Shows {
    /// The code that it is about, and where, if it is about nothing else.
    fn code(&self) -> Option<(&'static str, String)> {
        match self {
            Shows::Code { success: true, code } => Some(("codes of a success's tape", self::code(*code))),
            Shows::Code { success: false, code } => Some(("codes of a refused case's tape", self::code(*code))),
            Shows::ResultCode(code) => Some(("codes of a result", self::code(*code))),
            Shows::Root(code) => Some(("root of the tape", self::code(*code))),
            Shows::Place((0, .., code)) => Some(("places of codes", format!("{} as a root", self::code(*code)))),
            Shows::Place((above, .., code)) => {
                Some(("places of codes", format!("{} below {}", self::code(*code), self::code(*above))))
            }
            _ => None,
        }
    }

    /// Nothing where there is nothing to say of it.
    fn phrase(&self) -> Option<String> {
        Some(match self {
            Shows::Number(number, refused, found) => of_number(*number, *refused, *found),
            Shows::Reason(number, _) => format!("{number} for this reason"),
            Shows::Tapes { short, tapes } => of_tapes(*short, tapes)?,
            Shows::Names { names, condition } => {
                format!("the registry's names {}, the condition's tape {}", by_itself(*names), by_itself(*condition))
            }
            Shows::Event(what) => what.to_string(),
            Shows::Reserved(_) => "this reserved name".to_string(),
            Shows::Declared(names, 0) => format!("a message that lists {} declared", or_more(*names, 4, "name")),
            Shows::Declared(names, wide) => {
                let (names, wide) = (or_more(*names, 4, "name"), or_more(*wide, 4, "name"));
                format!("a message that lists {names} declared, {wide} not ASCII")
            }
            Shows::Character(what, bytes) => format!("a character of {} in a {what}", several(*bytes, "byte")),
            Shows::Judged(why, file) => format!("{why}{}", if *file { ", in a file above 0" } else { "" }),
            Shows::Counts(what) => format!("counts: {what}"),
            Shows::LongBuffers(true) => "longer buffers, zeros to their ends".to_string(),
            Shows::LongBuffers(false) => "longer buffers, and a message".to_string(),
            other => {
                return other.of_figures().or_else(|| other.of_generated_names()).or_else(|| other.of_one_operation());
            }
        })
    }

    fn of_figures(&self) -> Option<String> {
        Some(match self {
            Shows::OneTooMany(figure) => format!("just one too many ({figure})"),
            Shows::AtALimit(what, figure) => format!("{} exactly at the largest figure for {figure}", measured(what)),
            Shows::DeepBody(body, true) => format!("a {} at the largest nesting", self::code(*body)),
            Shows::DeepBody(body, false) => format!("a {} at the largest nesting, refused", self::code(*body)),
            Shows::Made { otherwise_success: true } => {
                "what is made is too large, and nothing else is wrong".to_string()
            }
            Shows::Made { otherwise_success: false } => {
                "what is made is too large, before another refusal is reached".to_string()
            }
            Shows::LateRefusal => "a refusal after more was charged than a tape can hold".to_string(),
            Shows::ManyArguments => "a call with more arguments than a definition may have parameters".to_string(),
            Shows::Calls(calls) => format!("{} on one path", several(*calls, "call")),
            Shows::Charges(charges) => format!("{} made", or_more(*charges, 12, "charge")),
            Shows::WholeBudget => "exactly the limit charged".to_string(),
            Shows::Name(bytes) => format!("a name of {bytes} bytes"),
            _ => return None,
        })
    }

    fn of_generated_names(&self) -> Option<String> {
        Some(match self {
            Shows::Digits(digits) => format!("a generated name with {} behind `$`", several(*digits, "digit")),
            Shows::FileDigits(0) => "a generated name of file 0, with no `#`".to_string(),
            Shows::FileDigits(digits) => format!("a generated name with {} behind `#`", several(*digits, "digit")),
            Shows::LongestName(false) => "the longest generated name".to_string(),
            Shows::LongestName(true) => "the longest generated name with a file number".to_string(),
            Shows::LongerNames => "too large only since a file number makes names longer".to_string(),
            _ => return None,
        })
    }

    /// What only one operation shows, or one with its like.
    fn of_one_operation(&self) -> Option<String> {
        Some(match self {
            Shows::Weeks(true, size) => format!("weeks as an argument, in days {size}"),
            Shows::Weeks(false, size) => format!("weeks at a condition, in days {size}"),
            Shows::Interval(unit, length, number) => {
                format!("an interval in {}, {length} ({})", name(*unit), passed(*number))
            }
            Shows::IntervalBehind(code, number) => {
                format!("an interval behind {} ({})", self::code(*code), passed(*number))
            }
            Shows::Nodes(nodes, number) => {
                format!("{} ({})", or_beyond("nodes in all", *nodes, 14, 19), passed(*number))
            }
            Shows::Aggregate(node, number) => {
                format!("the first aggregate: {} ({})", or_beyond("nodes up to it", *node, 15, 19), passed(*number))
            }
            Shows::Listed(definitions, numbers) => {
                // Three stand for up to 202.
                let most = if *definitions == 3 { 3 } else { 204 };
                let definitions = or_more(*definitions, most, "definition");
                format!("a list of {definitions} with {}", several(*numbers, "different number"))
            }
            Shows::Asked(place, number) => format!("the index {place} ({})", passed(*number)),
            Shows::Merged(kept, true) => format!("of both registries kept once: {kept}; something added"),
            Shows::Merged(kept, false) => format!("of both registries kept once: {kept}; nothing added"),
            Shows::NamesOfBoth(first, second) => {
                format!("the first registry's names {}, the second's {}", by_itself(*first), by_itself(*second))
            }
            _ => return None,
        })
    }
}

/// What was refused, and what was found there.
fn of_number(number: u64, refused: u8, found: u8) -> String {
    match (number, refused, found) {
        (0, ..) => "a success".to_string(),
        (_, 0, _) => format!("the number {number}"),
        (34, _, 0) => "too few arguments".to_string(),
        (34, ..) => "too many arguments".to_string(),
        (35, 54, _) => "the charge for an argument that is pasted passes the limit".to_string(),
        (35, ..) => "the charge for a body passes the limit".to_string(),
        (51, first, 0) => format!("first different in a {}", code(first)),
        (51, first, second) => format!("first different in a {}, a {} in the second", code(first), code(second)),
        (50, ours, _) => format!("first different in a {} of ours", code(ours)),
        (55, unit, around) => format!("an interval in {} of a {}", name(unit), code(around)),
        (_, refused, 0) => format!("refused at a {}", code(refused)),
        (_, refused, found) => format!("refused at a {}, for a {}", code(refused), code(found)),
    }
}

fn measured(what: &str) -> String {
    match what {
        "54" => "a call with its expanded arguments".to_string(),
        "outcome" => "the outcome of a call".to_string(),
        "whole" => "the whole result".to_string(),
        "rewritten tape" => "a tape rewritten without `or`".to_string(),
        other => format!("a {other}"),
    }
}

/// What tapes are by themselves, where there are several or a buffer is too short.
fn of_tapes(short: bool, tapes: &[u64]) -> Option<String> {
    if !short && (tapes.len() < 2 || tapes.iter().all(|number| *number == 0)) {
        return None;
    }
    let each: Vec<&str> = tapes.iter().map(|number| by_itself(*number)).collect();
    let beside = if short { ", beside the short buffer" } else { "" };
    Some(format!("by themselves the tapes are {}{beside}", each.join(", ")))
}

/// What the acceptance of a tape, or the names of a registry, would give.
fn by_itself(number: u64) -> &'static str {
    match number {
        0 => "accepted",
        2 => "malformed (2)",
        3 => "too large (3)",
        10 => "refused with 10",
        11 => "refused with 11",
        _ => "refused",
    }
}

fn passed(number: u64) -> String {
    if number == 0 { "passes".to_string() } else { format!("refused with {number}") }
}

/// A number that was cut to a range.
fn or_beyond(what: &str, n: u64, least: u64, most: u64) -> String {
    match n {
        n if n == least => format!("{n} {what} or fewer"),
        n if n == most => format!("{n} {what} or more"),
        n => format!("{n} {what}"),
    }
}

#[cfg(test)]
mod tests {
    use super::*;

    /// `record` cuts some numbers; what is said of them must be true of all that are cut to the same one.
    #[test]
    fn numbers_that_were_cut_are_said_so() {
        let word = |shows: Shows| words(&[shows]).concat();
        assert_eq!(word(Shows::Declared(1, 0)), "a message that lists one name declared");
        assert_eq!(word(Shows::Declared(4, 2)), "a message that lists 4 or more names declared, 2 names not ASCII");
        assert_eq!(word(Shows::Charges(11)), "11 charges made");
        assert_eq!(word(Shows::Charges(12)), "12 or more charges made");
        assert_eq!(word(Shows::Listed(2, 1)), "a list of 2 definitions with one different number");
        assert_eq!(word(Shows::Listed(3, 2)), "a list of 3 or more definitions with 2 different numbers");
        assert_eq!(word(Shows::Listed(203, 2)), "a list of 203 definitions with 2 different numbers");
        assert_eq!(word(Shows::Listed(204, 1)), "a list of 204 or more definitions with one different number");
        assert_eq!(word(Shows::Nodes(14, 0)), "14 nodes in all or fewer (passes)");
        assert_eq!(word(Shows::Aggregate(19, 53)), "the first aggregate: 19 nodes up to it or more (refused with 53)");
        assert_eq!(word(Shows::Aggregate(16, 53)), "the first aggregate: 16 nodes up to it (refused with 53)");
    }

    #[test]
    fn codes_are_put_together() {
        let code = |code: u8| Shows::ResultCode(code);
        assert_eq!(words(&[code(1), code(64)]), ["codes of a result: and (1), weeks (64)"]);
        let many: Vec<Shows> = (1..=13).map(code).collect();
        assert!(words(&many)[0].ends_with("sigil as a condition (12) and 1 more"));
    }
}
