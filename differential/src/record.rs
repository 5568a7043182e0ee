//! The fixed list: cases that together show everything worth showing, as few bytes as may be.

use crate::bench_cases;
use crate::case::{self, Answer, COUNTS, Case, Operation};
use crate::compare;
use crate::generate;
use crate::judge;
use crate::model::{self, Notes};
use crate::places::{self, Place};
use crate::shown;
use crate::tally;
use crate::tape::{
    self, LARGEST, LARGEST_CALLS, LARGEST_LITERAL, LARGEST_PARAMETERS, LARGEST_TEXT, Measure, Node, Sort, Unread,
};
use std::collections::{BTreeMap, BTreeSet};
use std::num::NonZero;
use std::sync::atomic::{AtomicU64, Ordering};
use std::thread;
use std::time::Duration;

/// Something that a case shows. `shown` has the words.
#[derive(Clone, Debug, PartialEq, Eq, PartialOrd, Ord)]
pub(crate) enum Shows {
    /// A number, with the code that was refused and the code that was found there.
    Number(u64, u8, u8),
    /// Why 1, 2 or 3.
    Reason(u64, String),
    /// The same for 3, where it is one too many.
    OneTooMany(String),
    /// Something accepted that stands exactly at a limit.
    AtALimit(&'static str, &'static str),
    /// A definition that is as deep as may be: the code of its body, and whether there was a success.
    DeepBody(u8, bool),
    /// The message of 10, which has the reserved name.
    Reserved(Vec<u8>),
    /// What each tape is by itself, beside a buffer that is too short: 0, 2 or 3.
    Tapes {
        short: bool,
        tapes: Vec<u64>,
    },
    /// What a registry is by its names (0, 10 or 11), and its condition by itself.
    Names {
        names: u64,
        condition: u64,
    },
    /// 3 for something that was made, by whether there would be a success if there were no limit.
    Made {
        otherwise_success: bool,
    },
    /// A refusal other than 3 after more was charged than a tape can hold.
    LateRefusal,
    /// A call with more arguments than a definition may have parameters.
    ManyArguments,
    /// A code on an accepted tape, of a success or of a refusal, and in a result.
    Code {
        success: bool,
        code: u8,
    },
    ResultCode(u8),
    /// A code in a place of a tape of which a tree was made.
    Place(Place),
    /// What a tree does not show.
    Event(&'static str),
    /// A name that looks generated, with so many digits behind its `$` and so many behind its `#`.
    Digits(usize),
    FileDigits(usize),
    /// The longest generated name, by whether it has a file number.
    LongestName(bool),
    /// 3 for a name's length: there is none for file 0.
    LongerNames,
    /// So many 54s on a path, on a tape of a success.
    Calls(usize),
    /// So many charges in a success.
    Charges(usize),
    /// So many declared names in the message of 20, and so many of them that are not ASCII alone.
    Declared(usize, usize),
    /// A character of so many bytes on an accepted tape, in a result or in a message.
    Character(&'static str, usize),
    /// A root where there are several, of a success.
    Root(u8),
    /// An interval in weeks, behind a 57 or in a within, by what its days are.
    Weeks(bool, &'static str),
    /// A list with so many refused definitions, of so many different numbers.
    Listed(usize, usize),
    /// Where the definition that is asked for stands: first, between, last, behind the last.
    Asked(&'static str, u64),
    /// What a merge has kept once, and whether something was added.
    Merged(&'static str, bool),
    /// What each of two registries is by its names: 0, 10 or 11.
    NamesOfBoth(u64, u64),
    /// An interval of a condition that passes the profile check or does not: its code, and how long it is.
    Interval(u8, &'static str, u64),
    /// The code that an interval stands behind, in such a condition.
    IntervalBehind(u8, u64),
    /// So many nodes in a condition that the profile check was given.
    Nodes(u64, u64),
    /// The first aggregate is such a node of it.
    Aggregate(u64, u64),
    /// A name of so many bytes on an accepted tape.
    Name(usize),
    /// Why it is yes or no, for a file above 0 or not.
    Judged(&'static str, bool),
    /// Something about the counts.
    Counts(&'static str),
    /// Exactly the limit was charged.
    WholeBudget,
    /// Buffers longer than the least, by whether there was a message.
    LongBuffers(bool),
}

impl Shows {
    /// What of it preview and judge are to show for themselves: the walk is expansion's, and shown there.
    fn above_expansion(self) -> Option<Shows> {
        match self {
            Shows::Number(50, ..) | Shows::Judged(..) | Shows::Name(_) => Some(self),
            Shows::Number(number, ..) => Some(Shows::Number(number, 0, 0)),
            Shows::Reason(1, _) | Shows::AtALimit("whole", "entries" | "text") | Shows::LongBuffers(_) => Some(self),
            Shows::Tapes { .. } | Shows::Names { .. } | Shows::WholeBudget => Some(self),
            _ => None,
        }
    }

    /// Whether it is about the acceptance of a tape, whichever operation the tape is for.
    fn is_acceptance(&self) -> bool {
        match self {
            Shows::Reason(2 | 3, reason) | Shows::OneTooMany(reason) => {
                !reason.contains("of a call") && !reason.contains("whole")
            }
            Shows::AtALimit(what, _) | Shows::Character(what, _) => what.contains("tape"),
            Shows::Code { .. } | Shows::DeepBody(..) | Shows::ManyArguments | Shows::ResultCode(_) => true,
            _ => false,
        }
    }
}

/// So many of the smallest cases are kept for each thing that can be shown.
const KEPT: usize = 4;

struct Candidate {
    case: Case,
    answer: Answer,
    shows: BTreeSet<(u8, Shows)>,
}

impl Candidate {
    fn new(case: Case) -> Result<Candidate, String> {
        let (answer, notes, _) = compare::expected(&case)?;
        let operation = |s: &Shows| match s {
            // The format is one for all operations, and so is acceptance: the later operations show it together.
            Shows::Place(_) => 0,
            _ if case.operation.number() > 4 && s.is_acceptance() => 0,
            _ => case.operation.number(),
        };
        let mut shows = shows(&case, &answer, &notes);
        if let Operation::Preview | Operation::Judge = case.operation {
            shows = shows.into_iter().filter_map(Shows::above_expansion).collect();
        }
        let shows = shows.into_iter().map(|s| (operation(&s), s)).collect();
        Ok(Candidate { case, answer, shows })
    }

    fn cost(&self) -> usize {
        // what a vector has beside its tapes and buffers
        const FRAME: usize = 100;
        let counts = 4 * (case::used(&self.case.counts).len() + case::used(&self.answer.counts).len());
        FRAME + self.case.bytes() + self.answer.result.len() + self.answer.message.len() + counts
    }

    /// As a case of the list. What it shows is shown from here on.
    fn recorded(mut self, shown: &mut BTreeSet<(u8, Shows)>) -> Recorded {
        self.shows.retain(|shows| shown.insert(shows.clone()));
        let shows: Vec<Shows> = self.shows.into_iter().map(|(_, shows)| shows).collect();
        Recorded { case: self.case, answer: self.answer, shows: shown::words(&shows) }
    }
}

/// A case of the list.
pub struct Recorded {
    pub case: Case,
    pub answer: Answer,
    /// What it shows that none before it does, in words.
    pub shows: Vec<String>,
}

/// The bench cases and the order in a Since, and behind them cases from the seed until everything that any of them shows is shown.
/// So many cases are looked through, those of these operations taken; more of them give a smaller list that shows more, slowly.
/// `watch` hears how many have been looked through.
pub fn record(seed: u64, cases: u64, only: &[Operation], watch: &mut dyn FnMut(u64)) -> Result<Vec<Recorded>, String> {
    let (mut shown, mut list) = (BTreeSet::new(), Vec::new());
    let first = bench_cases::cases().into_iter().chain(bench_cases::orders());
    for candidate in first.map(Candidate::new) {
        list.push(candidate?.recorded(&mut shown));
    }
    let mut left = smallest(seed, cases, only, watch)?;
    loop {
        left.iter_mut().for_each(|c| c.shows.retain(|s| !shown.contains(s)));
        left.retain(|c| !c.shows.is_empty());
        // the most that is new for its bytes
        let worth = |c: &Candidate| c.shows.len() * (1 << 32) / c.cost();
        let Some(best) = (0..left.len()).max_by_key(|i| worth(&left[*i])) else { break };
        list.push(left.swap_remove(best).recorded(&mut shown));
    }
    Ok(list)
}

/// For each thing that can be shown the cost and the index of the smallest cases that show it.
#[derive(Default)]
struct Least(BTreeMap<(u8, Shows), Vec<(usize, u64)>>);

impl Least {
    fn add(&mut self, shows: (u8, Shows), cases: &[(usize, u64)]) {
        let of = self.0.entry(shows).or_default();
        of.extend(cases);
        of.sort_unstable();
        of.truncate(KEPT);
    }

    fn of(seed: u64, indices: impl Iterator<Item = u64>) -> Result<Least, String> {
        let mut least = Least::default();
        for index in indices {
            let candidate = Candidate::new(generate::case(seed, index))?;
            let cost = candidate.cost();
            candidate.shows.into_iter().for_each(|shows| least.add(shows, &[(cost, index)]));
        }
        Ok(least)
    }
}

/// The model's walks recurse as deep as tapes nest.
const STACK: usize = 64 << 20;

/// For each thing that can be shown the smallest cases that show it. The cases are looked through on as many threads as there are
/// processors; which are kept does not depend on how many.
fn smallest(seed: u64, cases: u64, only: &[Operation], watch: &mut dyn FnMut(u64)) -> Result<Vec<Candidate>, String> {
    // The program that replays the list cannot run another.
    let is_asked = |operation: Operation| operation != Operation::Sheet && only.contains(&operation);
    let jobs = thread::available_parallelism().map_or(1, NonZero::get);
    let done = AtomicU64::new(0);
    let least = thread::scope(|scope| {
        let job = |first: usize| {
            let look = |index: &u64| {
                done.fetch_add(1, Ordering::Relaxed);
                is_asked(generate::operation(seed, *index))
            };
            Least::of(seed, (first as u64..cases).step_by(jobs).filter(look))
        };
        let start = |first: usize| thread::Builder::new().stack_size(STACK).spawn_scoped(scope, move || job(first));
        let started = (0..jobs).map(start).collect::<Result<Vec<_>, _>>().map_err(|e| format!("a thread: {e}"))?;
        while !started.iter().all(|job| job.is_finished()) {
            watch(done.load(Ordering::Relaxed));
            thread::sleep(Duration::from_millis(50));
        }
        let mut least = Least::default();
        for job in started {
            let part = job.join().unwrap_or_else(|panic| std::panic::resume_unwind(panic))?;
            part.0.into_iter().for_each(|(shows, cases)| least.add(shows, &cases));
        }
        Ok::<_, String>(least)
    })?;
    let kept: BTreeSet<u64> = least.0.values().flatten().map(|(_, index)| *index).collect();
    kept.into_iter().map(|index| Candidate::new(generate::case(seed, index))).collect()
}

// ------------------------------------------------------------------ what a case shows

fn shows(case: &Case, answer: &Answer, notes: &Notes) -> Vec<Shows> {
    let mut all = vec![number(answer, notes)];
    all.extend(notes.events.iter().map(|event| Shows::Event(event)));
    all.extend(of_refusals(case, answer, notes));
    all.extend(of_tapes(case, answer, notes));
    all.extend(notes.result.iter().flat_map(|result| of_result(case, answer, result)));
    all.extend(of_operation(case, answer, notes));
    if case.operation.has_counts() {
        all.extend(of_counts(case, answer, notes).into_iter().map(Shows::Counts));
    }
    all.extend(of_message(case, answer, notes));
    all
}

/// The number, with the code that was refused and the code that was found there.
fn number(answer: &Answer, notes: &Notes) -> Shows {
    let (refused, found) = notes.cause;
    // Of two definitions that differ: what the first one has there, and whether the other has that code too.
    let apart = answer.number == 51 && refused != found;
    Shows::Number(answer.number, refused, if apart { 0 } else { found })
}

/// What the accepted tapes hold, and what is made of them.
fn of_tapes(case: &Case, answer: &Answer, notes: &Notes) -> Vec<Shows> {
    let success = answer.number == 0;
    let places = places::seen(&notes.given);
    let mut all: Vec<Shows> = places.iter().map(|(.., code)| Shows::Code { success, code: *code }).collect();
    for (given, tree) in notes.given.iter().zip(&notes.trees) {
        all.extend(of_tape(given, tree, success));
    }
    if success && !notes.given.is_empty() {
        if case.operation.charges() || case.operation == Operation::Provider {
            all.extend(places.into_iter().map(Shows::Place));
        }
        all.extend(notes.trees.iter().skip(1).map(|tree| Shows::Calls(tape::measure(tree).calls)));
        all.push(Shows::Charges(notes.charges.min(12)));
    }
    if success {
        all.extend(notes.measured.iter().flat_map(|(what, m)| {
            let what = ["54", "outcome", "whole"][*what as usize];
            at_figures(m).map(move |figure| Shows::AtALimit(what, figure))
        }));
    }
    all
}

/// The same of one of them, as it is given and as it is rewritten.
fn of_tape(given: &Node, tree: &Node, success: bool) -> Vec<Shows> {
    let what = if given == tree { "tape" } else { "rewritten tape" };
    let at = at_limits(tree).into_iter().map(|figure| Shows::AtALimit(what, figure));
    let mut all: Vec<Shows> = at.chain(characters_of(tree).into_iter().map(|n| Shows::Character("tape", n))).collect();
    tree.visit(&mut |node| match node.code {
        60 if tape::measure(node).nesting == LARGEST.nesting => {
            all.push(Shows::DeepBody(node.children[2].code, success));
        }
        54 if node.children[1].value > LARGEST_PARAMETERS as u64 => all.push(Shows::ManyArguments),
        _ => {}
    });
    all
}

fn of_result(case: &Case, answer: &Answer, result: &Node) -> Vec<Shows> {
    let mut all: Vec<Shows> = generated(result, case.file).into_iter().collect();
    result.visit(&mut |node| all.push(Shows::ResultCode(node.code)));
    all.extend(characters_of(result).into_iter().map(|n| Shows::Character("result", n)));
    if answer.charged > 0 && answer.charged == u64::from(case.limit) {
        all.push(Shows::WholeBudget);
    }
    all
}

/// What only some operations can show.
fn of_operation(case: &Case, answer: &Answer, notes: &Notes) -> Vec<Shows> {
    let success = answer.number == 0;
    match (case.operation, &notes.given[..], &notes.trees[..]) {
        (Operation::Older | Operation::Provider | Operation::ArgumentToTerm | Operation::TermToArgument, [tree], _) => {
            of_root(tree, success)
        }
        (Operation::CheckLibrary, ..) if success => vec![listed(answer)],
        (Operation::CheckAt, [definitions], _) => vec![asked(case.index as usize, definitions, answer)],
        (Operation::Merge, ..) => of_merge(notes),
        (Operation::Profile, _, [condition]) => of_profile(condition, answer.number),
        (Operation::Judge, ..) => of_judge(case, notes),
        _ => vec![],
    }
}

fn of_root(tree: &Node, success: bool) -> Vec<Shows> {
    let mut all: Vec<Shows> = success.then_some(Shows::Root(tree.code)).into_iter().collect();
    tree.visit(&mut |node| all.extend(weeks_below(node)));
    all
}

/// So many refused definitions, each with its number in four bytes behind its index.
fn listed(answer: &Answer) -> Shows {
    let (entries, _) = answer.result.as_chunks::<16>();
    let numbers: BTreeSet<u8> = entries.iter().map(|entry| entry[4]).collect();
    let class = [0, 1, 2, 3, 203, 204].into_iter().rfind(|n| *n <= entries.len()).expect("0 is");
    Shows::Listed(class, numbers.len())
}

fn asked(index: usize, definitions: &Node, answer: &Answer) -> Shows {
    let count = definitions.children.len();
    let place = match index {
        _ if index >= count => "behind the last",
        0 => "first",
        _ if index + 1 == count => "last",
        _ => "between",
    };
    Shows::Asked(place, answer.number)
}

fn of_merge(notes: &Notes) -> Vec<Shows> {
    let mut all = Vec::new();
    if let [first, second] = &notes.trees[..] {
        let names = |registry| model::registry(registry).map_or_else(|refusal| refusal.number, |()| 0);
        all.push(Shows::NamesOfBoth(names(first), names(second)));
    }
    if let ([first, second], Some(merged)) = (&notes.given[..], &notes.result) {
        all.push(Shows::Merged(kept_once(first, second), merged.children.len() > first.children.len()));
    }
    all
}

fn of_judge(case: &Case, notes: &Notes) -> Vec<Shows> {
    if notes.ours.is_none() {
        return vec![];
    }
    let judged = notes.judged.map(|why| Shows::Judged(why, case.file > 0));
    let long = judge::names(&notes.given[2..]).into_iter().map(|name| name.len()).filter(|n| *n > LARGEST_TEXT);
    judged.into_iter().chain(long.map(Shows::Name)).collect()
}

fn of_message(case: &Case, answer: &Answer, notes: &Notes) -> Vec<Shows> {
    let mut all: Vec<Shows> = characters(&answer.message).map(|n| Shows::Character("message", n)).collect();
    match answer.number {
        10 => all.push(Shows::Reserved(answer.message.clone())),
        20 => {
            let tree = &notes.trees[0];
            let names = declared(if tree.code == 60 { tree } else { &tree.children[case.index as usize] });
            let wide = names.iter().filter(|name| !name.is_ascii()).count();
            all.push(Shows::Declared(names.len().min(4), wide.min(4)));
        }
        _ => {}
    }
    if case.sizes[2] > case.operation.buffers()[2] && answer.number != 1 {
        all.push(Shows::LongBuffers(answer.message.is_empty()));
    }
    all
}

/// Which refusal stands before which.
fn of_refusals(case: &Case, answer: &Answer, notes: &Notes) -> Vec<Shows> {
    let number = answer.number;
    let mut all = Vec::new();
    if let Some(reason) = tally::reason(answer, notes) {
        if notes.over_by == 1 {
            all.push(Shows::OneTooMany(reason.clone()));
        }
        all.push(Shows::Reason(number, reason));
    }
    let read = |(i, (bytes, root)): (usize, (&Vec<u8>, &Sort))| {
        model::read(bytes, *root, case.operation.longest_name(i, case.file)).map_or_else(number_of, |_| 0)
    };
    let tapes: Vec<u64> = case.tapes.iter().zip(case.operation.roots()).enumerate().map(read).collect();
    if matches!(case.operation, Operation::Expand | Operation::Preview | Operation::Judge)
        && let Ok(definitions) = tape::accept(&case.tapes[0], Sort::Definitions, LARGEST_TEXT)
    {
        let names = model::registry(&definitions).map_or_else(|refusal| refusal.number, |()| 0);
        all.push(Shows::Names { names, condition: tapes[1] });
    }
    all.push(Shows::Tapes { short: number == 1, tapes });
    if notes.too_large.is_some() && case.file > 0 && model::answer(&Case { file: 0, ..case.clone() }).0.number == 0 {
        all.push(Shows::LongerNames);
    }
    if notes.too_large.is_some() {
        all.push(Shows::Made { otherwise_success: model::without_limit(case) == 0 });
    } else if number > 3 && answer.charged > LARGEST.entries as u64 {
        all.push(Shows::LateRefusal);
    }
    all
}

fn number_of(unread: Unread) -> u64 {
    match unread {
        Unread::Malformed(_) => 2,
        Unread::TooLarge(_) => 3,
    }
}

fn at_figures(m: &Measure) -> impl Iterator<Item = &'static str> + use<> {
    let figures = [
        (m.entries == LARGEST.entries, "entries"),
        (m.text == LARGEST.text, "text"),
        (m.nesting == LARGEST.nesting, "nesting"),
        (m.calls == LARGEST_CALLS, "calls"),
    ];
    figures.into_iter().filter(|(at, _)| *at).map(|(_, figure)| figure)
}

/// What of an accepted tape stands exactly at a limit.
fn at_limits(tree: &Node) -> Vec<&'static str> {
    let mut all: Vec<&'static str> = at_figures(&tape::measure(tree)).collect();
    tree.visit(&mut |node| match node.code {
        22 if node.text.len() == LARGEST_LITERAL => all.push("decimal"),
        23 if node.text.len() == LARGEST_LITERAL => all.push("string"),
        60 if node.children[1].value == LARGEST_PARAMETERS as u64 => all.push("parameters"),
        22 | 23 => {}
        27 | 43 if node.text.len() == LARGEST_TEXT => all.push("name"),
        _ if node.text.len() == LARGEST_TEXT => all.push("text of an entry"),
        _ => {}
    });
    all
}

fn of_profile(condition: &Node, number: u64) -> Vec<Shows> {
    let mut all = vec![Shows::Nodes(tape::size(condition).clamp(14, 19), number)];
    let (mut nodes, mut aggregate) = (0, None);
    condition.visit(&mut |node| {
        nodes += u64::from(tape::is_node(node.code));
        if node.code == 30 && aggregate.is_none() {
            aggregate = Some(nodes);
        }
        if matches!(node.code, 27 | 43) && node.text.len() > LARGEST_TEXT {
            all.push(Shows::Name(node.text.len()));
        }
        let intervals = node.children.iter().filter(|child| tape::seconds(child).is_some());
        all.extend(intervals.map(|_| Shows::IntervalBehind(node.code, number)));
        all.extend(length(node).map(|length| Shows::Interval(node.code, length, number)));
    });
    all.extend(aggregate.map(|place| Shows::Aggregate(place.clamp(15, 19), number)));
    all
}

/// How long an interval is.
fn length(interval: &Node) -> Option<&'static str> {
    const ONE_DAY: i128 = 86_400;
    let (seconds, amount) = (tape::seconds(interval)?, interval.value as i64);
    Some(match seconds {
        _ if amount == i64::MIN => "the least",
        _ if amount == i64::MAX => "the largest",
        0 => "0",
        ONE_DAY => "one day",
        ..0 if amount == -1 => "-1",
        ..0 => "negative",
        1..ONE_DAY => "less than a day",
        _ if seconds / i128::from(amount) * i128::from(amount - 1) <= ONE_DAY => "one more than a day",
        _ => "more than a day",
    })
}

fn kept_once(first: &Node, second: &Node) -> &'static str {
    let twice = |d: &&Node| first.children.iter().any(|own| model::name(own) == model::name(d));
    let kept: Vec<&Node> = second.children.iter().filter(twice).collect();
    match kept.len() {
        0 => "nothing",
        _ if kept.iter().all(|d| first.children.contains(d)) => "as it is",
        _ if kept.iter().any(|d| tape::withdrawn(d) != **d) => "with an Or",
        1 => "one with other spans",
        _ => "several with other spans",
    }
}

fn of_counts(case: &Case, answer: &Answer, notes: &Notes) -> Vec<&'static str> {
    let mut counted = [0; COUNTS];
    notes.calls.iter().for_each(|i| counted[*i] += 1);
    let definitions = notes.trees.first().map_or(0, |registry| registry.children.len());
    let any = |test: &dyn Fn(usize) -> bool| (0..COUNTS).any(test);
    let kinds = [
        (any(&|i| counted[i] > 0), "a call"),
        (any(&|i| counted[i] > 1), "several calls of one macro"),
        (counted.iter().filter(|n| **n > 0).count() > 1, "calls of several macros"),
        (any(&|i| counted[i] > 0 && case.counts[i] == u32::MAX), "a count at its end"),
        (
            any(&|i| counted[i] > 0 && answer.counts[i] == u32::MAX && case.counts[i] < u32::MAX),
            "a count that comes to its end",
        ),
        (any(&|i| counted[i] > 1 && u32::MAX - case.counts[i] == 1), "a count that would pass its end"),
        (counted[COUNTS - 1] > 0, "a call of the last definition"),
        (
            notes.result.is_some() && any(&|i| i >= definitions && case.counts[i] > 0),
            "counts behind the last definition",
        ),
        (notes.charges > 0 && answer.number != 0 && case.counts[0] > 0, "a refusal after a charge"),
        (answer.number != 0 && case.counts[0] > 0, "a refusal"),
        (case.operation == Operation::Registry && answer.number == 0 && case.counts[0] > 0, "a registry built anew"),
    ];
    kinds.into_iter().filter(|(shown, _)| *shown).map(|(_, kind)| kind).collect()
}

fn weeks_below(node: &Node) -> impl Iterator<Item = Shows> {
    let kind = |weeks: i64| match weeks.checked_mul(7) {
        None if weeks < 0 => "below the least",
        None => "above the largest",
        Some(days) if days > i64::MAX - 7 => "the largest",
        Some(days) if days < i64::MIN + 7 => "the least",
        Some(days) if days < 0 => "negative",
        Some(_) => "none or more",
    };
    let weeks = node.children.iter().filter(|child| child.code == 64);
    weeks.map(move |child| Shows::Weeks(node.code == 57, kind(child.value as i64)))
}

/// The names that a definition declares, each once.
fn declared(definition: &Node) -> BTreeSet<&[u8]> {
    definition.children[1].children.iter().filter(|p| p.code == 40).map(|p| p.text.as_slice()).collect()
}

/// How many bytes each character of a text has.
fn characters(text: &[u8]) -> impl Iterator<Item = usize> {
    std::str::from_utf8(text).expect("well-formed").chars().map(char::len_utf8)
}

fn characters_of(tree: &Node) -> BTreeSet<usize> {
    let mut all = BTreeSet::new();
    tree.visit(&mut |node| all.extend(characters(&node.text)));
    all
}

/// What names that look generated show.
fn generated(result: &Node, file: u16) -> BTreeSet<Shows> {
    let mut all = BTreeSet::new();
    let end = if file == 0 { String::new() } else { format!("#{file}") };
    result.visit(&mut |node| {
        let Some(name) = node.text.strip_suffix(end.as_bytes()) else { return };
        let digits = name.iter().rev().take_while(|b| b.is_ascii_digit()).count();
        if matches!(node.code, 27 | 43) && digits > 0 && name[..name.len() - digits].ends_with(b"$") {
            all.insert(Shows::Digits(digits));
            all.insert(Shows::FileDigits(end.len().saturating_sub(1)));
            if node.text.len() == Operation::Judge.longest_name(2, file) {
                all.insert(Shows::LongestName(file > 0));
            }
        }
    });
    all
}
