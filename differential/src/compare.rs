//! The three that are compared: the model, upstream, and a machine (the archive, or the model behind the same calls).

use crate::case::{Answer, COUNTS, Case, Counts, Operation, Words};
use crate::judge::{self, Names};
use crate::model::{self, Notes, TooLarge};
use crate::profile;
use crate::provider;
use crate::sheet;
use crate::tape::{self, LARGEST, LARGEST_TEXT, Node, Sort};
use crate::upstream::{self, End, Reach, Run};
use std::collections::BTreeSet;

/// Who stands behind an expected answer.
#[derive(Clone, Copy, Debug, PartialEq, Eq, PartialOrd, Ord)]
pub enum Witness {
    /// A tape or a buffer was refused: 1, 2 and 3 are document 01's alone.
    ModelAlone,
    /// Upstream gave the same number, span, message, charge and tree. (For 48 upstream has no span.)
    Upstream,
    /// The same where the tapes hold weeks, which upstream was shown as days.
    UpstreamWithDays,
    /// 3 for a whole result: upstream made the same tree with the same charge, and the tree is over a figure.
    UpstreamMadeIt,
    /// 3 for a 54 with its arguments: upstream, halted before the next charge, stood at the same call with the same
    /// charge, about to charge the same body.
    UpstreamHalted,
    /// 3 for the outcome of a call: upstream made the same outcome of that call, and its walk made the same charges.
    UpstreamSubstituted,
}

pub const WITNESSES: [(Witness, &str); 6] = [
    (Witness::Upstream, "upstream gave the same answer"),
    (Witness::UpstreamWithDays, "upstream gave the same answer, with days for weeks"),
    (Witness::UpstreamMadeIt, "3 of a whole result, which upstream made"),
    (Witness::UpstreamHalted, "3 of a call, where upstream was halted"),
    (Witness::UpstreamSubstituted, "3 of a call's outcome, which upstream made"),
    (Witness::ModelAlone, "1, 2 or 3 of a tape, a merge, the older tape, the profile: decided by the model alone"),
];

/// The answer that a case must have: the model's, after upstream was heard.
pub fn expected(case: &Case) -> Result<(Answer, Notes, Witness), String> {
    let (answer, notes) = model::answer(case);
    let witness = hear_upstream(case, &answer, &notes)?;
    Ok((answer, notes, witness))
}

fn hear_upstream(case: &Case, answer: &Answer, notes: &Notes) -> Result<Witness, String> {
    if case.operation == Operation::Sheet {
        let opened = hear_of_sheet(&case.tapes[0], sheet::LIMIT, sheet::FILE)?;
        return Ok(if opened.is_some() { Witness::Upstream } else { Witness::ModelAlone });
    }
    if notes.trees.is_empty() {
        return Ok(Witness::ModelAlone);
    }
    for (tree, bytes) in notes.given.iter().zip(&case.tapes) {
        same("a tape read and written", &tape::encode(tree), bytes)?;
    }
    if let Some(result) = &notes.result {
        same("a result without Or", &tape::withdrawn(result), result)?;
    }
    if case.operation == Operation::Preview {
        same("what expansion returns", &model::words_of_expansion(case), &answer.words())?;
    }
    if let (Operation::CheckAt, 0 | 20.., Some(one)) =
        (case.operation, answer.number, notes.given[0].children.get(case.index as usize))
    {
        let alone = Case::new(Operation::Check, 0, vec![tape::encode(one)]);
        same("that definition's check alone", &model::answer(&alone).0.words(), &answer.words())?;
    }
    if case.operation == Operation::Older {
        return older_is_read(&notes.trees[0], notes.result.as_ref()).map(|()| Witness::ModelAlone);
    }
    if let Operation::Provider | Operation::ArgumentToTerm | Operation::TermToArgument = case.operation {
        return hear_of_provider(case.operation, &notes.trees[0], notes.result.as_ref());
    }
    if case.operation == Operation::Profile {
        same("what the number says", &profile::is_so(answer.number, &notes.trees[0]), &true)?;
        return stays_as_it_is(&case.tapes[0], &notes.trees[0], answer.number).map(|()| Witness::ModelAlone);
    }
    let [given, trees] =
        [&notes.given, &notes.trees].map(|trees| trees.iter().map(tape::weeks_as_days).collect::<Vec<_>>());
    // Checks and registry answer the same of the trees as they were given.
    if !case.operation.charges() && case.operation != Operation::Merge {
        same("the trees with Or", &run(case, &given, Reach::limit(0)), &run(case, &trees, Reach::limit(0)))?;
    }
    if case.operation == Operation::Merge {
        return hear_of_merge(&trees, answer, notes);
    }
    if let (Some(ours), [definitions, condition, supplied]) = (&notes.ours, &notes.trees[..]) {
        let protected = judge::names([definitions, condition]);
        let [numbered, theirs] = [ours, supplied].map(|tree| judge::numbered(tree, &protected));
        same("yes or no", &(numbered == theirs), &(answer.number == 0))?;
        let generated = upstream::generated_names(&trees[0], &trees[1], case.file);
        let unprotected: Names = judge::names([ours]).difference(&protected).cloned().collect();
        same("names that were not generated", &unprotected.difference(&generated).count(), &0)?;
    }
    let run = |reach: Reach| {
        let others: Vec<Node> = trees.iter().map(upstream::with_other_starts).collect();
        upstream::lengthened(run(case, &trees, reach), || run(case, &others, reach), case.file)
    };
    let whole = Reach::limit(case.limit as usize);
    match &notes.too_large {
        None => {
            agrees(&run(whole), answer, notes)?;
            if let (Operation::Expand, [definitions, condition], 0) = (case.operation, &trees[..], answer.number) {
                same("the calls", &upstream::calls(definitions, condition), &Ok(notes.calls.clone()))?;
            }
            Ok(if trees == notes.trees { Witness::Upstream } else { Witness::UpstreamWithDays })
        }
        Some(TooLarge::Whole { result }) => made(&run(whole), answer, result).map(|()| Witness::UpstreamMadeIt),
        Some(TooLarge::Merged) => unreachable!("not a walk's"),
        Some(TooLarge::Call { body }) => {
            let halted = run(Reach { charges: notes.charges, ..whole });
            halted_there(&halted, *body, answer, notes).map(|()| Witness::UpstreamHalted)
        }
        Some(TooLarge::Outcome { definition, call, outcome, charged_before }) => {
            let left = u64::from(case.limit) - charged_before;
            let [definition, call] = [definition, call].map(tape::weeks_as_days);
            let substitute = |call: &Node| upstream::substitute(&definition, call, Reach::limit(left as usize));
            let other = || substitute(&upstream::with_other_starts(&call));
            let mut substituted = upstream::lengthened(substitute(&call), other, case.file);
            substituted.charged += charged_before;
            made(&substituted, answer, outcome)?;
            let halted = run(Reach { charges: notes.charges, ..whole });
            same_charges(&halted, answer, notes).map(|()| Witness::UpstreamSubstituted)
        }
    }
}

fn run(case: &Case, trees: &[Node], reach: Reach) -> Run {
    match (case.operation, trees) {
        (Operation::Check, [definition]) => upstream::check(definition),
        (Operation::Registry, [definitions]) => upstream::registry(definitions),
        (Operation::CheckLibrary, [definitions]) => upstream::check_library(definitions),
        (Operation::CheckAt, [definitions]) => upstream::check_at(definitions, case.index),
        (Operation::Substitute, [definition, call]) => upstream::substitute(definition, call, reach),
        (Operation::Expand | Operation::Preview, [definitions, condition]) => {
            upstream::expand(definitions, condition, reach)
        }
        (Operation::Judge, [definitions, condition, _]) => upstream::expand(definitions, condition, reach),
        _ => unreachable!("all tapes were read"),
    }
}

/// Each condition of a sheet is an expansion. Charges and counts go from one to the next. Who stands behind each answer, if
/// the sheet can be opened.
pub fn hear_of_sheet(input: &[u8], budget: u32, file: u16) -> Result<Option<Vec<Witness>>, String> {
    let Some((registry, sheet)) = sheet::split(input) else { return Ok(None) };
    let Ok(conditions) = sheet::open(registry, sheet) else { return Ok(None) };
    let (mut charged, mut witnesses) = (0, Vec::new());
    for (case, answer) in sheet::steps(registry, &conditions, budget, file, [0; COUNTS]) {
        same("what is left of the budget", &u64::from(case.limit), &(u64::from(budget) - charged))?;
        let (expansion, _, witness) = expected(&case)?;
        same("the expansion of a condition", &expansion, &answer)?;
        charged += answer.charged;
        witnesses.push(witness);
    }
    Ok(Some(witnesses))
}

/// The same trees in upstream's types, turned there; and what was turned, turned back.
fn hear_of_provider(operation: Operation, tree: &Node, result: Option<&Node>) -> Result<Witness, String> {
    let (turned, back) = match operation {
        Operation::ArgumentToTerm => (upstream::argument_as_term(tree), result.and_then(provider::argument_of)),
        Operation::TermToArgument => {
            (upstream::term_as_argument(&tape::weeks_as_days(tree)), result.and_then(provider::term_of))
        }
        _ => {
            same("the tree in upstream's types", &upstream::provider_tree(tree), tree)?;
            return Ok(Witness::Upstream);
        }
    };
    same("what it becomes in upstream's types", &turned.as_ref(), &result)?;
    same("what it becomes, turned back", &back.as_ref(), &result.map(|_| tree))?;
    Ok(Witness::Upstream)
}

/// A condition that passes the profile check, with no call, sigil or refinement and no long name, is expanded to itself.
fn stays_as_it_is(tape: &[u8], condition: &Node, number: u64) -> Result<(), String> {
    let mut plain = tape::accept(tape, Sort::Condition, LARGEST_TEXT).is_ok();
    condition.visit(&mut |node| plain &= !matches!(node.code, 11 | 12 | 13 | 32 | 33 | 36 | 44 | 45 | 52));
    if number != 0 || !plain {
        return Ok(());
    }
    let none = Node::counted(41, 1, vec![]);
    let shown = tape::weeks_as_days(condition);
    same("the condition expanded", &upstream::expand(&none, &shown, Reach::limit(0)).end, &End::Tree(shown))?;
    let case = Case { file: 7, ..Case::new(Operation::Expand, 0, vec![tape::encode(&none), tape.to_vec()]) };
    let (answer, _) = model::answer(&case);
    same("the model's expansion", &(answer.number, answer.result), &(0, tape::encode(condition)))
}

/// Upstream says 10 and 11 of both registries, takes the merged one as a registry, and expands calls of the first one's
/// definitions with both to the same.
fn hear_of_merge(trees: &[Node], answer: &Answer, notes: &Notes) -> Result<Witness, String> {
    for registry in trees {
        let run = upstream::registry(registry);
        if run.end != End::Passed {
            return agrees(&run, answer, notes).map(|()| Witness::Upstream);
        }
    }
    let Some(merged) = notes.result.as_ref().map(tape::weeks_as_days) else { return Ok(Witness::ModelAlone) };
    same("the merged registry", &upstream::registry(&merged).end, &End::Passed)?;
    let names = |registry: &Node| registry.children.iter().map(|d| model::name(d).to_vec()).collect::<BTreeSet<_>>();
    let both = names(&trees[0]).union(&names(&trees[1])).cloned().collect();
    same("the merged registry's names", &names(&merged), &both)?;
    for definition in trees[0].children.iter().take(4) {
        let argument = Node::new(56, 0, vec![Node::with_text(27, b"q")]);
        let arguments = Node::counted(41, 1, vec![argument; definition.children[1].value as usize]);
        let call = Node::new(54, tape::span(7, 9), vec![definition.children[0].clone(), arguments]);
        let condition = Node::new(11, 0, vec![call]);
        let with = |registry: &Node| upstream::expand(registry, &condition, Reach::limit(u32::MAX as usize));
        same("an expansion with the merged registry", &with(&merged), &with(&trees[0]))?;
    }
    Ok(Witness::ModelAlone)
}

/// A head without weeks reads the older tape, with intervals of equal length and nothing else changed.
fn older_is_read(tree: &Node, older: Option<&Node>) -> Result<(), String> {
    let Some(older) = older else { return Ok(()) };
    let read = tape::accept(&tape::encode(older), Sort::Any, LARGEST_TEXT);
    same("the older tape read again", &read, &Ok(older.clone()))?;
    same("the older tape without weeks", &tape::weeks_as_days(older), older)?;
    let [mut before, mut after] = [Vec::new(), Vec::new()];
    tree.visit(&mut |entry| before.push((tape::seconds(entry), entry.text.clone())));
    older.visit(&mut |entry| after.push((tape::seconds(entry), entry.text.clone())));
    same("the length of the intervals", &after, &before)
}

/// Upstream made the tree that is too large, with the same charge.
fn made(run: &Run, answer: &Answer, tree: &Node) -> Result<(), String> {
    same("the tree that is too large", &run.end, &End::Tree(tape::weeks_as_days(tree)))?;
    same("what upstream charged", &run.charged, &answer.charged)?;
    same("that it is too large", &tape::measure(tree).over(&LARGEST).is_some(), &true)
}

/// Upstream, halted after the same charges, stood at the call that is too large, about to charge its body.
fn halted_there(run: &Run, body: u64, answer: &Answer, notes: &Notes) -> Result<(), String> {
    let End::Refused { number: 35, span, .. } = run.end else {
        return Err(format!("upstream did not come to the call that is too large: {:?}", run.end));
    };
    same("the call that is too large", &(tape::span_start(span), tape::span_end(span)), &(answer.start, answer.end))?;
    same("the charge at which upstream was halted", &run.halted_at, &Some(body))?;
    same_charges(run, answer, notes)
}

fn same_charges(run: &Run, answer: &Answer, notes: &Notes) -> Result<(), String> {
    same("what upstream charged", &run.charged, &answer.charged)?;
    same("how often upstream charged", &run.charges, &notes.charges)
}

fn agrees(run: &Run, answer: &Answer, notes: &Notes) -> Result<(), String> {
    same_charges(run, answer, notes)?;
    match &run.end {
        End::Passed => same("the number", &0, &answer.number),
        End::Listed(list) => {
            same("the number", &0, &answer.number)?;
            same("the list", list, &answer.result)
        }
        End::Tree(tree) => {
            let number = if answer.number == 50 { 0 } else { answer.number };
            same("the number", &0, &number)?;
            let ours = notes.ours.as_ref().or(notes.result.as_ref());
            same("the tree", &Some(tree), &ours.map(tape::weeks_as_days).as_ref())
        }
        End::Refused { number, span, message } => {
            same("the number", number, &answer.number)?;
            same("the span", &(tape::span_start(*span), tape::span_end(*span)), &(answer.start, answer.end))?;
            same("the message", &message.as_bytes(), &answer.message.as_slice())
        }
        End::CallInBody => same("the number", &48, &answer.number),
        End::Unknown(what) => Err(format!("upstream ended without a number: {what}")),
    }
}

fn same<T: PartialEq + std::fmt::Debug + ?Sized>(what: &str, upstream: &T, model: &T) -> Result<(), String> {
    if upstream == model {
        return Ok(());
    }
    Err(format!("{what} differs: upstream {upstream:?}, model {model:?}"))
}

// ------------------------------------------------------------------ a machine against the expected answer

/// The buffers that are lent to an operation.
pub struct Lent<'a> {
    pub result: &'a mut [u8],
    pub work: &'a mut [u8],
    pub message: &'a mut [u8],
    pub counts: &'a mut Counts,
    pub answer: &'a mut Words,
}

pub trait Machine {
    /// Whether the operation is there to be run.
    fn has(&self, _: Operation) -> bool {
        true
    }

    fn run(&mut self, case: &Case, lent: Lent);

    /// Whether a sheet can be gone through step by step.
    fn has_steps(&self) -> bool {
        false
    }

    /// Opens the sheet of a case whose tapes are registry and sheet, under its limit and file.
    fn open_sheet(&mut self, _: &Case, _: Lent, _: &mut State) {}

    /// The next condition of that sheet.
    fn next_of_sheet(&mut self, _: &Case, _: Lent, _: &mut State) {}
}

/// A sheet's state: where the next condition begins, how many are left, charged so far, budget, file number.
pub type State = [u64; 5];

/// A byte around and in every buffer before a run. Not zero, so that what is not written is seen.
const FILL: u8 = 0xA5;
/// So many bytes before and behind each buffer must not change. Odd, so that no buffer lies as a number would.
const MARGIN: usize = 33;

/// A buffer with a margin on both sides.
struct Framed {
    bytes: Vec<u8>,
}

impl Framed {
    fn new(size: usize) -> Framed {
        Framed { bytes: vec![FILL; size + 2 * MARGIN] }
    }

    fn inner(&mut self) -> &mut [u8] {
        let end = self.bytes.len() - MARGIN;
        &mut self.bytes[MARGIN..end]
    }

    /// The buffer holds `head` and then zeros, and the margins are as they were.
    fn holds(&mut self, what: &str, head: &[u8]) -> Result<(), String> {
        let end = self.bytes.len() - MARGIN;
        if self.bytes[..MARGIN].iter().chain(&self.bytes[end..]).any(|b| *b != FILL) {
            return Err(format!("{what}: written outside the buffer"));
        }
        let inner = self.inner();
        if inner.len() < head.len() {
            return Err(format!("{what}: the buffer is shorter than what it should hold"));
        }
        let (start, rest) = inner.split_at(head.len());
        if start == head && rest.iter().all(|b| *b == 0) {
            return Ok(());
        }
        let wanted = |i: usize| head.get(i).copied().unwrap_or(0);
        let i = (0..inner.len()).find(|i| inner[*i] != wanted(*i)).expect("they differ");
        Err(format!("{what}: byte {i} of {} is {:02X}, expected {:02X}", inner.len(), inner[i], wanted(i)))
    }
}

/// Goes through a sheet with a machine's own steps, and compares each answer, each buffer, the counts and the state.
pub fn judge_steps(machine: &mut dyn Machine, input: &[u8], budget: u32, file: u16) -> Result<(), String> {
    let Some((registry, sheet)) = sheet::split(input) else { return Ok(()) };
    let opened = sheet::open(registry, sheet);
    let tapes = vec![registry.to_vec(), sheet.to_vec()];
    let case = Case { file, ..Case::new(Operation::Expand, budget, tapes) };
    let none = Answer::success([0; COUNTS]);
    let mut state = [u64::MAX; 5];
    let open = Case { sizes: [0, 0, case.sizes[2]], ..case.clone() };
    judge_with(&open, opened.as_ref().err().map_or(&none, Box::as_ref), |lent| {
        machine.open_sheet(&case, lent, &mut state)
    })?;
    let Ok(conditions) = opened else { return Ok(()) };
    let mut expected = [conditions.len() as u64, 0, u64::from(budget), u64::from(file)];
    let counts = std::array::from_fn(|i| if i % 2 == 0 { 0 } else { u32::MAX - 1 });
    let mut last = counts;
    for (step, answer) in sheet::steps(registry, &conditions, budget, file, counts) {
        same("the state", &state[1..], &expected[..])?;
        judge_with(&step, &answer, |lent| machine.next_of_sheet(&case, lent, &mut state))?;
        (expected[0], expected[1]) = (expected[0] - 1, expected[1] + answer.charged);
        last = answer.counts;
    }
    let (done, behind) = (state, Case { counts: last, ..case.clone() });
    let zeros = Answer::success(last);
    judge_with(&behind, &zeros, |lent| machine.next_of_sheet(&case, lent, &mut state))?;
    same("the state of a sheet that is done", &state, &done)
}

/// Runs a machine on a case and compares the five numbers (of preview seven), every byte of the three buffers and the counts.
pub fn judge(machine: &mut dyn Machine, case: &Case, answer: &Answer) -> Result<(), String> {
    judge_with(case, answer, |lent| machine.run(case, lent))
}

fn judge_with(case: &Case, answer: &Answer, run: impl FnOnce(Lent)) -> Result<(), String> {
    let [mut result, mut work, mut message] = case.sizes.map(Framed::new);
    let (mut words, mut counts) = ([u64::MAX; 7], case.counts);
    let [r, w, m] = [&mut result, &mut work, &mut message].map(Framed::inner);
    run(Lent { result: r, work: w, message: m, counts: &mut counts, answer: &mut words });
    let mut expected = answer.words();
    if case.operation != Operation::Preview {
        expected[5..].fill(u64::MAX);
    }
    if words != expected {
        return Err(format!("number, start, end, message length, charged, N, T are {words:?}, expected {expected:?}"));
    }
    result.holds("result", &answer.result)?;
    work.holds("work", &[])?;
    message.holds("message", &answer.message)?;
    match (0..COUNTS).find(|i| case.operation.has_counts() && counts[*i] != answer.counts[*i]) {
        Some(i) => Err(format!("count {i} is {}, expected {}", counts[i], answer.counts[i])),
        None => Ok(()),
    }
}
