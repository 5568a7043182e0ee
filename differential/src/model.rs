//! The documents' answer to a case, decided on the trees of `tape` and not by upstream.
//!
//! It is there for what upstream does not have: acceptance, the limits, and the order among the refusals. Since a
//! limit can end a walk anywhere, the walks are here too; wherever no limit comes, upstream has to agree with them.

use crate::case::{Answer, COUNTS, Case, Operation, Words};
use crate::judge;
use crate::merge;
use crate::message;
use crate::profile::profile;
use crate::provider;
use crate::sheet;
use crate::tape::{self, LARGEST, LARGEST_CALLS, Largest, Measure, Node, Over, Sort, UNBOUNDED, Unread};
use std::collections::BTreeSet;

/// A refusal of the walk, or of a tape.
#[derive(Clone, Debug, PartialEq, Eq)]
pub struct Refusal {
    pub number: u64,
    pub span: u64,
    pub message: String,
    /// The code that was refused, and the code that was found in its place, where there are such.
    pub cause: (u8, u8),
}

fn refuse<T>(number: u64, span: u64, message: String) -> Result<T, Refusal> {
    refuse_for((0, 0), number, span, message)
}

fn refuse_for<T>(cause: (u8, u8), number: u64, span: u64, message: String) -> Result<T, Refusal> {
    Err(Refusal { number, span, message, cause })
}

/// Where a walk was refused with 3, and what was too large there.
#[derive(Clone, Debug)]
pub enum TooLarge {
    /// A 54 with its expanded arguments. `body` is the size of the body that was about to be charged.
    Call { body: u64 },
    /// The outcome of a call inside an expansion: its definition, the 54 with its expanded arguments, the outcome, and
    /// the sum of the charges before it.
    Outcome { definition: Node, call: Node, outcome: Node, charged_before: u64 },
    /// The whole result.
    Whole { result: Node },
    /// The merged registry.
    Merged,
}

/// What the model found out about a case beside its answer.
#[derive(Clone, Debug, Default)]
pub struct Notes {
    /// The trees as they are on the tapes and as they are rewritten without Or, where all tapes were accepted.
    pub given: Vec<Node>,
    pub trees: Vec<Node>,
    pub result: Option<Node>,
    /// Our own result, where another one was compared with it, and what was found.
    pub ours: Option<Node>,
    pub judged: Option<&'static str>,
    pub too_large: Option<TooLarge>,
    /// How many charges were made.
    pub charges: usize,
    /// The definitions whose calls an expansion that succeeded has substituted, by their places in the registry.
    pub calls: Vec<usize>,
    /// Why it is 1, 2 or 3; for 3 by how much.
    pub reason: &'static str,
    pub over_by: usize,
    /// The code that was refused, and the code that was found in its place.
    pub cause: (u8, u8),
    /// What was measured against the largest figures.
    pub measured: Vec<(Measured, Measure)>,
    /// What came to pass on the way that a tree does not show.
    pub events: BTreeSet<&'static str>,
}

/// What is measured: a 54 with its expanded arguments, the outcome of a call, the whole result.
#[derive(Clone, Copy, Debug, PartialEq, Eq, PartialOrd, Ord)]
pub enum Measured {
    Call,
    Outcome,
    Whole,
}

// ------------------------------------------------------------------ the operations

pub fn answer(case: &Case) -> (Answer, Notes) {
    let mut walk = Walk::new(u64::from(case.limit), case.file, LARGEST);
    let mut notes = Notes::default();
    let outcome = operate(case, &mut walk, &mut notes);
    notes.charges = walk.charges;
    notes.too_large = walk.too_large.take();
    if let Some(over) = walk.over {
        notes.reason = over.figure;
        notes.over_by = over.by;
    }
    notes.measured = walk.measured;
    notes.events = walk.events;
    let given = if case.operation == Operation::Registry { [0; COUNTS] } else { case.counts };
    let mut answer = Answer { charged: walk.charged, ..Answer::success(given) };
    match outcome {
        Ok(made) => {
            notes.calls = walk.calls;
            if case.operation.has_counts() {
                notes.calls.iter().for_each(|i| answer.counts[*i] = answer.counts[*i].saturating_add(1));
            }
            match &made {
                Made::Nothing => {}
                Made::Tree(tree) if case.operation == Operation::Preview => {
                    let measure = tape::measure(tree);
                    answer.size = [measure.entries as u64, measure.text as u64];
                }
                Made::Tree(tree) => answer.result = tape::encode(tree),
                Made::List(list) => answer.result = list.clone(),
            }
            notes.result = made.tree();
        }
        Err(refusal) => {
            answer.number = refusal.number;
            answer.start = tape::span_start(refusal.span);
            answer.end = tape::span_end(refusal.span);
            answer.message = refusal.message.into_bytes();
            notes.cause = refusal.cause;
        }
    }
    (answer, notes)
}

/// What a preview has to return, by the answer of expansion with buffers that are long enough.
pub fn words_of_expansion(case: &Case) -> Words {
    let Case { limit, file, tapes, .. } = case.clone();
    let (answer, _) = answer(&Case { file, ..Case::new(Operation::Expand, limit, tapes) });
    let size =
        |at: usize| answer.result.get(at..at + 4).map_or(0, |n| u32::from_le_bytes(n.try_into().expect("4 bytes")));
    Answer { size: [size(0), size(4)].map(u64::from), ..answer.clone() }.words()
}

/// The number that would be answered if nothing that is made could be too large.
pub fn without_limit(case: &Case) -> u64 {
    let mut walk = Walk::new(u64::from(case.limit), case.file, UNBOUNDED);
    operate(case, &mut walk, &mut Notes::default()).map_or_else(|refusal| refusal.number, |_| 0)
}

/// What an operation makes.
enum Made {
    Nothing,
    Tree(Node),
    /// A list of refused definitions, or lines.
    List(Vec<u8>),
}

impl Made {
    fn tree(self) -> Option<Node> {
        match self {
            Made::Tree(tree) => Some(tree),
            _ => None,
        }
    }
}

fn operate(case: &Case, walk: &mut Walk, notes: &mut Notes) -> Result<Made, Refusal> {
    let least = case.operation.buffers();
    if let Some(short) = (0..least.len()).find(|i| case.sizes[*i] < least[*i]) {
        notes.reason = ["result", "work", "message"][short];
        return refuse(1, 0, String::new());
    }
    let (mut given, mut trees) = (Vec::new(), Vec::new());
    for (i, (bytes, root)) in case.tapes.iter().zip(case.operation.roots()).enumerate() {
        let longest_name = case.operation.longest_name(i, case.file);
        let (as_given, rewritten) = read(bytes, *root, longest_name).map_err(|unread| refusal_of(unread, notes))?;
        given.push(as_given);
        trees.push(rewritten);
    }
    (notes.given, notes.trees) = (given, trees.clone());
    match (case.operation, &trees[..]) {
        (Operation::Check, [definition]) => check(definition).map(|()| Made::Nothing),
        (Operation::Registry, [definitions]) => registry(definitions).map(|()| Made::Nothing),
        (Operation::CheckLibrary, [definitions]) => {
            registry(definitions)?;
            Ok(Made::List(refused(definitions)))
        }
        (Operation::CheckAt, [definitions]) => {
            registry(definitions)?;
            let at = definitions.children.get(case.index as usize);
            at.map_or(Ok(()), check).map(|()| Made::Nothing)
        }
        (Operation::Substitute, [definition, call]) => walk.substitute_whole(definition, call).map(Made::Tree),
        (Operation::Expand | Operation::Preview, [definitions, condition]) => {
            registry(definitions)?;
            walk.expand_whole(definitions, condition).map(Made::Tree)
        }
        (Operation::Judge, [definitions, condition, supplied]) => {
            registry(definitions)?;
            let ours = walk.expand_whole(definitions, condition)?;
            notes.ours = Some(ours.clone());
            let inputs = [definitions, condition];
            match judge::difference(&ours, supplied, &judge::names(inputs)) {
                Some((why, code)) => {
                    notes.judged = Some(why);
                    refuse_for((code, 0), 50, 0, String::new())
                }
                None => {
                    notes.judged = Some(judge::kind_of_yes(&ours, supplied, &judge::other_texts(inputs)));
                    Ok(Made::Tree(ours))
                }
            }
        }
        (Operation::Merge, [first, second]) => {
            registry(first)?;
            registry(second)?;
            walk.merge(first, second).map(Made::Tree)
        }
        (Operation::Older, [tree]) => match tape::older(tree) {
            Some(older) => Ok(Made::Tree(older)),
            None => refuse(52, 0, String::new()),
        },
        (Operation::Sheet, []) => Ok(Made::List(sheet::lines(&case.tapes[0]).into_bytes())),
        (Operation::Provider, [_]) => Ok(Made::Nothing),
        (Operation::ArgumentToTerm, [argument]) => match provider::term_of(argument) {
            Some(term) => Ok(Made::Tree(term)),
            None => refuse(56, 0, String::new()),
        },
        (Operation::TermToArgument, [term]) => match provider::argument_of(term) {
            Some(argument) => Ok(Made::Tree(argument)),
            None => refuse(58, 0, String::new()),
        },
        (Operation::Profile, [condition]) => profile(condition).map(|()| Made::Nothing),
        _ => unreachable!("a case has as many tapes as its operation has roots"),
    }
}

/// The tree of a tape as it stands there, and without Or.
pub fn read(bytes: &[u8], root: Sort, longest_name: usize) -> Result<(Node, Node), Unread> {
    let given = tape::accept(bytes, root, longest_name)?;
    let rewritten = tape::withdrawn(&given);
    match tape::over_rewritten(&rewritten) {
        Some(over) => Err(Unread::TooLarge(over)),
        None => Ok((given, rewritten)),
    }
}

fn refusal_of(unread: Unread, notes: &mut Notes) -> Refusal {
    let (number, reason) = match unread {
        Unread::Malformed(reason) => (2, reason),
        Unread::TooLarge(over) => {
            notes.over_by = over.by;
            (3, over.figure)
        }
    };
    notes.reason = reason;
    Refusal { number, span: 0, message: String::new(), cause: (0, 0) }
}

// ------------------------------------------------------------------ parts of trees

pub fn name(node: &Node) -> &[u8] {
    &node.children[0].text
}

/// The parameters' names, in order: behind each 42 a 40.
fn parameters(definition: &Node) -> impl Iterator<Item = &[u8]> {
    definition.children[1].children.iter().skip(1).step_by(2).map(|p| p.text.as_slice())
}

fn body(definition: &Node) -> &Node {
    &definition.children[2]
}

fn arguments(call: &Node) -> &[Node] {
    &call.children[1].children
}

/// The children in the order in which check and substitution come to them: in a Since the within is first.
fn in_walking_order(node: &Node) -> Vec<usize> {
    match node.code {
        6 => vec![1, 0, 2],
        _ => (0..node.children.len()).collect(),
    }
}

/// The node with every child remade, in walking order.
fn remake(node: &Node, mut child: impl FnMut(&Node) -> Result<Node, Refusal>) -> Result<Node, Refusal> {
    let mut children: Vec<Option<Node>> = vec![None; node.children.len()];
    for i in in_walking_order(node) {
        children[i] = Some(child(&node.children[i])?);
    }
    Ok(Node { text: node.text.clone(), ..Node::new(node.code, node.value, children.into_iter().flatten().collect()) })
}

/// The span that is answered for what stands in `node`, if `around` is the one outside.
fn span_in(node: &Node, around: u64) -> u64 {
    match node.code {
        1..=13 | 34..=36 => node.value,
        _ => around,
    }
}

// ------------------------------------------------------------------ check and registry

const RESERVED: [&str; 16] = [
    "decimal", "datetime", "duration", "ip", "let", "in", "where", "for", "sum", "count", "tp", "formerly", "previous",
    "since", "true", "false",
];

pub fn registry(definitions: &Node) -> Result<(), Refusal> {
    let definitions = &definitions.children;
    for (i, definition) in definitions.iter().enumerate() {
        let own = name(definition);
        if RESERVED.iter().any(|r| r.as_bytes() == own) {
            return refuse(10, definition.value, message::reserved(own));
        }
        if let Some(first) = definitions[..i].iter().find(|d| name(d) == own) {
            return refuse(11, definition.value, message::duplicate(own, tape::span_start(first.value)));
        }
    }
    Ok(())
}

/// The refused definitions of a library: place, number, start and end of each.
fn refused(definitions: &Node) -> Vec<u8> {
    let verdicts = definitions.children.iter().map(check).enumerate();
    verdicts.filter_map(|(i, verdict)| verdict.err().map(|r| listed(i, r.number, r.span))).flatten().collect()
}

/// How a refused definition stands in the list.
pub fn listed(place: usize, number: u64, span: u64) -> [u8; 16] {
    let mut entry = [0; 16];
    let words = [place as u64, number, tape::span_start(span), tape::span_end(span)];
    for (word, bytes) in words.into_iter().zip(entry.as_chunks_mut::<4>().0) {
        *bytes = (word as u32).to_le_bytes();
    }
    entry
}

pub fn check(definition: &Node) -> Result<(), Refusal> {
    let mut declared: Vec<&[u8]> = parameters(definition).collect();
    declared.sort();
    declared.dedup();
    check_below(body(definition), 0, &declared)
}

fn check_below(node: &Node, around: u64, declared: &[&[u8]]) -> Result<(), Refusal> {
    let span = span_in(node, around);
    match node.code {
        11 | 36 => refuse_for((node.code, 0), 22, span, message::call_in_body()),
        32 | 44 | 52 | 58 if !declared.contains(&node.text.as_slice()) => {
            refuse_for((node.code, 0), 20, span, message::undeclared(&node.text, declared))
        }
        27 | 43 => refuse_for((node.code, 0), 21, span, message::plain_identifier(&node.text)),
        _ => in_walking_order(node).into_iter().try_for_each(|i| check_below(&node.children[i], span, declared)),
    }
}

// ------------------------------------------------------------------ the walks

/// The budget, the figures that hold, and what came to pass.
pub struct Walk {
    limit: u64,
    file: u16,
    largest: Largest,
    pub charged: u64,
    pub charges: usize,
    /// The definitions whose calls were substituted.
    calls: Vec<usize>,
    pub too_large: Option<TooLarge>,
    /// The measures of every 54 with its expanded arguments, and of every outcome, in the order they were taken.
    pub measured: Vec<(Measured, Measure)>,
    events: BTreeSet<&'static str>,
    over: Option<Over>,
}

/// A definition and a call of it, in a file.
struct Substitution<'a> {
    definition: &'a Node,
    call: &'a Node,
    file: u16,
}

impl Substitution<'_> {
    fn span(&self) -> u64 {
        self.call.value
    }

    fn macro_name(&self) -> &[u8] {
        name(self.definition)
    }

    /// The argument of the parameter that a `?` names; the last one's, if the name stands twice.
    fn argument(&self, sigil: &Node, span: u64) -> Result<&Node, Refusal> {
        let named = |(parameter, _): &(&[u8], &Node)| *parameter == sigil.text;
        match parameters(self.definition).zip(arguments(self.call)).filter(named).last() {
            Some((_, argument)) => Ok(argument),
            None => refuse_for((sigil.code, 0), 41, span, message::unbound(self.macro_name(), &sigil.text)),
        }
    }

    fn generated(&self, code: u8, binder: &[u8]) -> Node {
        Node::with_text(code, &generated_name(binder, tape::span_start(self.span()), self.file))
    }
}

/// The name that a `$` binder becomes: the file number stands in it unless it is 0.
pub fn generated_name(binder: &[u8], start: u64, file: u16) -> Vec<u8> {
    let end = if file == 0 { format!("${start}") } else { format!("${start}#{file}") };
    [binder, end.as_bytes()].concat()
}

impl Walk {
    pub fn new(limit: u64, file: u16, largest: Largest) -> Walk {
        Walk {
            limit,
            file,
            largest,
            charged: 0,
            charges: 0,
            calls: vec![],
            too_large: None,
            measured: vec![],
            events: BTreeSet::new(),
            over: None,
        }
    }

    /// Charges for a body (60) or an argument (54).
    fn charge(&mut self, whose: u8, nodes: u64, span: u64) -> Result<(), Refusal> {
        if self.charged + nodes > self.limit {
            return refuse_for((whose, 0), 35, span, message::budget(self.limit));
        }
        self.charged += nodes;
        self.charges += 1;
        Ok(())
    }

    /// Whether a tree that was made is over a figure. A tree that was made never has more 54s on a path than were read.
    fn is_over(&mut self, what: Measured, tree: &Node) -> bool {
        let m = tape::measure(tree);
        assert!(m.calls <= LARGEST_CALLS, "a result with {} 54s on a path", m.calls);
        self.measured.push((what, m));
        self.over = m.over(&self.largest);
        self.over.is_some()
    }

    fn merge(&mut self, first: &Node, second: &Node) -> Result<Node, Refusal> {
        let merged = merge::merged(first, second)?;
        if self.is_over(Measured::Whole, &merged) {
            self.too_large = Some(TooLarge::Merged);
            return refuse(3, 0, String::new());
        }
        Ok(merged)
    }

    // -------------------------------------------------------------- substitution

    pub fn substitute_whole(&mut self, definition: &Node, call: &Node) -> Result<Node, Refusal> {
        let span = call.value;
        if body(definition).code == 61 {
            return refuse(31, span, message::cedar_macro(name(call), false));
        }
        check_arity(definition, call)?;
        let result = self.substitute(definition, call)?;
        if self.is_over(Measured::Whole, &result) {
            self.too_large = Some(TooLarge::Whole { result });
            return refuse(3, span, String::new());
        }
        Ok(result)
    }

    /// Charges the body and walks it.
    fn substitute(&mut self, definition: &Node, call: &Node) -> Result<Node, Refusal> {
        let body = &body(definition).children[0];
        self.charge(60, tape::size(body), call.value)?;
        self.substitute_below(body, call.value, &Substitution { definition, call, file: self.file })
    }

    fn substitute_below(&mut self, node: &Node, around: u64, s: &Substitution) -> Result<Node, Refusal> {
        let span = span_in(node, around);
        match node.code {
            11 | 36 => refuse_for((node.code, 0), 48, span, String::new()),
            12 => self.substitute_sigil(&node.children[0], span, s),
            13 => {
                let base = self.substitute_below(&node.children[1], span, s)?;
                let fields = self.substitute_below(&node.children[2], span, s)?;
                self.events.insert("a refinement in a body");
                fold(base, fields, node.children[0].value)
            }
            32 => match s.argument(node, span)? {
                argument if argument.code == 56 => self.paste(&argument.children[0], s),
                other => refuse_for((32, other.code), 45, span, message::not_a_term(s.macro_name(), &node.text)),
            },
            33 => Ok(s.generated(27, &node.text)),
            44 => match s.argument(node, span)? {
                argument if argument.children[0].code == 27 => Ok(Node::with_text(43, &argument.children[0].text)),
                other => {
                    refuse_for((44, other.code), 46, s.span(), message::not_an_identifier(s.macro_name(), &node.text))
                }
            },
            45 => Ok(s.generated(43, &node.text)),
            52 => match s.argument(node, span)? {
                argument if argument.code == 57 => Ok(argument.children[0].clone()),
                other => refuse_for((52, other.code), 44, span, message::not_an_interval(s.macro_name(), &node.text)),
            },
            _ => remake(node, |child| self.substitute_below(child, span, s)),
        }
    }

    fn substitute_sigil(&mut self, sigil: &Node, span: u64, s: &Substitution) -> Result<Node, Refusal> {
        if sigil.code == 59 {
            return refuse(43, span, message::binder_as_condition(&sigil.text));
        }
        match s.argument(sigil, span)? {
            argument if argument.code == 55 => self.paste(&argument.children[0], s),
            other => refuse_for((58, other.code), 42, span, message::not_a_condition(s.macro_name(), &sigil.text)),
        }
    }

    fn paste(&mut self, argument: &Node, s: &Substitution) -> Result<Node, Refusal> {
        self.charge(54, tape::size(argument), s.span())?;
        Ok(argument.clone())
    }

    // -------------------------------------------------------------- expansion

    pub fn expand_whole(&mut self, definitions: &Node, condition: &Node) -> Result<Node, Refusal> {
        let result = self.expand_condition(condition, &definitions.children)?;
        if self.is_over(Measured::Whole, &result) {
            self.too_large = Some(TooLarge::Whole { result });
            return refuse(3, 0, String::new());
        }
        Ok(result)
    }

    fn expand_condition(&mut self, node: &Node, definitions: &[Node]) -> Result<Node, Refusal> {
        let span = node.value;
        match node.code {
            11 => self.expand_call(&node.children[0], false, definitions),
            12 => {
                let sigil = &node.children[0];
                refuse_for((sigil.code, 0), 36, span, message::stray(sigil.code == 59, &sigil.text, ""))
            }
            13 => {
                let base = self.expand_condition(&node.children[1], definitions)?;
                self.events.insert("a refinement outside bodies");
                fold(base, node.children[2].clone(), node.children[0].value)
            }
            7 => {
                node.children[4].children.iter().skip(1).step_by(2).try_for_each(|t| concrete_field(t, span))?;
                Ok(node.clone())
            }
            _ => remake(node, |child| match child.code {
                1..=13 => self.expand_condition(child, definitions),
                20..=33 => self.expand_operand(child, definitions),
                _ => concrete(child, span).map(|()| child.clone()),
            }),
        }
    }

    fn expand_operand(&mut self, node: &Node, definitions: &[Node]) -> Result<Node, Refusal> {
        match node.code {
            30 if node.children[0].code == 36 => self.expand_call(&node.children[0].children[0], true, definitions),
            30 => remake(node, |aggregate| {
                remake(aggregate, |child| match child.code {
                    1..=13 => self.expand_condition(child, definitions),
                    _ => concrete(child, aggregate.value).map(|()| child.clone()),
                })
            }),
            31 => remake(node, |side| self.expand_operand(side, definitions)),
            32 | 33 => {
                refuse_for((node.code, 0), 40, 0, message::stray(node.code == 33, &node.text, message::IN_OPERAND))
            }
            _ => Ok(node.clone()),
        }
    }

    fn expand_call(&mut self, call: &Node, as_value: bool, definitions: &[Node]) -> Result<Node, Refusal> {
        let span = call.value;
        let own = name(call);
        let Some(place) = definitions.iter().position(|d| name(d) == own) else {
            return refuse(30, span, message::unknown_macro(own));
        };
        let definition = &definitions[place];
        match (body(definition).code, as_value) {
            (61, _) => {
                return refuse_for((if as_value { 36 } else { 11 }, 0), 31, span, message::cedar_macro(own, as_value));
            }
            (63, false) => return refuse(32, span, message::value_as_condition(own)),
            (62, true) => return refuse(33, span, message::condition_as_value(own)),
            _ => {}
        }
        check_arity(definition, call)?;
        let mut expanded = call.clone();
        for (i, argument) in arguments(call).iter().enumerate() {
            expanded.children[1].children[i] = self.expand_argument(argument, definitions)?;
        }
        if self.is_over(Measured::Call, &expanded) {
            self.too_large = Some(TooLarge::Call { body: tape::size(body(definition)) });
            return refuse(3, span, String::new());
        }
        let charged_before = self.charged;
        let outcome = self.substitute(definition, &expanded)?;
        if self.is_over(Measured::Outcome, &outcome) {
            let (definition, call) = (definition.clone(), expanded);
            self.too_large = Some(TooLarge::Outcome { definition, call, outcome, charged_before });
            return refuse(3, span, String::new());
        }
        self.calls.push(place);
        Ok(outcome)
    }

    /// A bare call of a value macro becomes a term.
    fn expand_argument(&mut self, argument: &Node, definitions: &[Node]) -> Result<Node, Refusal> {
        let inner = &argument.children[0];
        let is_value = |call: &Node| definitions.iter().any(|d| name(d) == name(call) && body(d).code == 63);
        let made = match argument.code {
            55 if inner.code == 11 && is_value(&inner.children[0]) => {
                let term = self.expand_call(&inner.children[0], true, definitions)?;
                self.events.insert("a bare call of a value macro");
                return Ok(Node::new(56, 0, vec![term]));
            }
            55 => self.expand_condition(inner, definitions)?,
            56 => self.expand_operand(inner, definitions)?,
            _ => inner.clone(),
        };
        Ok(Node::new(argument.code, 0, vec![made]))
    }
}

fn check_arity(definition: &Node, call: &Node) -> Result<(), Refusal> {
    let (wanted, got) = (definition.children[1].value, call.children[1].value);
    if wanted == got {
        return Ok(());
    }
    let cause = (60, if got < wanted { 0 } else { 54 });
    refuse_for(cause, 34, call.value, message::argument_count(name(definition), wanted, got))
}

/// The fields go behind those of the predicate that the base has become.
fn fold(mut base: Node, fields: Node, span: u64) -> Result<Node, Refusal> {
    if base.code != 7 {
        return refuse_for((13, base.code), 47, span, message::not_a_predicate(&base));
    }
    base.children[4].value += fields.value;
    base.children[4].children.extend(fields.children);
    Ok(base)
}

/// A slot, a within, or a list of binders without sigils.
fn concrete(node: &Node, span: u64) -> Result<(), Refusal> {
    match node.code {
        52 => refuse(37, span, message::stray(false, &node.text, message::IN_WITHIN)),
        44 | 45 => refuse_for((node.code, 0), 38, span, message::stray(node.code == 45, &node.text, message::IN_SLOT)),
        _ => node.children.iter().try_for_each(|child| concrete(child, span)),
    }
}

/// A field's term: only arrays are entered.
fn concrete_field(term: &Node, span: u64) -> Result<(), Refusal> {
    match term.code {
        32 | 33 => refuse_for((term.code, 0), 39, span, message::stray(term.code == 33, &term.text, message::IN_FIELD)),
        29 => term.children.iter().try_for_each(|t| concrete_field(t, span)),
        _ => Ok(()),
    }
}
