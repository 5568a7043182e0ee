//! Check, substitution and expansion.

use super::accept::Largest;
use super::fault::Fault;
use differential::message;
use differential::tape::{self, Node};

pub struct Refused {
    pub number: u64,
    pub span: u64,
    pub message: String,
}

pub fn refuse<T>(number: u64, span: u64, message: String) -> Result<T, Refused> {
    Err(Refused { number, span, message })
}

type Walked<T> = Result<T, Refused>;

pub fn name(node: &Node) -> &[u8] {
    &node.children[0].text
}

fn parameters(definition: &Node) -> Vec<&[u8]> {
    definition.children[1].children.chunks(2).map(|pair| pair[1].text.as_slice()).collect()
}

fn body(definition: &Node) -> &Node {
    &definition.children[2]
}

fn arguments(call: &Node) -> &[Node] {
    &call.children[1].children
}

pub struct Walk<'a> {
    pub fault: Fault,
    pub limit: u64,
    pub file: u16,
    pub definitions: &'a [Node],
    pub charged: u64,
    /// The places of the definitions whose calls were substituted.
    pub calls: Vec<usize>,
    /// How many names were generated, and how many calls were met, for those that get these wrong.
    named: usize,
    met: usize,
    /// How many calls are around the place that is walked.
    inside: usize,
}

impl<'a> Walk<'a> {
    pub fn new(fault: Fault, limit: u32, file: u16, definitions: &'a [Node]) -> Walk<'a> {
        let limit = u64::from(limit);
        Walk { fault, limit, file, definitions, charged: 0, calls: vec![], named: 0, met: 0, inside: 0 }
    }

    fn has(&self, fault: Fault) -> bool {
        self.fault == fault
    }

    /// One for each condition, term and aggregate.
    fn size(&self, node: &Node) -> u64 {
        let own = match node.code {
            1..=13 | 20..=36 => 1,
            48..=51 | 64 => u64::from(self.has(Fault::IntervalCounted)),
            _ => 0,
        };
        let sum = own + node.children.iter().map(|child| self.size(child)).sum::<u64>();
        // What stands for an Or is four nodes.
        let is_or =
            node.code == 3 && node.children[0].code == 1 && node.children[0].children.iter().all(|c| c.code == 3);
        if self.has(Fault::OrCountedOnce) && is_or { sum - 3 } else { sum }
    }

    fn charge(&mut self, nodes: u64, span: u64) -> Walked<()> {
        let reached = self.charged + nodes;
        let is_over = if self.has(Fault::BudgetShort) { reached >= self.limit } else { reached > self.limit };
        if !is_over || self.has(Fault::BudgetAdded) {
            self.charged = reached;
        }
        if is_over { refuse(35, span, message::budget(self.limit)) } else { Ok(()) }
    }

    pub fn fits(&self, tree: &Node) -> bool {
        let measure = tape::measure(tree);
        Largest::of(self.fault).hold(&measure) && !(self.has(Fault::ResultShort) && measure.entries == 1024)
    }

    /// The children with the within of a Since first, where it is to come first.
    fn order(&self, node: &Node) -> Vec<usize> {
        match node.code {
            6 if !self.has(Fault::LeftFirst) => vec![1, 0, 2],
            _ => (0..node.children.len()).collect(),
        }
    }

    fn remake(&mut self, node: &Node, mut child: impl FnMut(&mut Self, &Node) -> Walked<Node>) -> Walked<Node> {
        let mut made = node.clone();
        for i in self.order(node) {
            made.children[i] = child(self, &node.children[i])?;
        }
        Ok(made)
    }

    // -------------------------------------------------------------- check

    pub fn check(&self, definition: &Node) -> Walked<()> {
        let mut declared = parameters(definition);
        if !self.has(Fault::DeclaredAsGiven) {
            declared.sort();
            declared.dedup();
        }
        match self.fault {
            Fault::PassesAll => Ok(()),
            Fault::RefusesAll => refuse(20, 0, message::undeclared(b"x", &declared)),
            _ => self.check_below(body(definition), 0, &declared),
        }
    }

    fn check_below(&self, node: &Node, around: u64, declared: &[&[u8]]) -> Walked<()> {
        let span = span_in(node, around);
        match node.code {
            11 | 36 => refuse(22, span, message::call_in_body()),
            59 if self.has(Fault::BinderRefusedAtCheck) => refuse(43, span, message::binder_as_condition(&node.text)),
            32 | 44 | 52 | 58 if !declared.contains(&node.text.as_slice()) => {
                refuse(20, span, message::undeclared(&node.text, declared))
            }
            27 | 43 => refuse(21, span, message::plain_identifier(&node.text)),
            _ => self.order(node).into_iter().try_for_each(|i| self.check_below(&node.children[i], span, declared)),
        }
    }

    // -------------------------------------------------------------- substitution

    /// One definition and one call, its arguments as given.
    pub fn substitute_alone(&mut self, definition: &Node, call: &Node) -> Walked<Node> {
        if self.has(Fault::CedarAfterCount) {
            count_arguments(definition, call)?;
        }
        if body(definition).code == 61 {
            return refuse(31, call.value, message::cedar_macro(name(call), false));
        }
        count_arguments(definition, call)?;
        self.charge_body(definition, call)?;
        let result = self.substitute(definition, call)?;
        if self.fits(&result) { Ok(result) } else { refuse(3, call.value, String::new()) }
    }

    fn charge_body(&mut self, definition: &Node, call: &Node) -> Walked<()> {
        let size = self.size(&body(definition).children[0]);
        self.charge(size, call.value)
    }

    fn substitute(&mut self, definition: &Node, call: &Node) -> Walked<Node> {
        self.substitute_below(&body(definition).children[0], call.value, definition, call)
    }

    fn substitute_below(&mut self, node: &Node, around: u64, definition: &Node, call: &Node) -> Walked<Node> {
        let span = span_in(node, around);
        let own = name(definition);
        match node.code {
            11 | 36 => refuse(48, span, String::new()),
            12 if node.children[0].code == 59 => refuse(43, span, message::binder_as_condition(&node.children[0].text)),
            12 => match self.argument(&node.children[0], span, definition, call)? {
                argument if argument.code == 55 => self.paste(&argument.children[0], call),
                _ => refuse(42, span, message::not_a_condition(own, &node.children[0].text)),
            },
            13 => {
                let base = self.substitute_below(&node.children[1], span, definition, call)?;
                let fields = self.substitute_below(&node.children[2], span, definition, call)?;
                self.fold(base, fields, node.children[0].value)
            }
            32 => match self.argument(node, span, definition, call)? {
                argument if argument.code == 56 => self.paste(&argument.children[0], call),
                _ => refuse(45, span, message::not_a_term(own, &node.text)),
            },
            33 => Ok(self.generated(27, &node.text, call)),
            44 => match self.argument(node, span, definition, call)? {
                argument if argument.children[0].code == 27 => Ok(Node::with_text(43, &argument.children[0].text)),
                _ => refuse(46, call.value, message::not_an_identifier(own, &node.text)),
            },
            45 => Ok(self.generated(43, &node.text, call)),
            52 => match self.argument(node, span, definition, call)? {
                argument if argument.code == 57 => Ok(argument.children[0].clone()),
                _ => refuse(44, span, message::not_an_interval(own, &node.text)),
            },
            _ => self.remake(node, |walk, child| walk.substitute_below(child, span, definition, call)),
        }
    }

    fn argument<'n>(&self, sigil: &Node, span: u64, definition: &Node, call: &'n Node) -> Walked<&'n Node> {
        let names = parameters(definition);
        let mut places = names.iter().zip(arguments(call)).filter(|(parameter, _)| **parameter == sigil.text);
        let found = if self.has(Fault::FirstParameter) { places.next() } else { places.next_back() };
        match found {
            Some((_, argument)) => Ok(argument),
            None => refuse(41, span, message::unbound(name(definition), &sigil.text)),
        }
    }

    fn paste(&mut self, argument: &Node, call: &Node) -> Walked<Node> {
        self.charge(self.size(argument), call.value)?;
        Ok(argument.clone())
    }

    /// The name of a binder: itself, `$`, the call's start, and the file number unless that is 0.
    fn generated(&mut self, code: u8, binder: &[u8], call: &Node) -> Node {
        let start = match self.fault {
            Fault::NameFromEnd => tape::span_end(call.value),
            Fault::StartCut => tape::span_start(call.value) & 0xFFFF,
            Fault::BinderNamedTwice => tape::span_start(call.value) + self.named as u64,
            _ => tape::span_start(call.value),
        };
        self.named += 1;
        let mut text = [binder, format!("${start}").as_bytes()].concat();
        if self.file != 0 && !self.has(Fault::FileForgotten) || self.has(Fault::FileZeroWritten) {
            text.extend(format!("#{}", self.file).into_bytes());
        }
        if self.has(Fault::NameCut) {
            text.truncate(64);
        }
        Node::with_text(code, &text)
    }

    /// A refinement's fields go behind those of its predicate.
    fn fold(&self, mut base: Node, fields: Node, span: u64) -> Walked<Node> {
        if base.code != 7 {
            return refuse(47, span, message::not_a_predicate(&base));
        }
        let own = std::mem::take(&mut base.children[4].children);
        let is_new = |pair: &&[Node]| !fields.children.chunks(2).any(|field| field[0] == pair[0]);
        let all = match self.fault {
            Fault::FieldsBefore => [fields.children, own].concat(),
            Fault::FieldsMerged => own.chunks(2).filter(is_new).flatten().chain(&fields.children).cloned().collect(),
            _ => [own, fields.children].concat(),
        };
        base.children[4] = Node::counted(41, 2, all);
        Ok(base)
    }

    // -------------------------------------------------------------- expansion

    pub fn expand(&mut self, node: &Node) -> Walked<Node> {
        let span = node.value;
        match node.code {
            11 => self.call(node, false),
            12 => refuse(36, span, message::stray(node.children[0].code == 59, &node.children[0].text, "")),
            13 => {
                if self.has(Fault::RefinementInspected) {
                    concrete_fields(&node.children[2], span)?;
                }
                let base = self.expand(&node.children[1])?;
                self.fold(base, node.children[2].clone(), node.children[0].value)
            }
            7 => concrete_fields(&node.children[4], span).map(|()| node.clone()),
            _ => self.remake(node, |walk, child| match child.code {
                1..=13 => walk.expand(child),
                20..=33 => walk.operand(child),
                _ => concrete(child, span).map(|()| child.clone()),
            }),
        }
    }

    fn operand(&mut self, node: &Node) -> Walked<Node> {
        match node.code {
            30 if node.children[0].code == 36 => self.call(&node.children[0], true),
            30 => self.remake(node, |walk, aggregate| {
                walk.remake(aggregate, |walk, child| match child.code {
                    1..=13 => walk.expand(child),
                    _ => concrete(child, aggregate.value).map(|()| child.clone()),
                })
            }),
            31 => self.remake(node, |walk, side| walk.operand(side)),
            32 | 33 => refuse(40, 0, message::stray(node.code == 33, &node.text, message::IN_OPERAND)),
            _ => Ok(node.clone()),
        }
    }

    /// The outcome of the call in an 11 or a 36.
    fn call(&mut self, around: &Node, as_value: bool) -> Walked<Node> {
        let call = &around.children[0];
        self.met += 1;
        if self.has(Fault::FirstCallOnly) && self.met > 1 {
            return Ok(if as_value { Node::new(30, 0, vec![around.clone()]) } else { around.clone() });
        }
        if self.has(Fault::BudgetAtOnce) {
            return refuse(35, call.value, message::budget(self.limit));
        }
        let found = self.definitions.iter().position(|definition| name(definition) == name(call));
        let Some(place) = found.filter(|_| !self.has(Fault::RefusesCalls)) else {
            return refuse(30, call.value, message::unknown_macro(name(call)));
        };
        let definition = &self.definitions[place];
        self.resolve(definition, call, as_value)?;
        let mut outcome = self.outcome(definition, call)?;
        if self.has(Fault::OutcomeHasCallSpan) && !as_value {
            outcome.value = call.value;
        }
        if !(self.has(Fault::CountsNestedForgotten) && self.inside > 0) {
            self.calls.push(place);
        }
        Ok(outcome)
    }

    /// The arguments expanded, the body charged and substituted.
    fn outcome(&mut self, definition: &Node, call: &Node) -> Walked<Node> {
        let charge_first = self.has(Fault::BodyBeforeArguments);
        if charge_first {
            self.charge_body(definition, call)?;
        }
        let expanded = self.arguments(definition, call)?;
        if self.has(Fault::CountLast) {
            count_arguments(definition, call)?;
        }
        if !self.fits(&expanded) {
            return refuse(3, call.value, String::new());
        }
        if !charge_first {
            self.charge_body(definition, &expanded)?;
        }
        let outcome = self.substitute(definition, &expanded)?;
        if self.fits(&outcome) { Ok(outcome) } else { refuse(3, call.value, String::new()) }
    }

    /// 31, 32 or 33; 34.
    fn resolve(&self, definition: &Node, call: &Node, as_value: bool) -> Walked<()> {
        let (span, own) = (call.value, name(call));
        if self.has(Fault::CedarAfterCount) {
            count_arguments(definition, call)?;
        }
        match (body(definition).code, as_value) {
            (61, _) => refuse(31, span, message::cedar_macro(own, as_value)),
            (63, false) => refuse(32, span, message::value_as_condition(own)),
            (62, true) => refuse(33, span, message::condition_as_value(own)),
            _ if self.has(Fault::CountLast) => Ok(()),
            _ => count_arguments(definition, call),
        }
    }

    /// The 54 with its arguments expanded.
    fn arguments(&mut self, definition: &Node, call: &Node) -> Walked<Node> {
        let mut expanded = call.clone();
        self.inside += 1;
        for (i, argument) in arguments(call).iter().enumerate() {
            let is_used = || parameters(definition).get(i).is_some_and(|name| uses(body(definition), name));
            if self.has(Fault::UnusedSkipped) && !is_used() {
                continue;
            }
            expanded.children[1].children[i] = self.expand_argument(argument)?;
        }
        self.inside -= 1;
        Ok(expanded)
    }

    /// A bare call of a value macro becomes a term.
    fn expand_argument(&mut self, argument: &Node) -> Walked<Node> {
        let inner = &argument.children[0];
        let is_value = |call: &Node| self.definitions.iter().any(|d| name(d) == name(call) && body(d).code == 63);
        match argument.code {
            55 if inner.code == 11 && is_value(&inner.children[0]) => {
                Ok(Node::new(56, 0, vec![self.call(inner, true)?]))
            }
            55 => Ok(Node::new(55, 0, vec![self.expand(inner)?])),
            56 => Ok(Node::new(56, 0, vec![self.operand(inner)?])),
            _ => Ok(argument.clone()),
        }
    }
}

/// The span that a refusal in a node has, if `around` is the one outside.
fn span_in(node: &Node, around: u64) -> u64 {
    if matches!(node.code, 1..=13 | 34..=36) { node.value } else { around }
}

fn count_arguments(definition: &Node, call: &Node) -> Walked<()> {
    let (wanted, got) = (definition.children[1].value, call.children[1].value);
    if wanted == got {
        return Ok(());
    }
    refuse(34, call.value, message::argument_count(name(definition), wanted, got))
}

/// Whether a `?` of this name stands anywhere in a body.
fn uses(body: &Node, name: &[u8]) -> bool {
    let mut found = false;
    body.visit(&mut |node| found |= matches!(node.code, 32 | 44 | 52 | 58) && node.text == name);
    found
}

/// A slot, a within, or a list of binders, without sigils.
fn concrete(node: &Node, span: u64) -> Walked<()> {
    match node.code {
        52 => refuse(37, span, message::stray(false, &node.text, message::IN_WITHIN)),
        44 | 45 => refuse(38, span, message::stray(node.code == 45, &node.text, message::IN_SLOT)),
        _ => node.children.iter().try_for_each(|child| concrete(child, span)),
    }
}

fn concrete_fields(fields: &Node, span: u64) -> Walked<()> {
    fields.children.chunks(2).try_for_each(|pair| concrete_field(&pair[1], span))
}

/// In a field only arrays are entered.
fn concrete_field(term: &Node, span: u64) -> Walked<()> {
    match term.code {
        32 | 33 => refuse(39, span, message::stray(term.code == 33, &term.text, message::IN_FIELD)),
        29 => term.children.iter().try_for_each(|term| concrete_field(term, span)),
        _ => Ok(()),
    }
}
