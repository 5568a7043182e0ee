//! Upstream's answer: trees of a tape as upstream's trees, upstream's functions run on them, and their trees back.

use crate::judge::Names;
use crate::message;
use crate::model;
use crate::tape::{self, Node};
use dogwood::ast::{MacroBody, MacroDef, MacroParam};
use dogwood::error::Span;
use dogwood::extension::provider::ast::{Arg, MethodCall};
use dogwood::extension::temporal::ast::{
    AggExpr, AggExprKind, ArithOp, BinderSlot, Call, CallArg, CmpOp, Condition, ConditionKind, Interval, NamedArg,
    Predicate, Sigil, Term, TimeUnit, Type, TypedBinder, WithinSpec,
};
use dogwood::macros::adapter::{self, Ended, Outcome, Ran};

pub use dogwood::macros::adapter::Reach;

/// What a run of upstream came to, in the terms of document 01.
#[derive(Clone, Debug, PartialEq, Eq)]
pub struct Run {
    pub end: End,
    pub charged: u64,
    pub charges: usize,
    /// The charge that was refused because the run was to stop there.
    pub halted_at: Option<u64>,
}

#[derive(Clone, Debug, PartialEq, Eq)]
pub enum End {
    /// Check and registry pass.
    Passed,
    Tree(Node),
    /// The refused definitions of a library that passes as a registry.
    Listed(Vec<u8>),
    Refused {
        number: u64,
        span: u64,
        message: String,
    },
    /// `unreachable!` at a call in a body: 48, whose span upstream does not say.
    CallInBody,
    /// An end that document 01 has no number for.
    Unknown(String),
}

// ------------------------------------------------------------------ the four operations

pub fn check(definition: &Node) -> Run {
    plain(adapter::check(&macro_def(definition)))
}

pub fn registry(definitions: &Node) -> Run {
    plain(adapter::registry(&macro_defs(definitions)))
}

/// A registry, then each of its definitions alone.
pub fn check_library(definitions: &Node) -> Run {
    let mut run = registry(definitions);
    if run.end == End::Passed {
        let verdicts = definitions.children.iter().map(|definition| check(definition).end).enumerate();
        let refused = verdicts.filter_map(|(i, end)| match end {
            End::Passed => None,
            End::Refused { number, span, .. } => Some(model::listed(i, number, span)),
            other => unreachable!("a check ends so: {other:?}"),
        });
        run.end = End::Listed(refused.flatten().collect());
    }
    run
}

/// A registry, then one of its definitions alone.
pub fn check_at(definitions: &Node, index: u32) -> Run {
    let run = registry(definitions);
    match definitions.children.get(index as usize) {
        Some(definition) if run.end == End::Passed => check(definition),
        _ => run,
    }
}

pub fn substitute(definition: &Node, call: &Node, reach: Reach) -> Run {
    ran(adapter::substitute(&macro_def(definition), &macro_call(call), reach), |outcome| match outcome {
        Outcome::Condition(c) => condition_node(&c),
        Outcome::Term(t) => term_node(&t),
    })
}

pub fn expand(definitions: &Node, condition: &Node, reach: Reach) -> Run {
    let tree = self::condition(condition);
    ran(adapter::expand(&macro_defs(definitions), tree, reach), |c| condition_node(&c))
}

/// The places of the definitions whose calls an expansion that succeeds has substituted.
pub fn calls(definitions: &Node, condition: &Node) -> Result<Vec<usize>, String> {
    adapter::charged_bodies(&macro_defs(definitions), self::condition(condition)).map_err(|e| format!("{e:?}"))
}

// ------------------------------------------------------------------ names of other files

/// The tree with another start for every 54, so that a run on it gives every generated name another number.
pub fn with_other_starts(node: &Node) -> Node {
    let value = if node.code == 54 { node.value ^ 1 } else { node.value };
    let children = node.children.iter().map(with_other_starts).collect();
    Node { text: node.text.clone(), ..Node::new(node.code, value, children) }
}

/// Upstream knows no file numbers. Above 0 its generated names get theirs: they are those that differ in a run on trees with
/// other starts.
pub fn lengthened(run: Run, other: impl FnOnce() -> Run, file: u16) -> Run {
    match run.end {
        End::Tree(tree) if file > 0 => {
            let End::Tree(other) = other().end else { unreachable!("a start decides nothing but names") };
            Run { end: End::Tree(lengthen(&tree, &other, file)), ..run }
        }
        _ => run,
    }
}

/// Whether a name of a result was generated, by what stands there in the result from other starts.
fn is_generated(node: &Node, other: &Node) -> bool {
    matches!(node.code, 27 | 43) && node.text != other.text
}

/// The names that an expansion which succeeds generates and keeps.
pub fn generated_names(definitions: &Node, condition: &Node, file: u16) -> Names {
    let run = |definitions: &Node, condition: &Node| expand(definitions, condition, Reach::limit(usize::MAX)).end;
    let others = [definitions, condition].map(with_other_starts);
    let (End::Tree(tree), End::Tree(other)) = (run(definitions, condition), run(&others[0], &others[1])) else {
        unreachable!("it succeeds")
    };
    let [mut ours, mut others] = [Vec::new(), Vec::new()];
    tree.visit(&mut |node| ours.push(node));
    other.visit(&mut |node| others.push(node));
    let end = if file == 0 { String::new() } else { format!("#{file}") };
    let generated = ours.iter().zip(&others).filter(|(node, other)| is_generated(node, other));
    generated.map(|(node, _)| [&node.text, end.as_bytes()].concat()).collect()
}

fn lengthen(node: &Node, other: &Node, file: u16) -> Node {
    if is_generated(node, other) {
        let end = format!("#{file}");
        return Node::with_text(node.code, &[&node.text, end.as_bytes()].concat());
    }
    let children = node.children.iter().zip(&other.children).map(|(c, o)| lengthen(c, o, file)).collect();
    Node { text: node.text.clone(), ..Node::new(node.code, node.value, children) }
}

fn plain(result: Result<(), Ended>) -> Run {
    Run {
        end: match result {
            Ok(()) => End::Passed,
            Err(ended) => end_of(ended),
        },
        charged: 0,
        charges: 0,
        halted_at: None,
    }
}

fn ran<T>(ran: Ran<T>, tree: impl FnOnce(T) -> Node) -> Run {
    Run {
        end: match ran.outcome {
            Ok(t) => End::Tree(tree(t)),
            Err(ended) => end_of(ended),
        },
        charged: ran.charged as u64,
        charges: ran.charges,
        halted_at: ran.halted_at.map(|n| n as u64),
    }
}

fn end_of(ended: Ended) -> End {
    match ended {
        Ended::Refused { message, span } => match message::number(&message) {
            Some(number) => End::Refused { number, span: span_value(span), message },
            None => End::Unknown(message),
        },
        Ended::Panicked(text) if text.ends_with("macro-in-macro should have been rejected") => End::CallInBody,
        Ended::Panicked(text) => End::Unknown(format!("panicked: {text}")),
    }
}

/// Keeps the panics of `work`, which are caught, off the standard error output.
pub fn quiet_panics() {
    let before = std::panic::take_hook();
    std::panic::set_hook(Box::new(move |info| {
        let expected = info.payload_as_str().is_some_and(|text| text.contains("macro-in-macro"));
        if !expected {
            before(info);
        }
    }));
}

// ------------------------------------------------------------------ from a tape's tree to upstream's

fn span(value: u64) -> Span {
    Span::new(tape::span_start(value) as usize, tape::span_end(value) as usize)
}

fn text(node: &Node) -> String {
    String::from_utf8(node.text.clone()).expect("text on a tape is UTF-8")
}

fn texts(nodes: &[Node]) -> Vec<String> {
    nodes.iter().map(text).collect()
}

pub fn macro_defs(definitions: &Node) -> Vec<MacroDef> {
    definitions.children.iter().map(macro_def).collect()
}

pub fn macro_def(node: &Node) -> MacroDef {
    let body = &node.children[2];
    MacroDef {
        span: span(node.value),
        name: text(&node.children[0]),
        params: node.children[1]
            .children
            .chunks(2)
            .map(|p| MacroParam { span: span(p[0].value), name: text(&p[1]) })
            .collect(),
        body: match body.code {
            61 => adapter::cedar_body(),
            62 => MacroBody::TemporalCondition(condition(&body.children[0])),
            _ => MacroBody::TemporalValue(term(&body.children[0])),
        },
    }
}

pub fn macro_call(node: &Node) -> Call {
    Call {
        span: span(node.value),
        name: text(&node.children[0]),
        args: node.children[1].children.iter().map(argument).collect(),
    }
}

fn argument(node: &Node) -> CallArg {
    let inner = &node.children[0];
    match node.code {
        55 => CallArg::Condition(condition(inner)),
        56 => CallArg::Term(term(inner)),
        _ => CallArg::Within(interval(inner)),
    }
}

pub fn condition(node: &Node) -> Condition {
    Condition { span: span(node.value), kind: condition_kind(node) }
}

fn condition_kind(node: &Node) -> ConditionKind {
    let parts = &node.children;
    let boxed = |i: usize| Box::new(condition(&parts[i]));
    match node.code {
        1 => ConditionKind::And { left: boxed(0), right: boxed(1) },
        2 => ConditionKind::Or { left: boxed(0), right: boxed(1) },
        3 => ConditionKind::Not { inner: boxed(0) },
        4 => ConditionKind::Formerly { within: within(&parts[0]), body: boxed(1) },
        5 => ConditionKind::Previous { within: within(&parts[0]), body: boxed(1) },
        6 => ConditionKind::Since { left: boxed(0), within: within(&parts[1]), right: boxed(2) },
        7 => ConditionKind::Predicate(Predicate {
            span: span(parts[0].value),
            namespace: texts(&parts[1].children),
            action: text(&parts[2]),
            kind: text(&parts[3]),
            args: fields(&parts[4]),
        }),
        8 => ConditionKind::Comparison { op: comparison(&parts[0]), left: term(&parts[1]), right: term(&parts[2]) },
        9 => ConditionKind::Exists {
            var: TypedBinder { slot: slot(&parts[0]), ty: binder_type(&parts[1]) },
            body: boxed(2),
        },
        10 => ConditionKind::Tp { var: slot(&parts[0]) },
        11 => ConditionKind::Call(macro_call(&parts[0])),
        12 => ConditionKind::SigilRef {
            sigil: if parts[0].code == 58 { Sigil::Param } else { Sigil::Binder },
            name: text(&parts[0]),
        },
        _ => ConditionKind::Refine { base: boxed(1), fields: fields(&parts[2]), span: span(parts[0].value) },
    }
}

fn fields(list: &Node) -> Vec<NamedArg> {
    list.children.chunks(2).map(|f| NamedArg { name: text(&f[0]), value: term(&f[1]) }).collect()
}

fn comparison(node: &Node) -> CmpOp {
    [CmpOp::Le, CmpOp::Lt, CmpOp::Ge, CmpOp::Gt, CmpOp::Eq, CmpOp::NotEq][node.value as usize]
}

fn slot(node: &Node) -> BinderSlot {
    match node.code {
        43 => BinderSlot::Name(text(node)),
        44 => BinderSlot::ParamRef(text(node)),
        _ => BinderSlot::BinderRef(text(node)),
    }
}

fn binder_type(node: &Node) -> Type {
    match node.code {
        46 => Type::Timepoint,
        _ => Type::Named(texts(&node.children)),
    }
}

fn binders(list: &Node) -> Vec<TypedBinder> {
    list.children.chunks(2).map(|b| TypedBinder { slot: slot(&b[0]), ty: binder_type(&b[1]) }).collect()
}

fn within(node: &Node) -> WithinSpec {
    match node.code {
        52 => WithinSpec::ParamRef(text(node)),
        _ => WithinSpec::Concrete(interval(node)),
    }
}

/// Upstream has no weeks.
fn interval(node: &Node) -> Interval {
    let unit = [TimeUnit::Seconds, TimeUnit::Minutes, TimeUnit::Hours, TimeUnit::Days][usize::from(node.code - 48)];
    Interval { amount: node.value as i64, unit }
}

fn term(node: &Node) -> Term {
    let parts = &node.children;
    match node.code {
        20 => Term::Entity { ty: text(&parts[0]), id: text(&parts[1]) },
        21 => Term::Integer(node.value as i64),
        22 => Term::Decimal(text(node)),
        23 => Term::String(text(node)),
        24 => Term::Bool(node.value == 1),
        25 => Term::ContextField(texts(parts)),
        26 => Term::ScopeField(texts(parts)),
        27 => Term::Var(text(node)),
        28 => Term::Wildcard,
        29 => Term::Array(parts.iter().map(term).collect()),
        30 => Term::Agg(Box::new(aggregate(&parts[0]))),
        31 => Term::Arith {
            op: [ArithOp::Add, ArithOp::Sub, ArithOp::Mul][node.value as usize],
            left: Box::new(term(&parts[0])),
            right: Box::new(term(&parts[1])),
        },
        32 => Term::ParamRef(text(node)),
        _ => Term::BinderRef(text(node)),
    }
}

fn aggregate(node: &Node) -> AggExpr {
    let parts = &node.children;
    let kind = match node.code {
        34 => AggExprKind::Sum {
            bound_var: slot(&parts[0]),
            for_vars: binders(&parts[1]),
            body: Box::new(condition(&parts[2])),
        },
        35 => AggExprKind::Count { for_vars: binders(&parts[0]), body: Box::new(condition(&parts[1])) },
        _ => AggExprKind::Call(macro_call(&parts[0])),
    };
    AggExpr { span: span(node.value), kind }
}

// ------------------------------------------------------------------ provider calls

/// A provider tape's tree through upstream's types and back.
pub fn provider_tree(node: &Node) -> Node {
    match node.code {
        70 => {
            let args = node.children[1].children.iter().map(provider_argument).collect();
            let call = MethodCall { span: span(node.value), name: text(&node.children[0]), args };
            let list = Node::counted(41, 1, call.args.iter().map(argument_node).collect());
            Node::new(70, span_value(call.span), vec![text_node(40, &call.name), list])
        }
        _ => argument_node(&provider_argument(node)),
    }
}

fn provider_argument(node: &Node) -> Arg {
    match node.code {
        71 => Arg::Field(texts(&node.children)),
        72 => Arg::String(text(node)),
        73 => Arg::Integer(node.value as i64),
        74 => Arg::Decimal(text(node)),
        75 => Arg::Bool(node.value == 1),
        _ => Arg::Set(node.children.iter().map(provider_argument).collect()),
    }
}

fn argument_node(argument: &Arg) -> Node {
    match argument {
        Arg::Field(path) => texts_node(71, path),
        Arg::String(text) => text_node(72, text),
        Arg::Integer(n) => Node::new(73, *n as u64, vec![]),
        Arg::Decimal(text) => text_node(74, text),
        Arg::Bool(b) => Node::new(75, u64::from(*b), vec![]),
        Arg::Set(items) => Node::counted(76, 1, items.iter().map(argument_node).collect()),
    }
}

/// An argument of upstream's as a term of upstream's, a set becoming an array.
pub fn argument_as_term(node: &Node) -> Option<Node> {
    fn turn(argument: &Arg) -> Option<Term> {
        Some(match argument {
            Arg::Field(_) => return None,
            Arg::String(text) => Term::String(text.clone()),
            Arg::Integer(n) => Term::Integer(*n),
            Arg::Decimal(text) => Term::Decimal(text.clone()),
            Arg::Bool(b) => Term::Bool(*b),
            Arg::Set(items) => Term::Array(items.iter().map(turn).collect::<Option<_>>()?),
        })
    }
    turn(&provider_argument(node)).map(|term| term_node(&term))
}

/// A term of upstream's as an argument of upstream's.
pub fn term_as_argument(node: &Node) -> Option<Node> {
    fn turn(term: &Term) -> Option<Arg> {
        Some(match term {
            Term::String(text) => Arg::String(text.clone()),
            Term::Integer(n) => Arg::Integer(*n),
            Term::Decimal(text) => Arg::Decimal(text.clone()),
            Term::Bool(b) => Arg::Bool(*b),
            Term::Array(items) => Arg::Set(items.iter().map(turn).collect::<Option<_>>()?),
            _ => return None,
        })
    }
    turn(&term(node)).map(|argument| argument_node(&argument))
}

// ------------------------------------------------------------------ and back

fn span_value(s: Span) -> u64 {
    s.start as u64 | (s.end as u64) << 32
}

fn text_node(code: u8, text: &str) -> Node {
    Node::with_text(code, text.as_bytes())
}

fn texts_node(code: u8, texts: &[String]) -> Node {
    Node::counted(code, 1, texts.iter().map(|t| text_node(40, t)).collect())
}

fn call_node(call: &Call) -> Node {
    let arguments = call
        .args
        .iter()
        .map(|argument| match argument {
            CallArg::Condition(c) => Node::new(55, 0, vec![condition_node(c)]),
            CallArg::Term(t) => Node::new(56, 0, vec![term_node(t)]),
            CallArg::Within(i) => Node::new(57, 0, vec![interval_node(i)]),
        })
        .collect();
    Node::new(54, span_value(call.span), vec![text_node(40, &call.name), Node::counted(41, 1, arguments)])
}

pub fn condition_node(c: &Condition) -> Node {
    let (code, parts) = match &c.kind {
        ConditionKind::And { left, right } => (1, vec![condition_node(left), condition_node(right)]),
        ConditionKind::Or { left, right } => (2, vec![condition_node(left), condition_node(right)]),
        ConditionKind::Not { inner } => (3, vec![condition_node(inner)]),
        ConditionKind::Formerly { within, body } => (4, vec![within_node(within), condition_node(body)]),
        ConditionKind::Previous { within, body } => (5, vec![within_node(within), condition_node(body)]),
        ConditionKind::Since { left, within, right } => {
            (6, vec![condition_node(left), within_node(within), condition_node(right)])
        }
        ConditionKind::Predicate(p) => {
            let place = Node::new(42, span_value(p.span), vec![]);
            let (action, kind) = (text_node(40, &p.action), text_node(40, &p.kind));
            (7, vec![place, texts_node(41, &p.namespace), action, kind, fields_node(&p.args)])
        }
        ConditionKind::Comparison { op, left, right } => {
            (8, vec![Node::new(53, *op as u64, vec![]), term_node(left), term_node(right)])
        }
        ConditionKind::Exists { var, body } => {
            (9, vec![slot_node(&var.slot), type_node(&var.ty), condition_node(body)])
        }
        ConditionKind::Tp { var } => (10, vec![slot_node(var)]),
        ConditionKind::Call(call) => (11, vec![call_node(call)]),
        ConditionKind::SigilRef { sigil, name } => {
            (12, vec![text_node(if *sigil == Sigil::Param { 58 } else { 59 }, name)])
        }
        ConditionKind::Refine { base, fields, span } => {
            (13, vec![Node::new(42, span_value(*span), vec![]), condition_node(base), fields_node(fields)])
        }
    };
    Node::new(code, span_value(c.span), parts)
}

fn fields_node(fields: &[NamedArg]) -> Node {
    Node::counted(41, 2, fields.iter().flat_map(|f| [text_node(40, &f.name), term_node(&f.value)]).collect())
}

fn slot_node(slot: &BinderSlot) -> Node {
    match slot {
        BinderSlot::Name(name) => text_node(43, name),
        BinderSlot::ParamRef(name) => text_node(44, name),
        BinderSlot::BinderRef(name) => text_node(45, name),
    }
}

fn type_node(ty: &Type) -> Node {
    match ty {
        Type::Timepoint => Node::new(46, 0, vec![]),
        Type::Named(path) => texts_node(47, path),
    }
}

fn binders_node(binders: &[TypedBinder]) -> Node {
    Node::counted(41, 2, binders.iter().flat_map(|b| [slot_node(&b.slot), type_node(&b.ty)]).collect())
}

fn within_node(within: &WithinSpec) -> Node {
    match within {
        WithinSpec::Concrete(i) => interval_node(i),
        WithinSpec::ParamRef(name) => text_node(52, name),
    }
}

fn interval_node(i: &Interval) -> Node {
    Node::new(48 + i.unit as u8, i.amount as u64, vec![])
}

pub fn term_node(t: &Term) -> Node {
    match t {
        Term::Entity { ty, id } => Node::new(20, 0, vec![text_node(40, ty), text_node(40, id)]),
        Term::Integer(n) => Node::new(21, *n as u64, vec![]),
        Term::Decimal(text) => text_node(22, text),
        Term::String(text) => text_node(23, text),
        Term::Bool(b) => Node::new(24, u64::from(*b), vec![]),
        Term::ContextField(path) => texts_node(25, path),
        Term::ScopeField(path) => texts_node(26, path),
        Term::Var(name) => text_node(27, name),
        Term::Wildcard => Node::new(28, 0, vec![]),
        Term::Array(items) => Node::counted(29, 1, items.iter().map(term_node).collect()),
        Term::Agg(agg) => Node::new(30, 0, vec![aggregate_node(agg)]),
        Term::Arith { op, left, right } => Node::new(31, *op as u64, vec![term_node(left), term_node(right)]),
        Term::ParamRef(name) => text_node(32, name),
        Term::BinderRef(name) => text_node(33, name),
    }
}

fn aggregate_node(a: &AggExpr) -> Node {
    let (code, parts) = match &a.kind {
        AggExprKind::Sum { bound_var, for_vars, body } => {
            (34, vec![slot_node(bound_var), binders_node(for_vars), condition_node(body)])
        }
        AggExprKind::Count { for_vars, body } => (35, vec![binders_node(for_vars), condition_node(body)]),
        AggExprKind::Call(call) => (36, vec![call_node(call)]),
    };
    Node::new(code, span_value(a.span), parts)
}
