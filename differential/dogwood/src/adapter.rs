//! The way in to the private functions of macros/mod.rs: a child module of it.
//!
//! Nothing is decided here. Each function calls upstream's own functions in the order that document 01 names.

use super::*;
use dogwood_syntax::MARK;

/// What a run of upstream came to.
pub struct Ran<T> {
    pub outcome: Result<T, Ended>,
    /// The sum of the charges that were made, and how many there were.
    pub charged: usize,
    pub charges: usize,
    /// The charge that was refused because the run was to stop there.
    pub halted_at: Option<usize>,
}

/// Why a run of upstream gave no tree.
#[derive(Debug, Clone)]
pub enum Ended {
    Refused { message: String, span: Span },
    /// A panic, with its text.
    Panicked(String),
}

impl From<RawMacroError> for Ended {
    fn from(e: RawMacroError) -> Self {
        Ended::Refused {
            message: e.message,
            span: e.span,
        }
    }
}

/// What substitution answers: a definition's body decides whether it is a condition or a term.
pub enum Outcome {
    Condition(Condition),
    Term(Term),
}

/// How far a run may go: the limit of the budget, and the number of charges after which it is to stop.
#[derive(Clone, Copy)]
pub struct Reach {
    pub limit: usize,
    pub charges: usize,
}

impl Reach {
    pub fn limit(limit: usize) -> Self {
        Reach {
            limit,
            charges: usize::MAX,
        }
    }

    fn options(self) -> ParseOptions {
        ParseOptions {
            max_nodes: self.limit,
            ..ParseOptions::default()
        }
    }
}

/// Any Cedar body: document 01 leaves them out, and every function here passes or refuses one unread.
pub fn cedar_body() -> MacroBody {
    let principal = ExprKind::Var(cedar_policy_core::ast::Var::Principal);
    MacroBody::Cedar(Expr::new(principal, Span::new(0, 0)))
}

/// `check_def`.
pub fn check(def: &MacroDef) -> Result<(), Ended> {
    let registry = Registry::build(&[], &ParseOptions::default())?;
    Ok(check_def(def, &registry)?)
}

/// `Registry::build`.
pub fn registry(defs: &[MacroDef]) -> Result<(), Ended> {
    Registry::build(defs, &ParseOptions::default())?;
    Ok(())
}

/// `Registry::build`, then `expand_temporal_condition`.
pub fn expand(defs: &[MacroDef], mut condition: Condition, reach: Reach) -> Ran<Condition> {
    match Registry::build(defs, &reach.options()) {
        Ok(registry) => run(registry, reach, |registry| {
            expand_temporal_condition(&mut condition, registry)?;
            Ok(condition)
        }),
        Err(e) => Ran {
            outcome: Err(e.into()),
            charged: 0,
            charges: 0,
            halted_at: None,
        },
    }
}

/// The definitions whose bodies an expansion that succeeds has charged, in that order: each body is charged with a number
/// that says whose it is. `charge_body` takes the number from `body_nodes`.
pub fn charged_bodies(defs: &[MacroDef], mut condition: Condition) -> Result<Vec<usize>, Ended> {
    let mut registry = Registry::build(defs, &ParseOptions::default())?;
    registry.body_nodes = defs.iter().enumerate().map(|(i, def)| (def.name.as_str(), (i + 1) * MARK)).collect();
    expand_temporal_condition(&mut condition, &mut registry)?;
    Ok(registry.budget.marks().iter().map(|mark| mark / MARK - 1).collect())
}

/// Substitution of one definition and one call, names not compared, arguments as given. The front is that of
/// `expand_temporal_call_to_condition` and `expand_temporal_call_to_value` without their expansion of the arguments.
/// A Cedar body goes to the former, which refuses it before it looks at anything else.
pub fn substitute(def: &MacroDef, call: &Call, reach: Reach) -> Ran<Outcome> {
    let registry = Registry {
        by_name: BTreeMap::from([(call.name.clone(), def)]),
        body_nodes: BTreeMap::new(),
        budget: NodeBudget::new(reach.limit),
        max_depth: usize::MAX,
    };
    run(registry, reach, |registry| match &def.body {
        MacroBody::Cedar(_) => Ok(Outcome::Condition(expand_temporal_call_to_condition(call.clone(), registry)?)),
        MacroBody::TemporalCondition(body) => {
            check_arity(def, call.args.len(), call.span)?;
            registry.charge_body(def, call.span)?;
            Ok(Outcome::Condition(substitute_temporal_condition(body.clone(), def, registry, call)?))
        }
        MacroBody::TemporalValue(body) => {
            check_arity(def, call.args.len(), call.span)?;
            registry.charge_body(def, call.span)?;
            Ok(Outcome::Term(substitute_temporal_value(body.clone(), def, registry, call)?))
        }
    })
}

/// Runs `walk` and catches upstream's `unreachable!`. The registry outlives the panic, so its budget can be read.
fn run<'a, T>(
    mut registry: Registry<'a>,
    reach: Reach,
    walk: impl FnOnce(&mut Registry<'a>) -> Result<T, RawMacroError>,
) -> Ran<T> {
    registry.budget.stop_after(reach.charges);
    let walked = std::panic::catch_unwind(std::panic::AssertUnwindSafe(|| walk(&mut registry)));
    let outcome = match walked {
        Ok(outcome) => outcome.map_err(Ended::from),
        Err(payload) => Err(Ended::Panicked(text_of(payload))),
    };
    Ran {
        outcome,
        charged: registry.budget.charged(),
        charges: registry.budget.charges(),
        halted_at: registry.budget.halted_at(),
    }
}

fn text_of(payload: Box<dyn std::any::Any + Send>) -> String {
    match payload.downcast::<String>() {
        Ok(text) => *text,
        Err(payload) => match payload.downcast::<&str>() {
            Ok(text) => text.to_string(),
            Err(_) => String::new(),
        },
    }
}
