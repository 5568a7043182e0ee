//! Every mistake of a file of rules: what cannot be read, what the names and the body checks of macros are refused for, and
//! what each rule is refused for, each with its place.
//!
//! The expander tells one refusal of a tape, the first. To find those behind it the refused part is replaced by one that
//! passes, and the expander is asked again; so nothing is called a mistake here that it did not refuse.

mod bodies;
mod names;
mod repair;
mod report;
mod rules;
mod unfit;

pub use names::joined;
pub use report::{json, text};
pub use rules::large;

use super::input::{File, Rules};
use crate::archive::Expander;
use crate::figures::{self, Passed, Whose};
use crate::notation::{self, Mistake, Once, Place, Placed};
use crate::numbers;
use crate::reading;
use crate::response::Response;
use differential::case::{Case, Operation};
use differential::tape::{self, Sort};
use std::collections::{BTreeMap, BTreeSet};

/// A place in one of the files.
#[derive(Clone, Copy, Debug, PartialEq, Eq, PartialOrd, Ord)]
pub struct At {
    pub file: usize,
    pub place: Place,
}

/// What a mistake lies in.
#[derive(Clone, Debug, PartialEq, Eq)]
pub enum Within {
    /// The text, of which nothing can be made there.
    Text,
    Macros,
    Macro(String),
    Rule(String),
}

#[derive(Clone, Debug, PartialEq, Eq)]
pub struct Finding {
    pub at: Option<At>,
    /// The refusal's number; a text that cannot be read has none.
    pub number: Option<u64>,
    pub what: String,
    pub within: Within,
    /// Another place that belongs to it, and what is there.
    pub other: Option<(At, String)>,
    pub meant: Option<String>,
    /// What passes a figure, and which.
    pub passed: Option<(Whose, Passed)>,
}

impl Finding {
    fn refused(number: u64, what: String, within: Within, at: Option<At>) -> Finding {
        Finding { at, number: Some(number), what, within, other: None, meant: None, passed: None }
    }

    fn unread(file: usize, mistake: &Mistake) -> Finding {
        let at = At { file, place: Place::new(mistake.start, mistake.end) };
        let (what, meant) = (mistake.what.clone(), mistake.meant.clone());
        Finding { at: Some(at), number: None, what, within: Within::Text, other: None, meant, passed: None }
    }
}

/// Added to the places of macros, so that the span of an answer tells them from those of rules.
const SHIFT: usize = 1 << 31;

/// What looks for mistakes, and what it has found.
pub struct Search<'a> {
    pub rules: &'a Rules,
    pub expander: &'a mut Expander,
    pub limit: u32,
    pub file: u16,
    findings: Vec<Finding>,
    /// The places of what was added, with the numbers.
    known: BTreeSet<(Option<At>, Option<u64>)>,
    macros: Vec<Macro>,
}

/// A macro, repaired where it was refused.
struct Macro {
    tree: Placed,
    /// Whether rules can be asked with it. Calls of others are passed over.
    is_callable: bool,
}

impl Macro {
    fn name(&self) -> &[u8] {
        &self.tree.children[0].text
    }

    fn shown(&self) -> String {
        notation::name(self.name())
    }
}

impl<'a> Search<'a> {
    pub fn new(rules: &'a Rules, expander: &'a mut Expander, limit: u32, file: u16) -> Search<'a> {
        let macros = rules.macros.iter().map(|tree| Macro { tree: tree.clone(), is_callable: true }).collect();
        Search { rules, expander, limit, file, findings: vec![], known: BTreeSet::new(), macros }
    }

    /// Every mistake, in the order of the files.
    pub fn all(mut self) -> Result<Vec<Finding>, String> {
        let rules = self.rules;
        rules.mistakes.iter().for_each(|(file, mistake)| self.findings.push(Finding::unread(*file, mistake)));
        self.findings.extend(twice(rules));
        self.figures_of_macros();
        self.names()?;
        self.bodies()?;
        for i in 0..rules.conditions.len() {
            self.rule(i)?;
        }
        self.findings.sort_by_key(|finding| (finding.at.is_none(), finding.at));
        Ok(self.findings)
    }

    /// What the registry is refused for by itself, if it is that number.
    pub fn registry_refusal(&mut self, number: u64) -> Result<Option<Finding>, String> {
        match number {
            2 | 3 => self.figures_of_macros(),
            _ => self.names()?,
        }
        Ok(self.taken(|finding| finding.number == Some(number)))
    }

    /// The first of the weeks that have no number of days, in a rule or, without one, in the macros.
    pub fn weeks(&self, rule: Option<usize>) -> Option<Finding> {
        let is_refused = |node: &Placed| node.code == 64 && tape::older(&node.node()).is_none();
        let finding = |tree: &Placed, file: usize, within: Within| {
            let place = tree.find(&is_refused)?.place;
            Some(Finding::refused(52, numbers::meaning(52).to_string(), within, Some(At { file, place })))
        };
        let Some(i) = rule else {
            return self.macros.iter().find_map(|own| finding(&own.tree, 0, Within::Macro(own.shown())));
        };
        let condition = &self.rules.conditions[i];
        finding(condition.tree.as_ref()?, condition.file, Within::Rule(condition.name.clone()))
    }

    /// What a rule is refused for, by an operation on the registry and the rule that walks as expansion does.
    pub fn refusal(mut self, i: usize, case: &Case, response: &Response) -> Result<Finding, String> {
        let found = self.first(i, case, response)?;
        let within = Within::Rule(self.rules.conditions[i].name.clone());
        let found = found.or_else(|| self.unreadable_tape(i, case, response));
        let mut finding = found.unwrap_or_else(|| Finding::refused(response.number(), response.said(), within, None));
        // What was asked for the place has other spans, if they are written; the answer's own message counts.
        if !response.message.is_empty() {
            finding.what = response.said();
        }
        Ok(finding)
    }

    /// What a rule is refused for by an operation on its tape alone, as it was given.
    pub fn own_refusal(&self, i: usize, case: &Case, response: &Response) -> Option<Finding> {
        let passed = figures::explained(case).map(|(_, passed)| passed);
        let is_it = |finding: &Finding| {
            finding.number == Some(response.number()) && finding.passed.map(|(_, own)| own) == passed
        };
        self.figures_of_rule(i).into_iter().find(is_it).or_else(|| self.unreadable_tape(i, case, response))
    }

    /// What a tape is refused for that cannot be read: the figure that its sizes pass, or the entry that shows that it is no
    /// tree, or none with the root that is wanted last.
    pub fn unreadable_tape(&self, i: usize, case: &Case, response: &Response) -> Option<Finding> {
        let condition = self.rules.conditions.get(i).filter(|_| matches!(response.number(), 2 | 3))?;
        let File::Tape(_) = self.rules.files[condition.file] else { return None };
        let wanted = *case.operation.roots().last()?;
        let tree = reading::tree(&condition.tape, Sort::Any).and_then(|_| reading::tree(&condition.tape, wanted));
        let why = tree.err()?;
        let within = Within::Rule(condition.name.clone());
        let mut finding = Finding::refused(response.number(), response.said(), within, None);
        match figures::explained(case) {
            Some((whose, passed)) => {
                finding.what = format!("{}: {}", finding.what, large(whose, &passed));
                finding.passed = Some((whose, passed));
            }
            None => {
                let at = |entry| At { file: condition.file, place: Place::new(entry, entry + 1) };
                finding.what = format!("{}: {why}", finding.what);
                finding.at = why.entry.map(at);
            }
        }
        Some(finding)
    }

    fn first(&mut self, i: usize, case: &Case, response: &Response) -> Result<Option<Finding>, String> {
        let number = response.number();
        let tape = match figures::explained(case) {
            Some((Whose::Tape(tape), passed)) => Some((tape, passed)),
            _ => None,
        };
        match (number, tape) {
            (10 | 11, _) => self.names()?,
            (2, _) => {
                self.figures_of_macros();
                self.findings.extend(self.figures_of_rule(i));
            }
            (_, Some((0, _))) => self.figures_of_macros(),
            (_, Some((1, _))) => self.findings.extend(self.figures_of_rule(i)),
            (_, Some((_, passed))) => {
                let what = format!("over a largest figure: the tape given has {}", passed.said());
                let mut finding = Finding::refused(number, what, Within::Text, None);
                finding.passed = Some((Whose::Tape(2), passed));
                return Ok(Some(finding));
            }
            _ => self.walk_refused(i, number)?,
        }
        let is_it = |finding: &Finding| match (finding.passed, tape) {
            (Some((_, own)), Some((_, passed))) => own.figure == passed.figure && own.is == passed.is,
            _ => tape.is_none(),
        };
        Ok(self.taken(|finding| finding.number == Some(number) && is_it(finding)))
    }

    /// Adds what was not found before.
    fn add(&mut self, finding: Finding) {
        if self.known.insert((finding.at, finding.number)) || finding.at.is_none() {
            self.findings.push(finding);
        }
    }

    /// The first of what was found that is as wanted; the rest goes.
    fn taken(&mut self, is_wanted: impl Fn(&Finding) -> bool) -> Option<Finding> {
        self.known.clear();
        self.findings.drain(..).find(is_wanted)
    }

    /// The macro that a place is in.
    fn macro_around(&self, place: Place) -> Option<usize> {
        self.macros.iter().position(|own| own.tree.place.holds(place))
    }

    fn case(&self, operation: Operation, tapes: Vec<Vec<u8>>) -> Case {
        let limit = if operation.charges() { self.limit } else { 0 };
        let file = if operation.charges() { self.file } else { 0 };
        Case { file, ..Case::new(operation, limit, tapes) }
    }

    /// What is asked of trees whose spans are their places.
    fn placed_case(&self, operation: Operation, trees: &[&Placed]) -> Case {
        let shift = |tree: &Placed| if matches!(tree.code, 41 | 60) { SHIFT } else { 0 };
        self.case(operation, trees.iter().map(|tree| tape::encode(&tree.with_places(shift(tree)))).collect())
    }

    fn ask(&mut self, operation: Operation, trees: &[&Placed]) -> Response {
        let case = self.placed_case(operation, trees);
        self.expander.answer(&case)
    }
}

/// What is to stand once and stands again, each with the first one. Rules of two files are chosen by their names together.
fn twice(rules: &Rules) -> Vec<Finding> {
    let (mut first, mut findings) = (BTreeMap::new(), Vec::new());
    for (file, once, place) in &rules.once {
        let (own_file, what) = match once {
            Once::Rule(_) => (None, "a second rule of this name, so that `--rule` finds neither"),
            Once::Limit => (Some(file), "a second `limit`, which counts in the place of the first"),
            Once::File => (Some(file), "a second `file`, which counts in the place of the first"),
        };
        let at = At { file: *file, place: *place };
        let first = *first.entry((own_file, once)).or_insert(at);
        if first != at {
            let mistake = Mistake::new(place.start, place.end, what);
            let other = Some((first, "the first one".to_string()));
            findings.push(Finding { other, ..Finding::unread(*file, &mistake) });
        }
    }
    findings
}

/// The span of an answer as a place, and whether that is in the macros.
fn place_of(response: &Response) -> (Place, bool) {
    place_at(response.words[1] as usize, response.words[2] as usize)
}

fn place_at(start: usize, end: usize) -> (Place, bool) {
    match start.checked_sub(SHIFT) {
        Some(start) => (Place::new(start, end - SHIFT), true),
        None => (Place::new(start, end), false),
    }
}

#[cfg(test)]
mod tests {
    use super::*;
    use crate::notation::{Rule, Spans};
    use differential::generate;

    /// On generated macros and rules a mistake is told exactly if the expander refuses the names, a body or the rule; the
    /// number that it refuses first is among those told; and every place is in the text.
    #[test]
    fn mistakes_are_what_the_expander_refuses() {
        let (mut numbers, mut right) = (std::collections::BTreeSet::new(), 0);
        let mut expander = Expander::default();
        for case in (0..12_000).map(|index| generate::case(5, index)).filter(|case| case.operation == Operation::Expand)
        {
            let [registry, condition] = [(0, Sort::Definitions), (1, Sort::Condition)]
                .map(|(i, root)| crate::reading::tree(&case.tapes[i], root).ok());
            let (Some(registry), Some(condition)) = (registry, condition) else { continue };
            let rule = Rule { name: None, condition };
            let text = notation::print_items(&registry.children, &[rule], Spans::Hidden);
            let rules = Rules::of_text("f", &text);
            let wanted = refused(&mut expander, &rules, &case);
            let findings = Search::new(&rules, &mut expander, case.limit, case.file).all().expect("operations");
            let told: Vec<u64> = findings.iter().filter_map(|finding| finding.number).collect();
            assert_eq!(told.is_empty(), wanted.is_empty(), "{wanted:?} {told:?}\n{text}");
            let first = wanted.first().copied().unwrap_or(0);
            assert!(first == 0 || told.contains(&first), "{wanted:?} {told:?}\n{text}");
            let is_in_text = |finding: &Finding| finding.at.is_some_and(|at| at.place.end <= text.len());
            assert!(findings.iter().all(is_in_text), "{findings:?}\n{text}");
            numbers.extend(told);
            right += usize::from(wanted.is_empty());
        }
        assert!(right > 100, "{right}");
        let every = [2, 3, 10, 11, 20, 21, 22, 30, 31, 32, 33, 34, 35, 36, 37, 38, 39, 40, 42, 43, 44, 45, 46, 47];
        assert!(every.iter().all(|number| numbers.contains(number)), "{numbers:?}");
    }

    /// What the names, the bodies and the rule are refused with.
    fn refused(expander: &mut Expander, rules: &Rules, case: &Case) -> Vec<u64> {
        let mut ask = |operation: Operation, tapes: Vec<Vec<u8>>| {
            let limit = if operation.charges() { case.limit } else { 0 };
            let file = if operation.charges() { case.file } else { 0 };
            expander.answer(&Case { file, ..Case::new(operation, limit, tapes) }).number()
        };
        let mut numbers = vec![ask(Operation::Registry, vec![rules.registry.clone()])];
        numbers
            .extend(rules.definitions.iter().map(|definition| ask(Operation::Check, vec![tape::encode(definition)])));
        if numbers.iter().all(|number| *number == 0) {
            numbers.push(ask(Operation::Expand, vec![rules.registry.clone(), rules.conditions[0].tape.clone()]));
        }
        // Where something else is refused, the rule is asked for without that.
        numbers.retain(|number| *number != 0);
        numbers
    }
}
