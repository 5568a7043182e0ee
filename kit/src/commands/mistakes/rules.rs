//! What rules are refused for: each is expanded, and behind a refusal expanded again without what was refused.

use super::bodies::parameters;
use super::names::of_tree;
use super::{At, Finding, Search, Within, place_of, repair};
use crate::figures::{self, Figure, Passed, Whose};
use crate::nearest::nearest;
use crate::notation::{self, Place, Placed, Size};
use crate::reading;
use crate::response::Response;
use differential::case::Operation;
use differential::message;
use differential::tape::{self, LARGEST, Measure, Node, Sort};
use std::collections::BTreeSet;

/// A rule, repaired where it was refused.
struct Draft {
    tree: Placed,
    within: Within,
    file: usize,
    repaired: BTreeSet<Place>,
}

impl Draft {
    fn at(&self, place: Place) -> At {
        At { file: self.file, place }
    }

    fn refused(&self, response: &Response, place: Place) -> Finding {
        Finding::refused(response.number(), response.said(), self.within.clone(), Some(self.at(place)))
    }

    fn is_repaired_in(&self, outer: Place) -> bool {
        self.repaired.iter().any(|place| outer.holds(*place))
    }

    /// The first node that is as wanted becomes another one, whose place is known from then on as repaired.
    fn repair(&mut self, is_wanted: impl Fn(&Placed) -> bool, by: impl Fn(&Placed) -> Placed) -> bool {
        self.repaired.extend(self.tree.find(&is_wanted).map(|node| node.place));
        repair::replace(&mut self.tree, &is_wanted, &by)
    }

    /// A condition or a count in the place of a call whose arguments need no more looking at.
    fn without(&mut self, call: &Placed, is_value: bool) -> bool {
        let holds = |node: &Placed| node.children.first() == Some(call);
        let is_bare = |node: &Placed| node.code == 55 && node.children[0].code == 11 && holds(&node.children[0]);
        let bare_value = |node: &Placed| Placed::new(56, 0, node.place, vec![repair::term(node.place)]);
        is_value && self.repair(is_bare, bare_value)
            || self.repair(
                |node| matches!(node.code, 11 | 36) && holds(node),
                |node| match node.code {
                    11 => repair::condition(node.place, 43),
                    _ => repair::aggregate(node.place, 43),
                },
            )
    }
}

/// Every call of a tree, those in the arguments of another one before that one.
fn calls<'a>(node: &'a Placed, into: &mut Vec<&'a Placed>) {
    node.children.iter().for_each(|child| calls(child, into));
    if node.code == 54 {
        into.push(node);
    }
}

impl Search<'_> {
    /// Every mistake of a rule.
    pub fn rule(&mut self, i: usize) -> Result<(), String> {
        let Some(mut draft) = self.draft(i) else { return self.unreadable(i) };
        self.figures_of_rule(i).into_iter().for_each(|finding| self.add(finding));
        // Before names are repaired, since none is called that was not written.
        let is_passed_over = |call: &Placed| self.is_passed_over(&call.children[0]);
        let replaced = repair::without_calls(&mut draft.tree, &is_passed_over, &|name| self.is_value(name));
        draft.repaired.extend(replaced);
        if repair::shorten(&mut draft.tree) {
            draft.repaired.insert(draft.tree.place);
        }
        for _ in 0..=2 * Size::of(&draft.tree).entries {
            let registry = self.called(&draft.tree);
            let response = self.ask(Operation::Expand, &[&registry, &draft.tree]);
            if response.number() == 0 || !self.rule_refused(&mut draft, &registry, &response)? {
                break;
            }
        }
        Ok(())
    }

    /// Ill-formed texts of a rule, and the figures that it passes.
    pub fn figures_of_rule(&self, i: usize) -> Vec<Finding> {
        let Some(draft) = self.draft(i) else { return vec![] };
        let within = |finding| Finding { within: draft.within.clone(), ..finding };
        of_tree(&draft.tree, draft.file).into_iter().map(within).collect()
    }

    /// What the walk of an expansion with all macros refuses first, if it is that number.
    pub fn walk_refused(&mut self, i: usize, number: u64) -> Result<(), String> {
        let Some(mut draft) = self.draft(i) else { return Ok(()) };
        let macros = self.macros.iter().map(|own| own.tree.clone()).collect();
        let registry = Placed::counted(41, 1, Place::default(), macros);
        let response = self.ask(Operation::Expand, &[&registry, &draft.tree]);
        if response.number() == number {
            self.rule_refused(&mut draft, &registry, &response)?;
        }
        Ok(())
    }

    fn draft(&self, i: usize) -> Option<Draft> {
        let condition = &self.rules.conditions[i];
        let within = Within::Rule(condition.name.clone());
        let tree = condition.tree.clone().filter(|tree| tape::codes(Sort::Condition).contains(&tree.code))?;
        Some(Draft { tree, within, file: condition.file, repaired: BTreeSet::new() })
    }

    /// What was given as a condition and is none is refused as it is.
    fn unreadable(&mut self, i: usize) -> Result<(), String> {
        let condition = &self.rules.conditions[i];
        let registry = tape::encode(&Node::counted(41, 1, vec![]));
        let case = self.case(Operation::Expand, vec![registry, condition.tape.clone()]);
        let response = self.expander.answer(&case);
        let within = Within::Rule(condition.name.clone());
        let finding = self.unreadable_tape(i, &case, &response);
        let finding = finding.unwrap_or_else(|| Finding::refused(response.number(), response.said(), within, None));
        self.add(finding);
        Ok(())
    }

    /// The macros that a rule calls.
    fn called(&self, tree: &Placed) -> Placed {
        let mut all = Vec::new();
        calls(tree, &mut all);
        let is_called = |name: &[u8]| all.iter().any(|call| call.children[0].text == name);
        let macros = self.macros.iter().filter(|own| own.is_callable && is_called(own.name()));
        Placed::counted(41, 1, Place::default(), macros.map(|own| own.tree.clone()).collect())
    }

    fn is_value(&self, name: &[u8]) -> bool {
        self.macros.iter().any(|own| own.name() == name && own.tree.children[2].code == 63)
    }

    /// Tells a refusal of a rule unless it comes from a repair, and repairs it. Whether there may be another one.
    fn rule_refused(&mut self, draft: &mut Draft, registry: &Placed, response: &Response) -> Result<bool, String> {
        let (place, is_in_macro) = place_of(response);
        let is_refinement = |node: &Placed| node.code == 13 && node.place == place;
        match response.number() {
            3 => self.too_large(draft, registry, response),
            30..=34 => Ok(self.call_refused(draft, response, place)),
            35 if draft.repaired.is_empty() => {
                self.add(draft.refused(response, place));
                Ok(false)
            }
            36..=40 => Ok(self.stray(draft, response, place)),
            47 if !is_in_macro && draft.tree.find(&is_refinement).is_some() => {
                if !draft.is_repaired_in(place) {
                    self.add(draft.refused(response, place));
                }
                Ok(draft.repair(is_refinement, |node| repair::condition(node.place, 43)))
            }
            41..=48 => self.refused_in_body(draft, registry, response),
            _ => Ok(false),
        }
    }

    // -------------------------------------------------------------- calls

    /// 30 to 34: the arguments were not looked at yet.
    fn call_refused(&mut self, draft: &mut Draft, response: &Response, place: Place) -> bool {
        let is_it = |node: &Placed| node.code == 54 && node.place == place;
        let Some(call) = draft.tree.find(&is_it).cloned() else { return false };
        let name = &call.children[0];
        let shown = if response.number() == 30 { name.place } else { place };
        let mut finding = draft.refused(response, shown);
        if response.number() == 30 {
            finding.meant = self.meant(&name.text);
        }
        let own = self.macros.iter().find(|own| own.is_callable && own.name() == name.text);
        finding.other = own.map(|own| (At { file: 0, place: own.tree.children[0].place }, "defined".to_string()));
        self.add(finding);
        let is_value = |name: &[u8]| self.is_value(name);
        draft.repaired.extend(repair::without_calls(&mut draft.tree, &|node| *node == call, &is_value));
        true
    }

    /// The macro that was probably meant.
    fn meant(&self, name: &[u8]) -> Option<String> {
        let shown = |name: &[u8]| String::from_utf8_lossy(name).to_string();
        let defined = self.rules.macros.iter().map(|definition| shown(&definition.children[0].text));
        let names: Vec<String> = defined.chain(self.rules.unread.iter().map(|name| shown(name))).collect();
        let near = nearest(&shown(name), names.iter().map(String::as_str))?;
        Some(notation::name(near.as_bytes()))
    }

    /// 41 to 48: what a body makes of the arguments. Those that are of a wrong kind are told at the call.
    fn refused_in_body(&mut self, draft: &mut Draft, registry: &Placed, response: &Response) -> Result<bool, String> {
        let Some(call) = self.call_of(draft, registry, response)? else { return Ok(false) };
        let own = registry.children.iter().find(|definition| definition.children[0].text == call.children[0].text);
        let Some(definition) = own.cloned() else { return Ok(false) };
        let is_value = definition.children[2].code == 63;
        let Some((i, sigil)) = wrong_argument(&definition, response) else {
            self.add(self.body_itself(draft, &call, &definition, response));
            return Ok(draft.without(&call, is_value));
        };
        let argument = &call.children[1].children[i];
        // What kind an argument is may come from its own repair, and not from one further in.
        if [argument.place, argument.children[0].place].iter().any(|place| draft.repaired.contains(place)) {
            return Ok(draft.without(&call, is_value));
        }
        let mut finding = draft.refused(response, argument.place);
        let used = format!("`?{}` is used in macro `{}`", notation::name(&sigil.text), name(&definition));
        finding.other = Some((At { file: 0, place: sigil.place }, used));
        self.add(finding);
        let fits = |node: &Placed| match response.number() {
            42 => Placed::new(55, 0, node.place, vec![repair::condition(node.place, 43)]),
            47 => Placed::new(55, 0, node.place, vec![repair::predicate(node.place)]),
            44 => Placed::new(57, 0, node.place, vec![repair::interval(node.place)]),
            _ => Placed::new(56, 0, node.place, vec![repair::term(node.place)]),
        };
        Ok(draft.repair(|node| node == argument, fits))
    }

    /// What is refused in a body whatever the arguments are, or for what they become there.
    fn body_itself(&self, draft: &Draft, call: &Placed, definition: &Placed, response: &Response) -> Finding {
        let (place, is_in_macro) = place_of(response);
        let called = draft.at(call.place);
        let at = if is_in_macro { At { file: 0, place } } else { called };
        let mut finding = draft.refused(response, place);
        finding.at = Some(at);
        finding.within = Within::Macro(name(definition));
        let rule = match &draft.within {
            Within::Rule(name) => format!("called by rule `{}`", notation::visible(name)),
            _ => "called".to_string(),
        };
        finding.other = is_in_macro.then_some((called, rule));
        finding
    }

    /// The call whose body was walked: of those of the macro the first that is refused so alone.
    fn call_of(&mut self, draft: &Draft, registry: &Placed, response: &Response) -> Result<Option<Placed>, String> {
        let (place, is_in_macro) = place_of(response);
        let mut all = Vec::new();
        calls(&draft.tree, &mut all);
        if !is_in_macro {
            return Ok(all.into_iter().find(|call| call.place == place).cloned());
        }
        let Some(i) = self.macro_around(place) else { return Ok(None) };
        let own = self.macros[i].name().to_vec();
        for call in all.into_iter().filter(|call| call.children[0].text == own) {
            let alone = self.ask(Operation::Expand, &[registry, &self.alone(call)]);
            if (alone.number(), place_of(&alone)) == (response.number(), place_of(response)) {
                return Ok(Some(call.clone()));
            }
        }
        Ok(None)
    }

    /// A call as a condition by itself.
    fn alone(&self, call: &Placed) -> Placed {
        match self.is_value(&call.children[0].text) {
            true => repair::comparison(repair::value(call)),
            false => Placed::new(11, 0, call.place, vec![call.clone()]),
        }
    }

    // -------------------------------------------------------------- sigils outside of bodies

    fn stray(&mut self, draft: &mut Draft, response: &Response, place: Place) -> bool {
        let around =
            draft.tree.find(&|node: &Placed| node.place == place && tape::value(node.code) == tape::Value::Span);
        let found = match response.number() {
            36 => draft.tree.find(&|node: &Placed| node.code == 12 && node.place == place),
            37 | 38 => around.and_then(|node| node.children.iter().find_map(sigil_of_slot)),
            39 => around.and_then(|node| node.children.last()).and_then(sigil_of_field),
            _ => sigil_of_operand(&draft.tree),
        };
        let Some(found) = found.cloned() else { return false };
        self.add(draft.refused(response, found.place));
        draft.repair(
            |node| *node == found,
            |node| match node.code {
                12 => repair::condition(node.place, 43),
                52 => repair::interval(node.place),
                44 | 45 => Placed::with_text(43, b"q", node.place),
                _ => repair::term(node.place),
            },
        )
    }

    // -------------------------------------------------------------- 3

    fn too_large(&mut self, draft: &mut Draft, registry: &Placed, response: &Response) -> Result<bool, String> {
        let tapes = vec![registry, &draft.tree];
        let Some((whose, passed)) = figures::explained(&self.placed_case(Operation::Expand, &tapes)) else {
            return Ok(false);
        };
        let (place, _) = place_of(response);
        let is_it = |node: &Placed| node.code == 54 && node.place == place;
        let place = match whose {
            Whose::Call | Whose::Outcome if !draft.is_repaired_in(place) => place,
            Whose::Result if draft.repaired.is_empty() => {
                let tree = draft.tree.clone();
                self.passing(registry, &tree, 0, &mut Measure::default(), passed.figure)?.unwrap_or(tree.place)
            }
            // The figures of the tapes themselves were told before.
            _ => return Ok(false),
        };
        let mut finding = draft.refused(response, place);
        finding.what = format!("{}: {}", finding.what, large(whose, &passed));
        finding.passed = Some((whose, passed));
        self.add(finding);
        let call = draft.tree.find(&is_it).cloned().filter(|_| whose != Whose::Result);
        Ok(call.is_some_and(|call| draft.without(&call, self.is_value(&call.children[0].text))))
    }

    /// The first entry of a condition with which what it becomes passes a figure: a call with all that it becomes is one.
    fn passing(
        &mut self,
        registry: &Placed,
        node: &Placed,
        nesting: usize,
        sum: &mut Measure,
        figure: Figure,
    ) -> Result<Option<Place>, String> {
        let is_call = node.code == 11 || node.code == 30 && node.children[0].code == 36;
        let own = if is_call { self.outcome(registry, node)? } else { own_measure(node) };
        (sum.entries, sum.text) = (sum.entries + own.entries, sum.text + own.text);
        let is_passed = match figure {
            Figure::Entries => sum.entries > LARGEST.entries,
            Figure::Text => sum.text > LARGEST.text,
            _ => nesting + own.nesting > LARGEST.nesting,
        };
        if is_passed {
            return Ok(Some(node.place));
        }
        for child in node.children.iter().filter(|_| !is_call) {
            let found = self.passing(registry, child, nesting + own.nesting, sum, figure)?;
            if found.is_some() {
                return Ok(found);
            }
        }
        Ok(None)
    }

    /// The measure of what a call becomes.
    fn outcome(&mut self, registry: &Placed, node: &Placed) -> Result<Measure, String> {
        let call = if node.code == 11 { &node.children[0] } else { &node.children[0].children[0] };
        let is_value = self.is_value(&call.children[0].text);
        let result = self.ask(Operation::Expand, &[registry, &self.alone(call)]).result;
        let tree = reading::tree(&reading::with_zeros(&result), Sort::Any).ok();
        let made = tree.as_ref().map(|tree| if is_value { &tree.children[1] } else { tree });
        // What is too large beside `== *` is too large for the rest of a condition, too.
        Ok(made.map_or(Measure { entries: LARGEST.entries, ..Measure::default() }, tape::measure))
    }
}

/// What one entry adds, `||` rewritten.
fn own_measure(node: &Placed) -> Measure {
    let (entries, nesting) = if node.code == 2 { (4, 3) } else { (1, usize::from(tape::is_node(node.code))) };
    Measure { entries, text: node.text.len(), nesting, calls: 0 }
}

/// What passes a figure, and how.
pub fn large(whose: Whose, passed: &Passed) -> String {
    let said = passed.said();
    match whose {
        Whose::Tape(_) => said,
        Whose::Call => format!("this call with its arguments expanded has {said}"),
        Whose::Outcome => format!("what this call becomes has {said}"),
        Whose::Result => format!("the result has {said}; passed here"),
        Whose::Merged => format!("the two joined have {said}"),
    }
}

fn name(definition: &Placed) -> String {
    notation::name(&definition.children[0].text)
}

/// What is said of a macro's name and a parameter's.
type Message = fn(&[u8], &[u8]) -> String;

/// The argument that 42, 44 to 47 speak of, and where its parameter stands in the body: the message has its name, but for 47,
/// where it is what is refined.
fn wrong_argument(definition: &Placed, response: &Response) -> Option<(usize, Placed)> {
    let (own, names) = (&definition.children[0].text, parameters(definition));
    if response.number() == 47 {
        let (place, _) = place_of(response);
        let refinement = definition.children[2].find(&|node: &Placed| node.code == 13 && node.place == place)?;
        let base = &refinement.children[1];
        let sigil = base.children.first().filter(|sigil| base.code == 12 && sigil.code == 58)?;
        let i = names.iter().rposition(|name| *name == sigil.text)?;
        return Some((i, sigil.clone()));
    }
    let (code, message): (u8, Message) = match response.number() {
        42 => (58, message::not_a_condition),
        44 => (52, message::not_an_interval),
        45 => (32, message::not_a_term),
        46 => (44, message::not_an_identifier),
        _ => return None,
    };
    let i = names.iter().rposition(|name| message(own, name).as_bytes() == response.message)?;
    let sigil = definition.children[2].find(&|node: &Placed| node.code == code && node.text == names[i])?;
    Some((i, sigil.clone()))
}

/// The first sigil of an interval, a slot or a list of binders.
fn sigil_of_slot(node: &Placed) -> Option<&Placed> {
    match node.code {
        44 | 45 | 52 => Some(node),
        41 => node.children.iter().find_map(sigil_of_slot),
        _ => None,
    }
}

/// The first sigil of a field, of which only arrays are entered.
fn sigil_of_field(node: &Placed) -> Option<&Placed> {
    match node.code {
        32 | 33 => Some(node),
        29 | 41 => node.children.iter().find_map(sigil_of_field),
        _ => None,
    }
}

/// The first sigil that is an operand or an argument.
fn sigil_of_operand(node: &Placed) -> Option<&Placed> {
    match node.code {
        32 | 33 => Some(node),
        7 => None,
        13 => sigil_of_operand(&node.children[1]),
        _ => node.children.iter().find_map(sigil_of_operand),
    }
}
