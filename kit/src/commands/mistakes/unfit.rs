//! What of a rule is not fit for the battery head, and where it came from.
//!
//! Of its three refusals 55 alone has a span (document 02, point 10), and that is one of the expanded rule. So the rule is
//! expanded with its places as spans, and the entry that is refused is followed from the result to the rule or the macro.

use super::{At, Finding, Macro, Search, Within, place_at};
use crate::notation::{self, Place, Placed};
use crate::reading;
use crate::response::Response;
use differential::case::Operation;
use differential::profile::{self, MOST_NODES};
use differential::tape::{self, Node, Sort, Value};

impl Search<'_> {
    /// Why a rule, expanded or as it stands, is refused with 53, 54 or 55; nothing if the entry is not found.
    pub fn unfit(&mut self, i: usize, is_expanded: bool, response: &Response) -> Option<Finding> {
        let condition = &self.rules.conditions[i];
        let given = condition.tree.as_ref()?;
        let made = if is_expanded { self.expanded(given)? } else { given.with_places(0) };
        let made = tape::withdrawn(&made);
        let way = way_to_refused(&made, response.number())?;
        let (from, rest) = follow(given, &way, is_expanded);
        let at = |place| Some(At { file: condition.file, place });
        let within = Within::Rule(condition.name.clone());
        let finding = Finding::refused(response.number(), response.said(), within, at(from.place));
        let Some(call) = called(from).filter(|_| is_expanded) else { return Some(finding) };
        let outcome = &path(&made, &way)[way.len() - rest.len()..];
        Some(match Stands::of(outcome) {
            Some(Stands { place, in_macro: false, .. }) if call.place.holds(place) => {
                Finding { at: at(place), ..finding }
            }
            stands => self.out_of_macro(finding, call, stands.filter(|stands| stands.in_macro)),
        })
    }

    /// What a rule becomes, with places as spans.
    fn expanded(&mut self, given: &Placed) -> Option<Node> {
        let macros = self.macros.iter().map(|own| own.tree.clone()).collect();
        let registry = Placed::counted(41, 1, Place::default(), macros);
        let response = self.ask(Operation::Expand, &[&registry, given]);
        reading::tree(&reading::with_zeros(&response.result), Sort::Condition).ok()
    }

    /// What a call becomes is refused: with 55, whose span is there, in the macro; otherwise at the call.
    fn out_of_macro(&self, finding: Finding, call: &Placed, stands: Option<Stands>) -> Finding {
        let own = stands.as_ref().and_then(|stands| self.macro_around(stands.place)).map(|i| &self.macros[i]);
        let call = own.map_or(call, |own| call_of(call, own));
        let at = finding.at.map(|at| At { place: call.place, ..at });
        let written = stands.map(|stands| (At { file: 0, place: stands.place }, stands.is_itself));
        match (finding.number, written, own, &finding.within) {
            (Some(55), Some((written, _)), Some(own), Within::Rule(rule)) => Finding {
                other: at.map(|at| (at, format!("called by rule `{}`", notation::visible(rule)))),
                within: Within::Macro(own.shown()),
                at: Some(written),
                ..finding
            },
            _ => {
                let name = notation::name(&call.children[0].text);
                let written = written.map(|(written, is_itself)| {
                    (written, if is_itself { "written" } else { "in what is written" }.to_string())
                });
                let what = format!("{}, in what macro `{name}` becomes", finding.what);
                Finding { at, what, other: written, ..finding }
            }
        }
    }
}

/// Where a part of what a call becomes was written: itself or, if it has no span, the nearest part around it that has one.
struct Stands {
    place: Place,
    in_macro: bool,
    is_itself: bool,
}

impl Stands {
    /// Of the last entry on a way through an outcome.
    fn of(outcome: &[&Node]) -> Option<Stands> {
        let has_span = |node: &&Node| tape::is_node(node.code) && tape::value(node.code) == Value::Span;
        let last = *outcome.last()?;
        // An aggregate as a term has its span one entry further on.
        let last = if last.code == 30 { &last.children[0] } else { last };
        let is_itself = has_span(&last);
        let node = if is_itself { last } else { outcome.iter().copied().rfind(has_span)? };
        let (place, in_macro) = place_at(tape::span_start(node.value) as usize, tape::span_end(node.value) as usize);
        Some(Stands { place, in_macro, is_itself })
    }
}

/// Where the first entry is that is refused with a number: at each entry from the root on, which of its children. 55 is told of
/// the condition around the interval.
fn way_to_refused(made: &Node, number: u64) -> Option<Vec<usize>> {
    let mut way = way_to(made, &mut is_refused(number))?;
    if number == 55 {
        let around = path(made, &way).into_iter().rposition(|node| matches!(node.code, 1..=13))?;
        way.truncate(around);
    }
    Some(way)
}

/// Whether an entry, asked for in the order of the tape, is refused with a number.
fn is_refused(number: u64) -> impl FnMut(&Node) -> bool {
    let mut nodes = 0;
    move |node| {
        nodes += usize::from(tape::is_node(node.code));
        match number {
            53 => node.code == 30,
            54 => nodes > MOST_NODES,
            55 => tape::seconds(node).is_some() && profile::is_so(55, node),
            _ => false,
        }
    }
}

fn way_to(node: &Node, is_it: &mut impl FnMut(&Node) -> bool) -> Option<Vec<usize>> {
    if is_it(node) {
        return Some(vec![]);
    }
    let below = node.children.iter().enumerate().find_map(|(i, child)| Some((i, way_to(child, is_it)?)));
    below.map(|(i, way)| [vec![i], way].concat())
}

/// The entries on a way, the root first.
fn path<'a>(root: &'a Node, way: &[usize]) -> Vec<&'a Node> {
    let below = way.iter().scan(root, |node, i| {
        *node = &node.children[*i];
        Some(*node)
    });
    std::iter::once(root).chain(below).collect()
}

/// The entry of what was given that a way through the result leads to, and the rest of the way if it goes into what a call
/// becomes. A refinement becomes a predicate, and an Or the negation of a conjunction of negations.
fn follow<'a, 'w>(given: &'a Placed, way: &'w [usize], is_expanded: bool) -> (&'a Placed, &'w [usize]) {
    let is_replaced = is_expanded && (given.code == 13 || called(given).is_some());
    match (given.code, way) {
        _ if is_replaced => (given, way),
        (2, [0, side, 0, rest @ ..]) => follow(&given.children[*side], rest, is_expanded),
        (2, _) | (_, []) => (given, &[]),
        (_, [i, rest @ ..]) => follow(&given.children[*i], rest, is_expanded),
    }
}

/// The call that stands as a condition or as a term.
fn called(node: &Placed) -> Option<&Placed> {
    match node.code {
        11 => node.children.first(),
        30 => node.children.first().filter(|aggregate| aggregate.code == 36)?.children.first(),
        _ => None,
    }
}

/// The one call of a macro among a call and those in its arguments; if there are several, the one around them all.
fn call_of<'a>(outer: &'a Placed, own: &Macro) -> &'a Placed {
    let mut calls = Vec::new();
    outer.visit(&mut |node| {
        if node.code == 54 && node.children[0].text == own.name() {
            calls.push(node);
        }
    });
    if let [only] = calls[..] { only } else { outer }
}

#[cfg(test)]
mod tests {
    use super::*;
    use crate::archive::Expander;
    use crate::commands::input::{File, Rules};
    use crate::notation::{Rule, Spans, print_items};
    use differential::case::{Case, Operation};
    use differential::generate;

    /// On generated conditions, as they stand and expanded, the entry is found, it is the expander's where that says a span,
    /// and its place is in the text.
    #[test]
    fn what_is_refused_is_found() {
        let (mut expander, mut found) = (Expander::default(), [0; 3]);
        for case in (0..20_000).map(|index| generate::case(3, index)) {
            let Some((rules, is_expanded)) = rules_of(&case) else { continue };
            let mut search = Search::new(&rules, &mut expander, u32::MAX, 0);
            let given = rules.conditions[0].tree.clone().expect("a condition");
            let made = if is_expanded { search.expanded(&given) } else { Some(given.with_places(0)) };
            let Some(made) = made.filter(|made| !made.children.is_empty()) else { continue };
            let profile = Case::new(Operation::Profile, 0, vec![tape::encode(&made)]);
            let response = search.expander.answer(&profile);
            if !(53..=55).contains(&response.number()) {
                continue;
            }
            let finding = search.unfit(0, is_expanded, &response).expect("an entry");
            let rewritten = tape::withdrawn(&made);
            let way = way_to_refused(&rewritten, response.number()).expect("an entry");
            let span = path(&rewritten, &way).last().map(|node| node.value);
            let (start, end) = (response.words[1] as u32, response.words[2] as u32);
            assert!(response.number() != 55 || span == Some(tape::span(start, end)), "{case:?}");
            let File::Text(source) = &rules.files[0] else { panic!("a text") };
            assert!(finding.at.is_some_and(|at| at.place.end <= source.text.len()), "{finding:?}");
            found[response.number() as usize - 53] += 1;
        }
        assert!(found.iter().all(|found| *found > 50), "{found:?}");
    }

    /// The text of a case that expands or profiles, and whether it expands.
    fn rules_of(case: &Case) -> Option<(Rules, bool)> {
        let is_expanded = case.operation == Operation::Expand;
        if !is_expanded && case.operation != Operation::Profile {
            return None;
        }
        let definitions = match is_expanded {
            true => reading::tree(&case.tapes[0], Sort::Definitions).ok()?.children,
            false => vec![],
        };
        let condition = reading::tree(case.tapes.last()?, Sort::Condition).ok()?;
        let text = print_items(&definitions, &[Rule { name: None, condition }], Spans::Hidden);
        Some((Rules::of_text("f", &text), is_expanded))
    }
}
