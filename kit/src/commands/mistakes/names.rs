//! The figures of the macros, their texts, and their names: reserved ones, and ones that stand twice.

use super::{At, Finding, Search, Within, repair};
use crate::commands::input::Rules;
use crate::figures::{self, Figure};
use crate::notation::{self, Place, Placed};
use differential::case::{Case, Operation};
use differential::tape::{self, LARGEST_TEXT, Node};
use std::collections::HashMap;

impl Search<'_> {
    /// Ill-formed texts of the macros, and the figures that they pass. What is wrong with a text is repaired; a macro that
    /// has another figure of its own, or such a name, is not called.
    pub fn figures_of_macros(&mut self) {
        let registry = Placed::counted(41, 1, Place::default(), self.rules.macros.clone());
        for mut finding in of_tree(&registry, 0) {
            let figure = finding.passed.map(|(_, passed)| passed.figure);
            let around = finding.at.and_then(|at| self.macro_around(at.place));
            if let Some(i) = around {
                let own = &mut self.macros[i];
                let is_of_name = finding.at.is_some_and(|at| at.place == own.tree.children[0].place);
                finding.within = Within::Macro(own.shown());
                own.is_callable &= match figure {
                    None | Some(Figure::Name | Figure::Literal) => !is_of_name,
                    Some(Figure::Nesting | Figure::Parameters) => false,
                    Some(Figure::Entries | Figure::Text | Figure::Calls) => true,
                };
            }
            if matches!(figure, Some(Figure::Entries | Figure::Text)) {
                finding.what = finding.what.replacen(": ", ": all macros together have ", 1);
            }
            self.add(finding);
        }
        for own in &mut self.macros {
            repair::shorten(&mut own.tree);
        }
    }

    /// Reserved names, and names that stand twice, of which the first counts. Of each macro its name alone is asked for,
    /// behind the first one of that name: so few are never too large a registry, however many macros there are.
    pub fn names(&mut self) -> Result<(), String> {
        let mut firsts: HashMap<Vec<u8>, usize> = HashMap::new();
        for i in 0..self.macros.len() {
            if !self.has_own_name(i) {
                continue;
            }
            let name = self.macros[i].name().to_vec();
            let first = firsts.get(&name).copied();
            // A message says where the first one is, which is asked of the spans as they are written.
            let heads = first.into_iter().chain([i]).map(|i| head(&self.macros[i].tree).node()).collect();
            let case = Case::new(Operation::Registry, 0, vec![tape::encode(&Node::counted(41, 1, heads))]);
            let response = self.expander.answer(&case);
            match response.number() {
                0 => _ = firsts.insert(name, i),
                number @ (10 | 11) => self.name_refused(i, first, number, response.said()),
                _ => {}
            }
        }
        Ok(())
    }

    /// Whether the name of a macro is the one that was written.
    fn has_own_name(&self, i: usize) -> bool {
        self.macros[i].name() == self.rules.macros[i].children[0].text
    }

    fn name_refused(&mut self, i: usize, first: Option<usize>, number: u64, what: String) {
        let at = |i: usize| At { file: 0, place: self.macros[i].tree.children[0].place };
        let mut finding = Finding::refused(number, what, Within::Macro(self.macros[i].shown()), Some(at(i)));
        finding.other = first.map(|first| (at(first), "the first one".to_string()));
        self.macros[i].is_callable = false;
        self.add(finding);
    }

    /// Whether calls of this name are passed over: of what it was to be, nothing can be asked.
    pub fn is_passed_over(&self, name: &Placed) -> bool {
        let is_known = |is_callable| {
            let mut own = (0..self.macros.len()).filter(|i| self.rules.macros[*i].children[0].text == name.text);
            own.any(|i| self.macros[i].is_callable == is_callable)
        };
        let is_unread = || self.rules.unread.contains(&name.text);
        repair::is_wrong(name) || !is_known(true) && (is_known(false) || is_unread())
    }
}

/// The figure that two registries pass only when they are joined, with its place in the second.
pub fn joined(first: &Rules, second: &Rules) -> Option<Finding> {
    let name = |definition: &Placed| definition.children[0].text.clone();
    let is_new = |definition: &&Placed| !first.macros.iter().any(|own| name(own) == name(definition));
    let macros = first.macros.iter().chain(second.macros.iter().filter(is_new)).cloned().collect();
    let mut finding = of_tree(&Placed::counted(41, 1, Place::default(), macros), 0).into_iter().next()?;
    finding.what = finding.what.replacen(": ", ": the two joined have ", 1);
    let around = finding.at.and_then(|at| second.macros.iter().find(|own| own.place.holds(at.place)));
    finding.within = around.map_or(Within::Macros, |own| Within::Macro(notation::name(&name(own))));
    Some(finding)
}

/// A definition without parameters and body.
fn head(definition: &Placed) -> Placed {
    let (name, place) = (definition.children[0].clone(), definition.place);
    let parts = vec![name, Placed::counted(41, 2, place, vec![]), Placed::new(61, 0, place, vec![])];
    Placed { children: parts, ..definition.clone() }
}

/// Every text of a tree that is ill-formed, and every figure that the tree passes.
pub fn of_tree(tree: &Placed, file: usize) -> Vec<Finding> {
    let (mut places, mut findings) = (Vec::new(), Vec::new());
    let refused = |number, what, place: Option<Place>| {
        Finding::refused(number, what, Within::Macros, place.map(|place| At { file, place }))
    };
    tree.visit(&mut |node| {
        places.push(node.place);
        if let Some(why) = tape::ill_formed(&node.text, &[]) {
            let what = format!("a text that is no well-formed UTF-8 without controls: {why}");
            findings.push(refused(2, what, Some(node.place)));
        }
    });
    findings.extend(figures::passed(&tree.node(), LARGEST_TEXT).into_iter().map(|passed| {
        let here = match passed.figure {
            Figure::Entries | Figure::Text | Figure::Nesting | Figure::Calls => "; passed here",
            Figure::Parameters | Figure::Literal | Figure::Name => "",
        };
        let what = format!("over a largest figure: {}{here}", passed.said());
        let mut finding = refused(3, what, passed.entry.map(|entry| places[entry]));
        finding.passed = Some((figures::Whose::Tape(0), passed));
        finding
    }));
    findings
}
