//! What the body checks of macros find: every undeclared parameter, plain identifier and call in a body.

use super::{At, Finding, Search, Within, place_of, repair};
use crate::nearest::nearest;
use crate::notation::{self, Placed, Size};
use crate::response::Response;
use differential::case::Operation;

impl Search<'_> {
    /// Each body is asked for until it passes; behind a refusal with what was refused replaced.
    pub fn bodies(&mut self) -> Result<(), String> {
        for i in 0..self.macros.len() {
            let mut draft = self.macros[i].tree.clone();
            // There are no more refusals than entries.
            for _ in 0..=Size::of(&draft).entries {
                let response = self.ask(Operation::Check, &[&draft]);
                if !self.body_refused(&mut draft, &response) {
                    break;
                }
            }
            self.macros[i].tree = draft;
        }
        Ok(())
    }

    /// Tells a refusal of a body, and repairs it. Whether there may be another one.
    fn body_refused(&mut self, draft: &mut Placed, response: &Response) -> bool {
        let within = Within::Macro(notation::name(&draft.children[0].text));
        let declared = parameters(draft);
        let (place, _) = place_of(response);
        // A figure or an ill-formed text was told before.
        if !matches!(response.number(), 20..=22) {
            return false;
        }
        let Some(refused) = first_refused(&draft.children[2], &declared) else { return false };
        let place = if refused.number == response.number() { refused.sigil.place } else { place };
        let at = At { file: 0, place };
        let mut finding = Finding::refused(response.number(), response.said(), within, Some(at));
        finding.meant = meant(refused.number, refused.sigil, &declared);
        let culprit = refused.node.clone();
        self.add(finding);
        repair::replace(&mut draft.children[2], &|node| *node == culprit, &repaired)
    }
}

/// The names that a definition declares.
pub fn parameters(definition: &Placed) -> Vec<Vec<u8>> {
    definition.children[1].children.chunks(2).map(|pair| pair[1].text.clone()).collect()
}

/// What a body check refuses: the entry to be replaced, and the one that the refusal speaks of.
struct Refused<'a> {
    number: u64,
    node: &'a Placed,
    sigil: &'a Placed,
}

/// The first part of a body that is refused, in the order of the check: of a Since the interval comes first.
fn first_refused<'a>(node: &'a Placed, declared: &[Vec<u8>]) -> Option<Refused<'a>> {
    let is_declared = |node: &Placed| declared.contains(&node.text);
    let refused = |number, node, sigil| Some(Refused { number, node, sigil });
    match node.code {
        11 | 36 => refused(22, node, node),
        12 if node.children[0].code == 58 && !is_declared(&node.children[0]) => refused(20, node, &node.children[0]),
        32 | 44 | 52 if !is_declared(node) => refused(20, node, node),
        27 | 43 => refused(21, node, node),
        6 => [1, 0, 2].into_iter().find_map(|i| first_refused(&node.children[i], declared)),
        _ => node.children.iter().find_map(|child| first_refused(child, declared)),
    }
}

/// What passes in the place of a refused part.
fn repaired(node: &Placed) -> Placed {
    match node.code {
        11 | 12 => repair::condition(node.place, 45),
        36 => repair::aggregate(node.place, 45),
        32 => Placed::new(28, 0, node.place, vec![]),
        52 => repair::interval(node.place),
        44 | 43 => Placed::with_text(45, b"q", node.place),
        _ => Placed::with_text(33, b"q", node.place),
    }
}

/// The parameter that was probably meant. A plain identifier may be one that lacks its `?`.
fn meant(number: u64, sigil: &Placed, declared: &[Vec<u8>]) -> Option<String> {
    let text = String::from_utf8_lossy(&sigil.text).to_string();
    let names: Vec<String> = declared.iter().map(|name| String::from_utf8_lossy(name).to_string()).collect();
    let near = nearest(&text, names.iter().map(String::as_str)).map(str::to_string);
    let meant = match number {
        20 => near,
        21 if declared.contains(&sigil.text) => Some(text),
        21 => near,
        _ => None,
    };
    meant.map(|name| format!("?{}", notation::name(name.as_bytes())))
}
