//! Parts of a tree that pass, in the place of those that were refused.

use crate::notation::{Place, Placed};
use differential::tape::{self, LARGEST_LITERAL, LARGEST_TEXT};

/// `tp(q)`, with a variable of this code.
pub fn condition(place: Place, variable: u8) -> Placed {
    Placed::new(10, 0, place, vec![Placed::with_text(variable, b"q", place)])
}

/// `P{}`
pub fn predicate(place: Place) -> Placed {
    let list = || Placed::counted(41, 1, place, vec![]);
    let [action, kind] = [&b"P"[..], b""].map(|text| Placed::with_text(40, text, place));
    Placed::new(7, 0, place, vec![Placed::new(42, 0, place, vec![]), list(), action, kind, list()])
}

/// A variable is a term, and an identifier too.
pub fn term(place: Place) -> Placed {
    Placed::with_text(27, b"q", place)
}

pub fn interval(place: Place) -> Placed {
    Placed::new(48, 0, place, vec![])
}

/// `count where c`
fn counting(place: Place, condition: Placed) -> Placed {
    Placed::new(35, 0, place, vec![Placed::counted(41, 2, place, vec![]), condition])
}

/// An aggregate in the place of a call, whose arguments are not looked at.
pub fn aggregate(place: Place, variable: u8) -> Placed {
    counting(place, condition(place, variable))
}

/// A term as a condition: `t == *`.
pub fn comparison(term: Placed) -> Placed {
    let place = term.place;
    let any = Placed::new(28, 0, place, vec![]);
    Placed::new(8, 0, place, vec![Placed::new(53, 4, place, vec![]), term, any])
}

/// The 30 of a call of a value macro.
pub fn value(call: &Placed) -> Placed {
    Placed::new(30, 0, call.place, vec![Placed::new(36, 0, call.place, vec![call.clone()])])
}

/// A condition that holds what a call has as arguments, for a call that cannot be asked for.
fn holding(call: &Placed, is_value: &impl Fn(&[u8]) -> bool) -> Placed {
    let as_condition = |argument: &Placed| {
        let inner = argument.children[0].clone();
        match argument.code {
            55 if inner.code == 11 && is_value(&inner.children[0].children[0].text) => {
                Some(comparison(value(&inner.children[0])))
            }
            55 => Some(inner),
            56 => Some(comparison(inner)),
            _ => None,
        }
    };
    let arguments = call.children[1].children.iter().filter_map(as_condition);
    let both = |left, right| Placed::new(1, 0, call.place, vec![left, right]);
    arguments.reduce(both).unwrap_or_else(|| condition(call.place, 43))
}

/// Every 11 and 36 around a call that is as wanted, replaced by what holds the call's arguments.
pub fn without_calls(
    node: &mut Placed,
    is_wanted: &impl Fn(&Placed) -> bool,
    is_value: &impl Fn(&[u8]) -> bool,
) -> Vec<Place> {
    let mut replaced = Vec::new();
    while matches!(node.code, 11 | 36) && is_wanted(&node.children[0]) {
        let holding = holding(&node.children[0], is_value);
        replaced.push(node.place);
        *node = if node.code == 11 { holding } else { counting(node.place, holding) };
    }
    for child in &mut node.children {
        replaced.extend(without_calls(child, is_wanted, is_value));
    }
    replaced
}

/// The first node that is as wanted becomes another one.
pub fn replace(node: &mut Placed, is_wanted: &impl Fn(&Placed) -> bool, by: &impl Fn(&Placed) -> Placed) -> bool {
    if is_wanted(node) {
        *node = by(node);
        return true;
    }
    node.children.iter_mut().any(|child| replace(child, is_wanted, by))
}

/// Whether an entry's text is too long or ill-formed.
pub fn is_wrong(node: &Placed) -> bool {
    node.text.len() > most(node) || tape::ill_formed(&node.text, &[]).is_some()
}

fn most(node: &Placed) -> usize {
    if matches!(node.code, 22 | 23) { LARGEST_LITERAL } else { LARGEST_TEXT }
}

/// Every text that is too long or ill-formed becomes one that is not. Whether there was one.
pub fn shorten(node: &mut Placed) -> bool {
    let is_wrong = is_wrong(node);
    if is_wrong {
        let text = String::from_utf8_lossy(&node.text).replace(|c: char| c.is_control(), "_");
        let end = text.floor_char_boundary(most(node));
        node.text = text.as_bytes()[..end].to_vec();
        node.value = end as u64;
    }
    node.children.iter_mut().fold(is_wrong, |was, child| shorten(child) || was)
}
