//! Two registries joined into one.

use crate::model::{Refusal, name};
use crate::random::Random;
use crate::tape::{self, Node, Value};
use crate::trees::Trees;

/// The first one's definitions, then those of the second whose names the first lacks. Both have passed 10 and 11.
pub fn merged(first: &Node, second: &Node) -> Result<Node, Refusal> {
    let mut merged = first.clone();
    for definition in &second.children {
        match first.children.iter().find(|d| name(d) == name(definition)) {
            None => merged.children.push(definition.clone()),
            Some(own) => {
                if let Some(cause) = difference(own, definition) {
                    return Err(Refusal { number: 51, span: definition.value, message: String::new(), cause });
                }
            }
        }
    }
    merged.value = merged.children.len() as u64;
    Ok(merged)
}

/// The codes of the first entries in which two definitions differ, spans aside.
fn difference(a: &Node, b: &Node) -> Option<(u8, u8)> {
    let [a, b] = [a, b].map(entries);
    let code = |entries: &[(u8, u64, Vec<u8>)], i: usize| entries.get(i).map_or(0, |entry| entry.0);
    let i = (0..a.len().max(b.len())).find(|i| a.get(*i) != b.get(*i))?;
    Some((code(&a, i), code(&b, i)))
}

/// The entries of a tree, with 0 for every span.
fn entries(tree: &Node) -> Vec<(u8, u64, Vec<u8>)> {
    let mut all = Vec::new();
    tree.visit(&mut |node| {
        let value = if tape::value(node.code) == Value::Span { 0 } else { node.value };
        all.push((node.code, value, node.text.clone()));
    });
    all
}

// ------------------------------------------------------------------ second registries, made from a first

/// A registry that shares definitions with the first one: as they are, with other spans, rewritten without Or, or changed
/// in one entry; in another order, with others between them.
pub fn second(g: &mut Trees, first: &Node) -> Node {
    let changes = *g.random.pick(&[0, 0, 0, 10, 40]);
    let mut all = Vec::new();
    for definition in &first.children {
        if g.random.chance(40) {
            continue;
        }
        let mut copy = definition.clone();
        match g.random.weighted(&[30, 50, 20]) {
            0 => {}
            1 => other_spans(g, &mut copy),
            _ => copy = tape::withdrawn(&copy),
        }
        if g.random.chance(changes) {
            // Behind the definition and its name.
            g.change_an_entry(&mut copy, 2);
        }
        all.push(copy);
    }
    for _ in 0..g.random.weighted(&[30, 30, 20, 10, 10]) {
        let mut name = g.macro_name();
        if all.iter().any(|d| self::name(d) == name) && g.random.chance(85) {
            name = format!("other {}", all.len()).into_bytes();
        }
        let (definition, _) = g.share(|g| g.definition(name));
        all.push(definition);
    }
    shuffle(g.random, &mut all);
    Node::counted(41, 1, all)
}

fn shuffle(random: &mut Random, all: &mut [Node]) {
    for i in (1..all.len()).rev() {
        all.swap(i, random.below(i + 1));
    }
}

fn other_spans(g: &mut Trees, node: &mut Node) {
    if tape::value(node.code) == Value::Span {
        node.value = g.span();
    }
    node.children.iter_mut().for_each(|child| other_spans(g, child));
}
