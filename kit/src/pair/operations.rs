//! A case as another operation would be asked it: a part of it alone, where that part is what matters.

use super::plain;
use super::shape::{Part, Shape};
use differential::case::Operation;
use differential::tape::Node;

/// So many definitions of a registry are tried alone; once it is smaller, those that are left.
const MOST: usize = 12;

/// The shapes that other operations can be asked of these trees.
pub fn others(shape: &Shape) -> Vec<Shape> {
    let Some(trees) = shape.parts.iter().map(Part::tree).collect::<Option<Vec<_>>>() else { return vec![] };
    let mut asked: Vec<(Operation, Vec<Node>)> = Vec::new();
    match (shape.case.operation, &trees[..]) {
        (Operation::Check, [definition]) => asked.extend(of_definition(definition)),
        (Operation::Substitute, [definition, call]) => {
            asked.push((Operation::Check, vec![(*definition).clone()]));
            asked.extend(of_definition(definition));
            asked.push(of_substitution(definition, call));
        }
        (_, [registry, rest @ ..]) if registry.code == 41 => {
            if let [condition, ..] = rest {
                let registries = trees.iter().filter(|tree| tree.code == 41);
                asked.extend(registries.map(|registry| (Operation::Registry, vec![(*registry).clone()])));
                asked.extend(of_calls(registry, condition));
            }
            for definition in registry.children.iter().take(MOST).filter(|child| child.code == 60) {
                asked.push((Operation::Check, vec![definition.clone()]));
                asked.extend(of_definition(definition));
            }
            if let [condition, _] = rest {
                asked.push((Operation::Expand, vec![(*registry).clone(), (*condition).clone()]));
            }
        }
        _ => {}
    }
    asked.into_iter().map(|(operation, trees)| asking(shape, operation, trees)).collect()
}

/// The limit and the file number stay where they mean something.
fn asking(shape: &Shape, operation: Operation, trees: Vec<Node>) -> Shape {
    let limit = if shape.case.operation.charges() { shape.case.limit } else { u32::MAX };
    let mut asked = Shape::asking(operation, limit, trees);
    asked.case.file = if operation.charges() { shape.case.file } else { 0 };
    asked
}

/// A body as a rule without macros.
fn of_definition(definition: &Node) -> Option<(Operation, Vec<Node>)> {
    let body = &definition.children[2];
    let inner = body.children.first()?.clone();
    let condition = if body.code == 62 { inner } else { plain::equal(inner) };
    Some((Operation::Expand, vec![plain::registry(vec![]), condition]))
}

/// A substitution as an expansion of a rule that is the call. There the names have to be equal.
fn of_substitution(definition: &Node, call: &Node) -> (Operation, Vec<Node>) {
    let mut call = call.clone();
    call.children[0] = definition.children[0].clone();
    let is_value = definition.children[2].code == 63;
    let condition = if is_value { plain::equal(plain::called_for_value(call)) } else { plain::called(call) };
    (Operation::Expand, vec![plain::registry(vec![definition.clone()]), condition])
}

/// Each call of a rule as a substitution.
fn of_calls(registry: &Node, condition: &Node) -> Vec<(Operation, Vec<Node>)> {
    let mut found = Vec::new();
    condition.visit(&mut |node| {
        let is_called = |definition: &&Node| node.code == 54 && definition.children[0].text == node.children[0].text;
        if let Some(definition) = registry.children.iter().filter(|child| child.code == 60).find(is_called) {
            found.push((Operation::Substitute, vec![definition.clone(), node.clone()]));
        }
    });
    found.truncate(MOST);
    found
}
