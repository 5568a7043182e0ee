//! Edits of whole trees: what is done wherever a macro, a parameter or a text stands.

use super::plain;
use differential::tape::{self, Node, Value};

pub fn without_spans(node: &Node) -> Node {
    let value = if tape::value(node.code) == Value::Span { 0 } else { node.value };
    Node { text: node.text.clone(), ..Node::new(node.code, value, node.children.iter().map(without_spans).collect()) }
}

/// The tree with a macro's body for each call of it as a condition.
pub fn with_body(node: &Node, name: &[u8], body: &Node) -> Node {
    if node.code == 11 && node.children[0].children[0].text == name {
        return body.clone();
    }
    let children = node.children.iter().map(|child| with_body(child, name, body)).collect();
    Node { text: node.text.clone(), ..Node::new(node.code, node.value, children) }
}

/// The argument of a call of such a name at this place, in the first call that has one.
pub fn given(tree: &Node, names: &[Vec<u8>], place: usize) -> Option<Node> {
    let is_call = tree.code == 54 && names.contains(&tree.children[0].text);
    let own = if is_call { tree.children[1].children.get(place).cloned() } else { None };
    own.or_else(|| tree.children.iter().find_map(|child| given(child, names, place)))
}

/// Takes a parameter from the definition of such a name and its argument from the calls. In the body the inlined argument
/// stands for it, where there is one.
pub fn without_parameter(node: &mut Node, names: &[Vec<u8>], place: usize, inlined: Option<&Node>) {
    let width = match node.code {
        54 => 1,
        60 => 2,
        _ => 0,
    };
    if width > 0 && names.contains(&node.children[0].text) && (node.children[1].value as usize) > place {
        let list = &mut node.children[1];
        let taken: Vec<Node> = list.children.drain(width * place..width * (place + 1)).collect();
        list.value -= 1;
        if let (2, Some(argument)) = (width, inlined) {
            inline(&mut node.children[2], &taken[1].text, argument);
        }
    }
    node.children.iter_mut().for_each(|child| without_parameter(child, names, place, inlined));
}

/// Puts the plainest for a parameter in the body of the definition of such a name, and for its argument in the calls. Where
/// a call is all that matters, neither has to fit the other; one of them alone would be refused for that.
pub fn unused(node: &mut Node, names: &[Vec<u8>], place: usize) {
    node.children.iter_mut().for_each(|child| unused(child, names, place));
    let is_named = matches!(node.code, 54 | 60) && names.contains(&node.children[0].text);
    if !is_named || node.children[1].value as usize <= place {
        return;
    }
    if node.code == 60 {
        let parameter = node.children[1].children[2 * place + 1].text.clone();
        inline(&mut node.children[2], &parameter, &plain::holding(55, plain::tp()));
        inline(&mut node.children[2], &parameter, &plain::holding(56, plain::wildcard()));
    } else if !plain::is_call(&node.children[1].children[place]) {
        node.children[1].children[place] = plain::holding(56, plain::wildcard());
    }
}

/// Puts an argument where the parameter stands in places of the argument's kind.
fn inline(node: &mut Node, parameter: &[u8], argument: &Node) {
    let inner = &argument.children[0];
    let is_place = match (node.code, argument.code) {
        (12, 55) => node.children[0].code == 58 && node.children[0].text == parameter,
        (32, 56) | (52, 57) => node.text == parameter,
        _ => false,
    };
    if is_place {
        *node = inner.clone();
    } else {
        node.children.iter_mut().for_each(|child| inline(child, parameter, argument));
    }
}

/// The texts of a tree, each with letters for what it names.
pub fn collect_texts(node: &Node, letters: &'static str, into: &mut Vec<(Vec<u8>, &'static str)>) {
    if tape::value(node.code) == Value::TextLength && !into.iter().any(|(text, _)| *text == node.text) {
        into.push((node.text.clone(), letters));
    }
    for (i, child) in node.children.iter().enumerate() {
        let letters = match (node.code, i, child.code) {
            (54 | 60, 0, _) => "m k w b z e",
            (7, 2, _) => "P Q R",
            (7 | 13, _, 41) => "f g h",
            (_, _, 45 | 33) => "t u",
            _ => "x y a b c d e f g h i j k l n o p r s u v w z",
        };
        collect_texts(child, letters, into);
    }
}

pub fn rename(node: &mut Node, from: &[u8], to: &[u8]) {
    if tape::value(node.code) == Value::TextLength && node.text == from {
        *node = Node::with_text(node.code, to);
    }
    node.children.iter_mut().for_each(|child| rename(child, from, to));
}

/// Puts a call of another macro for each call of one, with as many arguments as that one has parameters. Those that are
/// missing are `filler`.
pub fn redirect(node: &mut Node, from: &[u8], to: &[u8], count: usize, filler: &Node) {
    node.children.iter_mut().for_each(|child| redirect(child, from, to, count, filler));
    if node.code == 54 && node.children[0].text == from {
        let mut arguments = std::mem::take(&mut node.children[1].children);
        arguments.resize(count, filler.clone());
        *node = Node { value: node.value, ..plain::call(to, arguments) };
    }
}

/// The tree with a call of a macro alone for each comparison with its value.
pub fn without_comparison(node: &Node, name: &[u8]) -> Node {
    let is_called = |term: &&Node| term.code == 30 && term.children[0].code == 36;
    let calls = node.children.iter().filter(is_called).map(|term| &term.children[0].children[0]);
    let found = calls.into_iter().find(|call| call.children[0].text == name);
    if let (8, Some(call)) = (node.code, found) {
        return plain::called(call.clone());
    }
    let children = node.children.iter().map(|child| without_comparison(child, name)).collect();
    Node { text: node.text.clone(), ..Node::new(node.code, node.value, children) }
}
