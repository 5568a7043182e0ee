//! Trees to text.

use super::bounds::MOST_REPEATS;
use super::expression::{ARITHMETIC, COMPARISONS, Level};
use super::items::Rule;
use super::lex::UNITS;
use super::names::{self, name, quoted, segment};
use differential::tape::{self, Node};

/// Whether spans are printed.
#[derive(Clone, Copy, Debug, PartialEq, Eq)]
pub enum Spans {
    /// All that are not 0..0, behind a line that says so: read again, the text gives the same tape.
    Written,
    /// None, for readers.
    Hidden,
}

/// So many equal items of an array are written as one with a number.
const LONG_RUN: usize = 4;

/// A tree with any root, so that reading the text again gives that root.
pub fn print(root: &Node, spans: Spans) -> String {
    match spans {
        Spans::Hidden if root.code == 41 && root.children.is_empty() => "// no macros".to_string(),
        Spans::Hidden => print_root(root, spans).trim_start_matches("root condition ").to_string(),
        Spans::Written => format!("{}{}\n", Printer { spans }.head(), print_root(root, spans)),
    }
}

/// A tree with its root named, without a line on spans before it.
pub fn print_root(root: &Node, spans: Spans) -> String {
    let printer = Printer { spans };
    match root.code {
        1..=13 => format!("root condition {}", printer.condition(root, Level::Whole)),
        54 => format!("root call {}", printer.called(root, 0)),
        60 => format!("root definition {}", printer.definition(root)),
        41 => printer.definitions(&root.children),
        _ => format!("root value {}", printer.term(root, Level::Whole)),
    }
}

/// Spans are written if one of them is not 0..0.
pub fn spans_of<'a>(trees: impl IntoIterator<Item = &'a Node>) -> Spans {
    let mut spans = Spans::Hidden;
    for tree in trees {
        tree.visit(&mut |node| {
            if tape::value(node.code) == tape::Value::Span && node.value != 0 {
                spans = Spans::Written;
            }
        });
    }
    spans
}

/// Definitions and rules, as a file has them.
pub fn print_items(definitions: &[Node], rules: &[Rule], spans: Spans) -> String {
    let printer = Printer { spans };
    let mut text = format!("{}{}", printer.head(), printer.definitions(definitions));
    for rule in rules {
        let head = match &rule.name {
            Some(name) if names::is_identifier(name.as_bytes()) => format!("rule {name}: "),
            Some(name) => format!("rule {}: ", quoted(name.as_bytes(), '"')),
            None => "rule: ".to_string(),
        };
        text.push_str(&format!("{head}{}\n", printer.condition(&rule.condition, Level::Whole)));
    }
    text
}

/// A condition without spans, one line for each part of a conjunction that would be too long for one.
pub fn print_lines(root: &Node) -> Vec<String> {
    const WIDTH: usize = 100;
    let printer = Printer { spans: Spans::Hidden };
    let whole = print(root, Spans::Hidden);
    if whole.chars().count() <= WIDTH || root.code != 1 {
        return vec![whole];
    }
    let mut parts = Vec::new();
    let mut left = root;
    while left.code == 1 {
        parts.push(format!("&& {}", printer.condition(&left.children[1], Level::Since)));
        left = &left.children[0];
    }
    parts.push(printer.condition(left, Level::Since));
    parts.reverse();
    parts
}

struct Printer {
    spans: Spans,
}

impl Printer {
    fn head(&self) -> &'static str {
        if self.spans == Spans::Written { "spans 0..0\n" } else { "" }
    }

    // -------------------------------------------------------------- spans

    fn span(&self, span: u64) -> String {
        format!("{}..{}", tape::span_start(span), tape::span_end(span))
    }

    /// The annotation of what has one span.
    fn at(&self, span: u64) -> String {
        if self.spans == Spans::Hidden || span == 0 { String::new() } else { format!("@{}", self.span(span)) }
    }

    /// The annotation of what has two.
    fn at_both(&self, outer: u64, inner: u64) -> String {
        match (outer, inner) {
            _ if self.spans == Spans::Hidden || outer == 0 && inner == 0 => String::new(),
            _ if outer == inner => format!("@{}", self.span(outer)),
            (0, _) => format!("@/{}", self.span(inner)),
            _ => format!("@{}/{}", self.span(outer), self.span(inner)),
        }
    }

    /// An expression of one level where another is wanted, with its span: in parentheses if it needs them.
    fn enclosed(&self, text: String, is: Level, wanted: Level, span: u64) -> String {
        match self.at(span) {
            at if !at.is_empty() => format!("({text}){at}"),
            _ if is < wanted => format!("({text})"),
            _ => text,
        }
    }

    // -------------------------------------------------------------- conditions

    fn condition(&self, node: &Node, wanted: Level) -> String {
        let c = &node.children;
        let side = |i: usize, level| self.condition(&c[i], level);
        let (text, is) = match node.code {
            1 => (format!("{} && {}", side(0, Level::And), side(1, Level::Since)), Level::And),
            2 => (format!("{} || {}", side(0, Level::Or), side(1, Level::And)), Level::Or),
            3 => (format!("!{}", side(0, Level::Comparison)), Level::Comparison),
            4 => (format!("formerly {} {}", within(&c[0]), side(1, Level::Comparison)), Level::Comparison),
            5 => (format!("previous {} {}", within(&c[0]), side(1, Level::Comparison)), Level::Comparison),
            6 => {
                let [left, right] = [side(0, Level::Since), side(2, Level::Comparison)];
                (format!("{left} since {} {right}", within(&c[1])), Level::Since)
            }
            8 => {
                let [left, right] = [1, 2].map(|i| self.term(&c[i], Level::Sum));
                (format!("{left} {} {right}", COMPARISONS[c[0].value as usize]), Level::Comparison)
            }
            9 => (format!("exists {}, {}", binder(&c[0], &c[1]), side(2, Level::Whole)), Level::Whole),
            _ => return self.atom(node),
        };
        self.enclosed(text, is, wanted, node.value)
    }

    /// A condition that needs no parentheses anywhere.
    fn atom(&self, node: &Node) -> String {
        let c = &node.children;
        match node.code {
            7 => format!("{}{}{}", action(c), self.fields(&c[4]), self.at_both(node.value, c[0].value)),
            10 => format!("tp({}){}", slot(&c[0]), self.at(node.value)),
            11 => self.called(&c[0], node.value),
            12 => format!("{}{}{}", if c[0].code == 58 { "?" } else { "$" }, name(&c[0].text), self.at(node.value)),
            _ => format!("{}{}{}", self.base(&c[1]), self.fields(&c[2]), self.at_both(node.value, c[0].value)),
        }
    }

    /// What stands before a refinement's fields.
    fn base(&self, node: &Node) -> String {
        let text = self.condition(node, Level::Whole);
        let is_enclosed = matches!(node.code, 7 | 10..=13) || !self.at(node.value).is_empty();
        if is_enclosed { text } else { format!("({text})") }
    }

    fn fields(&self, list: &Node) -> String {
        let field =
            |pair: &[Node]| format!("{}: {}", names::path(&pair[0].text, ".", true), self.term(&pair[1], Level::Whole));
        format!("{{{}}}", joined(list.children.chunks(2).map(field)))
    }

    // -------------------------------------------------------------- terms

    fn term(&self, node: &Node, wanted: Level) -> String {
        let c = &node.children;
        match node.code {
            20 => format!("{}::{}", names::path(&c[0].text, "::", false), quoted(&c[1].text, '"')),
            21 => (node.value as i64).to_string(),
            22 => format!("decimal({})", quoted(&node.text, '"')),
            23 => quoted(&node.text, '"'),
            24 => (node.value == 1).to_string(),
            25 => dotted("context", c),
            26 => scope(c),
            27 => name(&node.text),
            28 => "*".to_string(),
            29 => self.array(c),
            30 => self.aggregate(&c[0], wanted),
            31 => self.arithmetic(node, wanted),
            32 => format!("?{}", name(&node.text)),
            _ => format!("${}", name(&node.text)),
        }
    }

    fn arithmetic(&self, node: &Node, wanted: Level) -> String {
        let [left, right] = [&node.children[0], &node.children[1]];
        let sign = ARITHMETIC[node.value as usize];
        let is = if sign == "*" { Level::Product } else { Level::Sum };
        // To the right of a sign of the same level stands nothing of that level.
        let right = match (sign, right.code) {
            ("*", 31) => format!("({})", self.term(right, Level::Whole)),
            _ => self.term(right, Level::Product),
        };
        self.enclosed(format!("{} {sign} {right}", self.term(left, is)), is, wanted, 0)
    }

    fn aggregate(&self, node: &Node, wanted: Level) -> String {
        let c = &node.children;
        let (word, binders, body) = match node.code {
            34 => (format!("sum {}", slot(&c[0])), &c[1], &c[2]),
            35 => ("count".to_string(), &c[0], &c[1]),
            _ => return self.called(&c[0], node.value),
        };
        let list = joined(binders.children.chunks(2).map(|pair| binder(&pair[0], &pair[1])));
        let bound = if list.is_empty() { String::new() } else { format!(" for {list}") };
        let text = format!("{word}{bound} where {}", self.condition(body, Level::Whole));
        self.enclosed(text, Level::Whole, wanted, node.value)
    }

    fn array(&self, items: &[Node]) -> String {
        let mut written = Vec::new();
        let mut rest = items;
        while let Some(first) = rest.first() {
            let run = rest.iter().take(MOST_REPEATS).take_while(|item| *item == first).count();
            let text = self.term(first, Level::Whole);
            match run {
                ..LONG_RUN => written.extend(vec![text; run]),
                _ => written.push(format!("{text}; {run}")),
            }
            rest = &rest[run..];
        }
        format!("[{}]", written.join(", "))
    }

    // -------------------------------------------------------------- calls and definitions

    /// A 54, whose condition or aggregate has the span `outer`.
    fn called(&self, call: &Node, outer: u64) -> String {
        let arguments = joined(call.children[1].children.iter().map(|argument| self.argument(argument)));
        format!("{}({arguments}){}", name(&call.children[0].text), self.at_both(outer, call.value))
    }

    /// A bare sigil is read as a term and a bare call as a condition, so the others say what they are.
    fn argument(&self, argument: &Node) -> String {
        let inner = &argument.children[0];
        match (argument.code, inner.code) {
            (55, 12) => format!("condition {}", self.atom(inner)),
            (55, _) => self.condition(inner, Level::Whole),
            (56, 30) if inner.children[0].code == 36 => format!("value {}", self.term(inner, Level::Whole)),
            (56, _) => self.term(inner, Level::Whole),
            _ => within(inner),
        }
    }

    fn definitions(&self, definitions: &[Node]) -> String {
        definitions.iter().map(|definition| self.definition(definition) + "\n").collect()
    }

    fn definition(&self, node: &Node) -> String {
        let [title, parameters, body] = &node.children[..] else { unreachable!("a definition has three parts") };
        let parameter = |pair: &[Node]| format!("{}{}", name(&pair[1].text), self.at(pair[0].value));
        let list = joined(parameters.children.chunks(2).map(parameter));
        let head = format!("{}({list}){}", name(&title.text), self.at(node.value));
        match body.code {
            61 => format!("cedar {head}"),
            62 => format!("{head} = {}", self.condition(&body.children[0], Level::Whole)),
            _ => format!("value {head} = {}", self.term(&body.children[0], Level::Whole)),
        }
    }
}

fn joined(parts: impl Iterator<Item = String>) -> String {
    parts.collect::<Vec<_>>().join(", ")
}

/// Namespace, action and kind; a predicate that has nothing but an action may have it without quotes.
fn action(parts: &[Node]) -> String {
    let (namespace, action, kind) = (&parts[1].children, &parts[2].text, &parts[3].text);
    if namespace.is_empty() && kind.is_empty() && names::is_identifier(action) && !names::is_keyword(action) {
        return name(action);
    }
    let mut path: Vec<String> = namespace.iter().map(|part| name(&part.text)).collect();
    path.push(quoted(action, '"'));
    if !kind.is_empty() {
        path.push(segment(kind));
    }
    path.join("::")
}

fn slot(node: &Node) -> String {
    let sigil = match node.code {
        44 => "?",
        45 => "$",
        _ => "",
    };
    format!("{sigil}{}", name(&node.text))
}

fn binder(slotted: &Node, typed: &Node) -> String {
    let of = match typed.code {
        46 => "Timepoint".to_string(),
        _ if typed.children.is_empty() => "()".to_string(),
        _ => typed.children.iter().map(|part| name(&part.text)).collect::<Vec<_>>().join("::"),
    };
    format!("{}: {of}", slot(slotted))
}

fn within(node: &Node) -> String {
    match UNITS.into_iter().find(|(_, code)| *code == node.code) {
        Some((unit, _)) => format!("{}{unit}", node.value as i64),
        None => format!("?{}", name(&node.text)),
    }
}

fn dotted(root: &str, path: &[Node]) -> String {
    path.iter().fold(root.to_string(), |text, part| format!("{text}.{}", segment(&part.text)))
}

/// The path of a principal or a resource as it is; any other behind `scope`.
fn scope(path: &[Node]) -> String {
    match path.first().map(|part| part.text.as_slice()) {
        Some(b"principal") => dotted("principal", &path[1..]),
        Some(b"resource") => dotted("resource", &path[1..]),
        _ => dotted("scope", path),
    }
}
