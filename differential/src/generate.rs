//! Cases from a seed.

use crate::brim::{self, FIGURES, Figure};
use crate::case::{Case, Counts, OPERATIONS, Operation};
use crate::damage::damage;
use crate::judge;
use crate::merge;
use crate::model::{self, Walk};
use crate::profile;
use crate::provider;
use crate::random::Random;
use crate::sheet;
use crate::tape::{self, LARGEST_CALLS, LARGEST_PARAMETERS, LARGEST_TEXT, Node, UNBOUNDED};
use crate::texts;
use crate::trees::{DEPTH, Ground, MOST_DEFINITIONS, Macro, Style, Trees};

/// The operation of a case is drawn first.
fn draw(random: &mut Random) -> Operation {
    OPERATIONS[random.weighted(&[10, 6, 21, 25, 5, 3, 3, 8, 6, 3, 3, 2, 2, 2, 1])]
}

pub fn operation(seed: u64, index: u64) -> Operation {
    draw(&mut Random::of_case(seed, index))
}

/// The case with this index in the campaign of this seed.
pub fn case(seed: u64, index: u64) -> Case {
    let random = &mut Random::of_case(seed, index);
    let operation = draw(random);
    if operation == Operation::Sheet {
        let g = &mut trees(random);
        let registry = a_registry(g);
        return Case::new(operation, sheet::LIMIT, vec![sheet::input(g, &registry)]);
    }
    let file = if operation.charges() { file(random) } else { 0 };
    let input = match random.weighted(&[76, 11, 10, 3]) {
        0 => input(random, operation),
        1 => at_a_limit(random, operation),
        2 => result_at_a_limit(random, operation, file),
        _ => ill_formed(random, operation),
    };
    let mut case = on_tapes(random, operation, file, &input);
    if random.chance(13) {
        spoil(random, &mut case);
    }
    vary_buffers(random, &mut case);
    case
}

fn file(random: &mut Random) -> u16 {
    match random.weighted(&[40, 40, 20]) {
        0 => 0,
        1 => *random.pick(&[1, 9, 10, 99, 100, 1_000, 65_535]),
        _ => random.number() as u16,
    }
}

/// The trees of a case: definition or registry, and call or condition.
#[derive(Clone)]
struct Input {
    first: Node,
    second: Option<Node>,
}

fn style(random: &mut Random) -> Style {
    Style {
        stray: *random.pick(&[0, 0, 0, 1, 3, 10]),
        plain: *random.pick(&[0, 0, 10, 50]),
        wrong: *random.pick(&[0, 0, 2, 6, 20]),
        calls: random.weighted(&[0, 20, 40, 30, 8, 2]),
        weeks: *random.pick(&[0, 0, 0, 20, 80]),
        wild: *random.pick(&[0, 0, 0, 10]),
        day: false,
    }
}

fn trees<'a>(random: &'a mut Random) -> Trees<'a> {
    let style = style(random);
    let fuel = fuel(random);
    Trees { random, style, parameters: vec![], macros: vec![], fuel }
}

/// About how many nodes a tree is to have.
fn fuel(random: &mut Random) -> usize {
    if random.chance(25) { random.within(40, 250) } else { random.size(250) }
}

// ------------------------------------------------------------------ random inputs

fn input(random: &mut Random, operation: Operation) -> Input {
    let g = &mut trees(random);
    match operation {
        Operation::Check => Input { first: a_definition(g).0, second: None },
        Operation::Registry => Input { first: a_registry(g), second: None },
        Operation::CheckLibrary | Operation::CheckAt => Input { first: a_library(g), second: None },
        Operation::Substitute => {
            let (first, known) = a_definition(g);
            g.fuel = fuel(g.random);
            // Substitution does not look into its arguments, so anything may stand there.
            let ground = if g.random.chance(50) { Ground::Hidden } else { Ground::Entered };
            let called = if g.random.chance(85) { known } else { Macro { name: g.macro_name(), ..known } };
            let second = Some(g.call_of(&called, ground, DEPTH));
            Input { first, second }
        }
        Operation::Expand | Operation::Preview | Operation::Judge => {
            if operation == Operation::Judge && g.random.chance(60) {
                // So that there is something to judge.
                (g.style.stray, g.style.wrong) = (0, 0);
            }
            let first = a_registry(g);
            g.fuel = fuel(g.random);
            Input { first, second: Some(g.condition(Ground::Entered, DEPTH)) }
        }
        Operation::Merge => {
            let first = a_registry(g);
            g.fuel = fuel(g.random);
            let second = if g.random.chance(90) { merge::second(g, &first) } else { a_registry(g) };
            Input { first, second: Some(second) }
        }
        Operation::Older => {
            g.style.weeks = *g.random.pick(&[0, 20, 60, 60]);
            g.style.wild = *g.random.pick(&[0, 0, 10, 50]);
            Input { first: any_root(g), second: None }
        }
        Operation::Provider if g.random.chance(50) => Input { first: provider::call(g, DEPTH), second: None },
        Operation::Provider | Operation::ArgumentToTerm => {
            let fields = g.random.chance(if operation == Operation::Provider { 60 } else { 25 });
            Input { first: provider::argument(g, DEPTH, fields), second: None }
        }
        Operation::TermToArgument => {
            let term = provider::term_of(&provider::argument(g, DEPTH, false)).expect("no field");
            Input { first: if g.random.chance(75) { term } else { g.term(Ground::Hidden, DEPTH) }, second: None }
        }
        Operation::Sheet => unreachable!("not made of trees"),
        Operation::Profile => {
            g.style.day = true;
            Input { first: profile::condition(g, DEPTH), second: None }
        }
    }
}

/// A tree that has one of the roots of the older tape, a lone term often.
fn any_root(g: &mut Trees) -> Node {
    match g.random.weighted(&[25, 15, 15, 15, 30]) {
        0 => g.condition(Ground::Hidden, DEPTH),
        1 => a_definition(g).0,
        2 => {
            let known = a_definition(g).1;
            g.call_of(&known, Ground::Hidden, DEPTH)
        }
        3 => a_registry(g),
        _ => g.term(Ground::Hidden, DEPTH),
    }
}

fn a_definition(g: &mut Trees) -> (Node, Macro) {
    let name = g.macro_name();
    g.definition(name)
}

fn a_registry(g: &mut Trees) -> Node {
    match g.random.weighted(&[90, 8, 2]) {
        0 => {
            let count = g.random.weighted(&[4, 20, 24, 20, 16, 16]);
            g.registry(count)
        }
        1 => {
            let count = g.random.within(6, 20);
            g.registry(count)
        }
        _ => {
            let count = match g.random.weighted(&[70, 25, 5]) {
                0 => g.random.within(21, MOST_DEFINITIONS),
                1 => MOST_DEFINITIONS,
                _ => MOST_DEFINITIONS + 1,
            };
            g.large_registry(count)
        }
    }
}

/// One of the texts is not well-formed.
fn ill_formed(random: &mut Random, operation: Operation) -> Input {
    let mut input = input(random, operation);
    match &mut input.second {
        Some(second) if random.chance(50) => texts::spoil(random, second),
        _ => texts::spoil(random, &mut input.first),
    }
    input
}

/// A registry of which none, some or all definitions are refused, now and then as many as a tape has room for.
fn a_library(g: &mut Trees) -> Node {
    if g.random.chance(5) {
        return brim::refused_library(g.random);
    }
    g.style.stray = *g.random.pick(&[0, 0, 3, 10, 30]);
    g.style.plain = *g.random.pick(&[0, 0, 10, 50]);
    a_registry(g)
}

// ------------------------------------------------------------------ tapes at a limit

fn at_a_limit(random: &mut Random, operation: Operation) -> Input {
    let mut input = input(random, operation);
    let first = input.second.is_none() || random.chance(50);
    let tree = if first { &mut input.first } else { input.second.as_mut().expect("there is one") };
    match random.weighted(&[50, 20, 10, 20]) {
        0 => grow_a_tape(random, tree),
        1 => brim::stretch_a_text(random, tree, operation.longest_name(0, 0)),
        2 => many_parameters(random, &mut input),
        _ => many_calls(random, &mut input, operation),
    }
    input
}

/// A condition grows as a whole, a definition in its body, a registry in a definition's, a call in an argument.
fn grow_a_tape(random: &mut Random, tree: &mut Node) {
    let figure = *random.pick(&FIGURES);
    if random.chance(30) {
        brim::wrap_in_ors(random, tree);
    }
    // What is to come to rest at the limit: the tape as it is, or as it is rewritten without Or.
    let rewritten = random.chance(70);
    let measure = |node: &Node| if rewritten { tape::measure(&tape::withdrawn(node)) } else { tape::measure(node) };
    let whole = measure(tree);
    if matches!(tree.code, 1..=13) {
        if let Some(more) = brim::missing(random, figure, &whole)
            && let Some(grown) = brim::grow_condition(tree.clone(), figure, more)
        {
            *tree = grown;
        }
        return;
    }
    if let 20..=33 = tree.code {
        if let Some(more) = brim::missing(random, figure, &whole)
            && let Some(grown) = brim::grow_term(tree.clone(), figure, more)
        {
            *tree = grown;
        }
        return;
    }
    let parts = match tree.code {
        60 | 71..=76 => std::slice::from_mut(tree),
        54 | 70 => &mut tree.children[1].children[..],
        _ => &mut tree.children[..],
    };
    if parts.is_empty() {
        return;
    }
    let i = random.below(parts.len());
    // Entries and text are the whole's, but nesting is that of the part which grows.
    let now = if figure == Figure::Nesting { measure(&parts[i]) } else { whole };
    if let Some(more) = brim::missing(random, figure, &now) {
        match parts[i].code {
            60 => drop(brim::grow_inside(&mut parts[i].children[2], figure, more)),
            71..=76 => parts[i] = provider::grow(parts[i].clone(), figure, more).unwrap_or(parts[i].clone()),
            _ => drop(brim::grow_inside(&mut parts[i], figure, more)),
        }
    }
}

fn many_parameters(random: &mut Random, input: &mut Input) {
    let definition = match input.first.code {
        60 => &mut input.first,
        41 if !input.first.children.is_empty() => {
            let i = random.below(input.first.children.len());
            &mut input.first.children[i]
        }
        _ => return,
    };
    let count = LARGEST_PARAMETERS + random.below(3) - 1;
    let list = &mut definition.children[1];
    let length = *random.pick(&[2, 5, LARGEST_TEXT, LARGEST_TEXT]);
    while list.children.len() < 2 * count {
        let name = texts::of_length(random, length);
        list.children.extend([Node::new(42, 0, vec![]), Node::with_text(40, &name)]);
    }
    list.value = (list.children.len() / 2) as u64;
    let parameters = list.value as usize;
    if random.chance(30) {
        // An undeclared name, for the longest message that there is.
        let undeclared = Node::with_text(58, &texts::of_length(random, LARGEST_TEXT));
        definition.children[2] = Node::new(62, 0, vec![Node::new(12, 0, vec![undeclared])]);
    }
    if let Some(Node { code: 54, children, .. }) = &mut input.second {
        let list = &mut children[1];
        let argument = Node::new(56, 0, vec![Node::new(28, 0, vec![])]);
        list.children.resize(parameters.max(list.children.len()), argument);
        list.value = list.children.len() as u64;
    }
}

/// Calls inside one another, or one call with more arguments than a definition may have parameters.
fn many_calls(random: &mut Random, input: &mut Input, operation: Operation) {
    let name = match input.first.children.first() {
        Some(Node { code: 60, children, .. }) if random.chance(50) => children[0].text.clone(),
        _ => vec![*random.pick(b"mkwbz")],
    };
    let calls = if random.chance(25) {
        brim::wide_call(&name, LARGEST_PARAMETERS + random.below(4) - 1)
    } else {
        let depth = LARGEST_CALLS + random.below(3) - 1;
        brim::nested_calls(random, &name, depth)
    };
    let condition = Node::new(11, tape::span(1, 2), vec![calls.clone()]);
    match operation {
        Operation::Substitute => input.second = Some(calls),
        Operation::Expand | Operation::Preview | Operation::Judge => input.second = Some(condition),
        Operation::Profile => input.first = condition,
        Operation::TermToArgument => input.first = as_value(calls),
        Operation::Sheet => unreachable!("not made of trees"),
        Operation::Provider | Operation::ArgumentToTerm => {
            let bools = vec![Node::new(75, 1, vec![]); LARGEST_PARAMETERS + random.below(4) - 1];
            input.first = Node::counted(76, 1, bools);
        }
        Operation::Older => input.first = if random.chance(50) { calls } else { condition },
        // A body with calls is accepted, and refused by its check.
        Operation::Check => input.first.children[2] = Node::new(62, 0, vec![condition]),
        Operation::Registry | Operation::CheckLibrary | Operation::CheckAt | Operation::Merge => {
            if let Some(definition) = input.first.children.first_mut() {
                definition.children[2] = Node::new(62, 0, vec![condition]);
            }
        }
    }
}

// ------------------------------------------------------------------ results at a limit

/// A substitution whose result, or an expansion of which a 54, an outcome or the whole, comes to rest around a limit.
fn result_at_a_limit(random: &mut Random, operation: Operation, file: u16) -> Input {
    let figure = *random.pick(&FIGURES);
    match operation {
        Operation::Check | Operation::Registry | Operation::CheckLibrary | Operation::CheckAt => {
            at_a_limit(random, operation)
        }
        Operation::Older | Operation::Profile => at_a_limit(random, operation),
        Operation::Provider | Operation::ArgumentToTerm | Operation::TermToArgument => at_a_limit(random, operation),
        Operation::Sheet => unreachable!("not made of trees"),
        Operation::Merge => merge_at_a_limit(random, figure),
        Operation::Substitute => {
            let mut input = multiplying(random, figure);
            let call = input.second.clone().expect("a call");
            let mut walk = Walk::new(u64::from(u32::MAX), file, UNBOUNDED);
            if let Ok(result) = walk.substitute_whole(&tape::withdrawn(&input.first), &tape::withdrawn(&call))
                && let Some(more) = brim::missing(random, figure, &tape::measure(&result))
            {
                brim::grow_inside(&mut input.first.children[2], figure, more);
            }
            if random.chance(25) {
                brim::refuse_behind(&mut input.first.children[2]);
            }
            input
        }
        Operation::Expand | Operation::Preview | Operation::Judge => expansion_at_a_limit(random, figure, file),
    }
}

/// Two registries that have, merged, so many entries or so much text.
fn merge_at_a_limit(random: &mut Random, figure: Figure) -> Input {
    let figure = if figure == Figure::Nesting { Figure::Entries } else { figure };
    let mut input = input(random, Operation::Merge);
    let mut added = inner_macro(random, figure);
    added.children[0] = Node::with_text(40, b"added behind");
    let second = input.second.as_mut().expect("two registries");
    second.children.push(added);
    second.value += 1;
    let rewritten = [&input.first, &*second].map(tape::withdrawn);
    if let Ok(merged) = merge::merged(&rewritten[0], &rewritten[1])
        && let Some(more) = brim::missing(random, figure, &tape::measure(&merged))
    {
        let (half, rest) = (more / 2, more - more / 2);
        let last = second.children.last_mut().expect("one was added");
        brim::grow_inside(&mut last.children[2], figure, rest);
        match input.first.children.iter_mut().find(|d| d.children[2].code != 61 && !shared(second, d)) {
            Some(own) => drop(brim::grow_inside(&mut own.children[2], figure, half)),
            None => drop(brim::grow_inside(&mut second.children.last_mut().expect("one").children[2], figure, half)),
        }
    }
    input
}

fn shared(registry: &Node, definition: &Node) -> bool {
    registry.children.iter().any(|d| model::name(d) == model::name(definition))
}

/// A definition that pastes its argument several times, and a call with a large argument.
fn multiplying(random: &mut Random, figure: Figure) -> Input {
    let g = &mut Trees {
        style: Style { stray: 0, plain: 20, wrong: 0, calls: 3, weeks: 10, wild: 10, day: false },
        parameters: vec![],
        macros: vec![],
        fuel: 10,
        random,
    };
    let as_term = g.random.chance(50);
    let (name, depth) = (g.macro_name(), g.random.within(5, DEPTH));
    g.fuel = if figure == Figure::Entries { g.random.size(200) } else { g.random.size(30) };
    let argument = if as_term {
        Node::new(56, 0, vec![g.operand(Ground::Hidden, depth)])
    } else {
        Node::new(55, 0, vec![g.condition(Ground::Hidden, depth)])
    };
    let pastes = g.random.size(12);
    let body = pasting(g, as_term, pastes);
    let parameters = Node::counted(41, 2, vec![Node::new(42, 0, vec![]), Node::with_text(40, b"x")]);
    let first = Node::new(60, g.span(), vec![Node::with_text(40, &name), parameters, body]);
    let arguments = Node::counted(41, 1, vec![argument]);
    Input { first, second: Some(Node::new(54, g.span(), vec![Node::with_text(40, &name), arguments])) }
}

/// A body with so many `?x`, for conditions or for terms.
fn pasting(g: &mut Trees, as_term: bool, pastes: usize) -> Node {
    if as_term {
        let items: Vec<Node> = (0..pastes).map(|_| Node::with_text(32, b"x")).collect();
        let array = Node::counted(29, 1, items);
        if g.random.chance(50) {
            return Node::new(63, 0, vec![array]);
        }
        let comparison = vec![Node::new(53, 4, vec![]), array, Node::with_text(33, b"t")];
        return Node::new(62, 0, vec![Node::new(8, g.span(), comparison)]);
    }
    let mut sigil = || Node::new(12, g.span(), vec![Node::with_text(58, b"x")]);
    let first = sigil();
    let body = (1..pastes).fold(first, |c, _| Node::new(1, 0, vec![c, sigil()]));
    Node::new(62, 0, vec![body])
}

/// The condition is one call, so that the last measures taken are those of its 54, its outcome and the whole. One of
/// them is brought to a limit.
fn expansion_at_a_limit(random: &mut Random, figure: Figure, file: u16) -> Input {
    let (mut registry, call) = outer_and_inner(random, figure);
    let is_value = registry.children[0].children[2].code == 63;
    let mut condition = as_condition(call, is_value);
    let mut walk = Walk::new(u64::from(u32::MAX), file, UNBOUNDED);
    if walk.expand_whole(&tape::withdrawn(&registry), &tape::withdrawn(&condition)).is_ok() {
        let [.., (_, of_call), (_, of_outcome), (_, of_whole)] = walk.measured[..] else {
            unreachable!("a call was expanded")
        };
        let which = random.below(3);
        let now = [of_call, of_outcome, of_whole][which];
        if let Some(more) = brim::missing(random, figure, &now) {
            match which {
                0 => drop(brim::grow_inside(unused_argument(&mut condition, is_value), figure, more)),
                1 => drop(brim::grow_inside(&mut registry.children[0].children[2], figure, more)),
                _ => condition = brim::grow_condition(condition.clone(), figure, more).unwrap_or(condition),
            }
        }
    }
    let mut around = Node::new(55, 0, vec![condition]);
    if random.chance(25) {
        brim::refuse_behind(&mut around);
    }
    Input { first: registry, second: around.children.pop() }
}

/// A registry of two macros, and a call of the first. The second is called in the argument of a parameter that no place
/// uses: what it adds to the 54 is not on the tape, and not in the outcome.
fn outer_and_inner(random: &mut Random, figure: Figure) -> (Node, Node) {
    let Input { first: mut outer, second } = multiplying(random, figure);
    let mut call = second.expect("a call");
    let inner = inner_macro(random, figure);
    outer.children[0] = Node::with_text(40, b"outer");
    call.children[0] = Node::with_text(40, b"outer");
    let parameters = &mut outer.children[1];
    parameters.children.extend([Node::new(42, 0, vec![]), Node::with_text(40, b"unused")]);
    parameters.value += 1;
    let no_arguments = Node::counted(41, 1, vec![]);
    let inner_call = Node::new(54, tape::span(20, 22), vec![inner.children[0].clone(), no_arguments]);
    let argument = match inner.children[2].code {
        63 => Node::new(56, 0, vec![Node::new(31, 0, vec![as_value(inner_call), brim::array(2, 0)])]),
        _ => Node::new(55, 0, vec![Node::new(3, 0, vec![Node::new(11, 0, vec![inner_call])])]),
    };
    call.children[1].children.push(argument);
    call.children[1].value += 1;
    (Node::counted(41, 1, vec![outer, inner]), call)
}

fn inner_macro(random: &mut Random, figure: Figure) -> Node {
    let text = vec![b'i'; if figure == Figure::Text { random.size(250) } else { 1 }];
    let body = if random.chance(50) {
        let array = Node::counted(29, 1, vec![Node::with_text(23, &text); random.size(10)]);
        Node::new(63, 0, vec![array])
    } else {
        let tp = Node::new(10, tape::span(5, 6), vec![Node::with_text(45, b"t")]);
        Node::new(62, 0, vec![(0..random.below(30)).fold(tp, |c, _| Node::new(3, 0, vec![c]))])
    };
    Node::new(60, 0, vec![Node::with_text(40, b"inner"), Node::counted(41, 2, vec![]), body])
}

fn as_value(call: Node) -> Node {
    Node::new(30, 0, vec![Node::new(36, tape::span(1, 2), vec![call])])
}

fn as_condition(call: Node, is_value: bool) -> Node {
    match is_value {
        true => Node::new(8, 0, vec![Node::new(53, 0, vec![]), as_value(call), Node::new(28, 0, vec![])]),
        false => Node::new(11, tape::span(1, 2), vec![call]),
    }
}

fn unused_argument(condition: &mut Node, is_value: bool) -> &mut Node {
    let call = match is_value {
        true => &mut condition.children[1].children[0].children[0],
        false => &mut condition.children[0],
    };
    &mut call.children[1].children[1]
}

// ------------------------------------------------------------------ from trees to a case

fn on_tapes(random: &mut Random, operation: Operation, file: u16, input: &Input) -> Case {
    let tapes = [Some(&input.first), input.second.as_ref()].into_iter().flatten().map(tape::encode).collect();
    let limit_if_any = if operation.charges() { u32::MAX } else { 0 };
    // What is judged is an expansion first.
    let walked = if operation == Operation::Judge { Operation::Expand } else { operation };
    let mut case = Case { file, ..Case::new(walked, limit_if_any, tapes) };
    if operation == Operation::Judge {
        let supplied = supplied(random, input, &case);
        case.tapes.push(tape::encode(&supplied));
        (case.operation, case.sizes) = (operation, operation.buffers());
    }
    if operation.has_counts() {
        case.counts = counts(random);
    }
    if operation == Operation::CheckAt {
        let definitions = input.first.children.len();
        case.index = match random.weighted(&[85, 10, 5]) {
            0 => random.below(definitions.max(1)) as u32,
            1 => (definitions + random.below(2)) as u32,
            _ => *random.pick(&[255, 256, 1 << 31, u32::MAX]),
        };
    }
    if operation.charges() && random.chance(55) {
        case.limit = limit(random, model::answer(&case).0.charged as usize) as u32;
    }
    case
}

/// The third tape of a case of which this is the expansion, now and then at a limit.
fn supplied(random: &mut Random, input: &Input, expansion: &Case) -> Node {
    let (registry, condition) = (&input.first, input.second.as_ref().expect("a condition"));
    let ours = model::answer(expansion).1.result;
    let longest = Operation::Judge.longest_name(2, expansion.file);
    let mut supplied = judge::supplied(&mut trees(random), registry, condition, ours.as_ref(), longest);
    match random.weighted(&[92, 4, 4]) {
        0 => {}
        1 => grow_a_tape(random, &mut supplied),
        _ => brim::stretch_a_text(random, &mut supplied, longest),
    }
    supplied
}

/// A registry state: just built, after some calls, close to what a count can hold, anything.
fn counts(random: &mut Random) -> Counts {
    let kind = random.weighted(&[30, 25, 25, 20]);
    let mut one = || match kind {
        0 => 0,
        1 => random.below(9) as u32,
        2 => u32::MAX - random.below(4) as u32,
        _ => random.number() as u32,
    };
    std::array::from_fn(|_| one())
}

/// A limit at or below what is charged without one, or any.
fn limit(random: &mut Random, charged: usize) -> usize {
    match random.weighted(&[30, 25, 25, 10, 10]) {
        0 => charged,
        1 => charged.saturating_sub(1),
        2 => random.below(charged + 1),
        3 => random.below(20),
        _ => random.number() as usize,
    }
}

/// A damaged tape, or another than is wanted.
fn spoil(random: &mut Random, case: &mut Case) {
    let one = random.below(case.tapes.len());
    match random.weighted(&[85, 5, 5, 5]) {
        0 => damage(random, &mut case.tapes[one]),
        1 => case.tapes[one] = vec![0; random.below(12)],
        2 if case.tapes.len() > 1 => case.tapes.rotate_left(1),
        2 => case.tapes[0] = tape::encode(&another_root(random)),
        _ => case.tapes.iter_mut().for_each(|tape| damage(random, tape)),
    }
}

/// A small tree of some root.
fn another_root(random: &mut Random) -> Node {
    let empty = || Node::counted(41, 1, vec![]);
    match random.below(6) {
        0 => Node::new(28, 0, vec![]),
        1 => Node::new(10, 0, vec![Node::with_text(43, b"t")]),
        2 => empty(),
        3 => Node::new(54, 0, vec![Node::with_text(40, b"m"), empty()]),
        4 => Node::new(70, 0, vec![Node::with_text(40, b"m"), empty()]),
        _ => Node::new(75, 1, vec![]),
    }
}

/// Now and then longer buffers, or one that is too short.
fn vary_buffers(random: &mut Random, case: &mut Case) {
    let there: Vec<usize> = (0..3).filter(|i| case.sizes[*i] > 0).collect();
    if there.is_empty() {
        return;
    }
    match random.weighted(&[88, 8, 4]) {
        1 => there.iter().for_each(|i| case.sizes[*i] += random.size(2000)),
        2 => {
            let i = *random.pick(&there);
            case.sizes[i] = match random.below(3) {
                0 => case.sizes[i] - 1,
                1 => 0,
                _ => random.below(case.sizes[i]),
            };
        }
        _ => {}
    }
}
