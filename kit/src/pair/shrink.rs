//! Makes a case smaller, as long as it stays what it was found for.

use super::edits::{collect_texts, given, redirect, rename, unused};
use super::edits::{with_body, without_comparison, without_parameter, without_spans};
use super::malformed::{self, Flat};
use super::shape::{Part, Shape};
use super::{limits, operations, plain, simpler};
use crate::archive;
use differential::case::Case;
use differential::tape::{Node, Sort};
use std::collections::BTreeSet;
use std::ops::Range;
use std::time::{Duration, Instant};

/// Among so many macros calls are changed from one to another; of more most are not needed, and go first.
const FEW: usize = 6;

/// How long it may take.
#[derive(Clone, Copy, Debug)]
pub struct Effort {
    pub tries: usize,
    pub time: Duration,
}

pub struct Shrunk {
    pub shape: Shape,
    pub tries: usize,
}

/// The smallest case found for which `still` holds, as it does for the given one: the one with the fewest entries in all,
/// and of those the one with the shortest text. If a tape of it is no tree, or has more than a dozen entries, one that can
/// be read, or whose largest tape is smaller, is taken, if there is any.
pub fn shrink(
    case: &Case,
    effort: Effort,
    still: &mut dyn FnMut(&Case) -> Result<bool, String>,
) -> Result<Shrunk, String> {
    let best = Shape::of(case);
    let mut shrinker = Shrinker { best, goal: Goal::All, cost: None, still, tries: 0, effort, since: Instant::now() };
    shrinker.run()?;
    if effort.tries > 0 && (shrinker.best.unreadable() > 0 || shrinker.best.largest() > plain::SMALL) {
        shrinker.aim(Goal::Each, Effort { tries: shrinker.tries + effort.tries / 4, time: effort.time / 4 });
        shrinker.limits()?;
        shrinker.run()?;
    }
    Ok(Shrunk { shape: shrinker.best, tries: shrinker.tries })
}

/// What is to become small.
#[derive(Clone, Copy, PartialEq, Eq)]
enum Goal {
    /// All tapes together.
    All,
    /// Tapes that are no trees go first; then the largest one, down to a dozen entries; then all together.
    Each,
}

/// What makes one case smaller than another: the figures of the goal, and then the length of its text.
type Cost = ([usize; 3], usize);

/// What a part may become.
type Others<'a> = Box<dyn Iterator<Item = Part> + 'a>;

/// Other bytes for some, of which a range is edited: of entries or of bytes.
type Edit<'a> = dyn Fn(&[u8], Range<usize>) -> Vec<u8> + 'a;

struct Shrinker<'a> {
    best: Shape,
    goal: Goal,
    /// The cost of the best one, once it was asked for.
    cost: Option<Cost>,
    still: &'a mut dyn FnMut(&Case) -> Result<bool, String>,
    tries: usize,
    effort: Effort,
    since: Instant,
}

impl Shrinker<'_> {
    /// All there is to try, until nothing is found any more.
    fn run(&mut self) -> Result<(), String> {
        loop {
            let before = self.best_cost();
            self.options()?;
            self.parameters()?;
            self.bodies()?;
            self.calls()?;
            self.values()?;
            self.spans()?;
            (0..self.best.parts.len()).try_for_each(|part| self.part(part))?;
            self.operations()?;
            self.names()?;
            if self.best_cost() == before || self.is_spent() {
                return Ok(());
            }
        }
    }

    fn aim(&mut self, goal: Goal, effort: Effort) {
        (self.goal, self.cost, self.effort, self.since) = (goal, None, effort, Instant::now());
    }

    fn is_spent(&self) -> bool {
        self.tries >= self.effort.tries || self.since.elapsed() > self.effort.time
    }

    fn figures(&self, shape: &Shape) -> [usize; 3] {
        match self.goal {
            Goal::All => [0, 0, shape.entries()],
            Goal::Each => [shape.unreadable(), shape.largest().max(plain::SMALL), shape.entries()],
        }
    }

    fn best_cost(&mut self) -> Cost {
        let cost = self.cost.unwrap_or_else(|| (self.figures(&self.best), self.best.length()));
        self.cost = Some(cost);
        cost
    }

    /// Takes the shape if it is smaller and will do, as it is or with another limit.
    fn consider(&mut self, shape: Shape) -> Result<bool, String> {
        // A text takes time to print, and most shapes are told by their figures alone.
        let (figures, best) = (self.figures(&shape), self.best_cost().0);
        if figures > best || self.is_spent() {
            return Ok(false);
        }
        let mut found = self.take(&shape, figures)?;
        for limit in budgets(&shape) {
            if !found {
                let case = Case { limit, ..shape.case.clone() };
                found = self.take(&Shape { case, parts: shape.parts.clone() }, figures)?;
            }
        }
        Ok(found)
    }

    fn take(&mut self, shape: &Shape, figures: [usize; 3]) -> Result<bool, String> {
        let cost = (figures, shape.length());
        if cost >= self.best_cost() || self.is_spent() {
            return Ok(false);
        }
        self.tries += 1;
        let will_do = (self.still)(&shape.case())?;
        if will_do {
            (self.best, self.cost) = (shape.clone(), Some(cost));
        }
        Ok(will_do)
    }

    /// What could not be made small otherwise may be at a limit.
    fn limits(&mut self) -> Result<(), String> {
        limits::cases().into_iter().try_for_each(|shape| self.consider(shape).map(drop))
    }

    /// A part of the case alone, for another operation.
    fn operations(&mut self) -> Result<(), String> {
        operations::others(&self.best).into_iter().try_for_each(|shape| self.consider(shape).map(drop))
    }

    fn options(&mut self) -> Result<(), String> {
        while {
            let mut found = false;
            for case in self.best.usual() {
                found |= self.consider(Shape { case, parts: self.best.parts.clone() })?;
            }
            found
        } {}
        Ok(())
    }

    /// All spans at once; one by one they come with the other values.
    fn spans(&mut self) -> Result<(), String> {
        self.consider(self.best.edited(|tree| *tree = without_spans(tree))).map(drop)
    }

    fn part(&mut self, part: usize) -> Result<(), String> {
        match self.best.parts[part] {
            Part::Tree(_) => self.tree(part),
            Part::Bytes(_) => self.bytes(part),
        }
    }

    /// From the root on, every place of a tree.
    fn tree(&mut self, part: usize) -> Result<(), String> {
        let root = self.root(part).copied().unwrap_or(Sort::Any);
        let seen = |part: &Part| part.tree().map(|tree| (tree.clone(), simpler::places(tree, root)));
        self.each_place(part, &seen, &|(tree, places), place| {
            let (path, sort) = places.get(place)?;
            let others = simpler::instead(simpler::at(tree, path), *sort).into_iter();
            Some(Box::new(others.map(move |other| Part::Tree(simpler::replaced(tree, path, other)))))
        })
    }

    /// From the first place of a part on, each by what could stand there instead. What has to be seen of the part for that
    /// is looked at again only when something smaller was found.
    fn each_place<S>(
        &mut self,
        part: usize,
        seen: &dyn Fn(&Part) -> Option<S>,
        instead: &dyn Fn(&S, usize) -> Option<Others<'_>>,
    ) -> Result<(), String> {
        let (mut place, mut own) = (0, seen(&self.best.parts[part]));
        loop {
            let Some(others) = own.as_ref().and_then(|own| instead(own, place)) else { return Ok(()) };
            match self.any_of(part, others)? {
                true => own = seen(&self.best.parts[part]),
                false => place += 1,
            }
            if self.is_spent() {
                return Ok(());
            }
        }
    }

    /// Takes the first of these for a part that will do.
    fn any_of(&mut self, part: usize, others: Others) -> Result<bool, String> {
        for other in others {
            if self.consider(self.best.with(part, other))? {
                return Ok(true);
            }
        }
        Ok(false)
    }

    /// The sort that the operation wants a part's root to have.
    fn root(&self, part: usize) -> Option<&'static Sort> {
        self.best.case.operation.roots().get(part)
    }

    /// A parameter goes with the arguments that are given for it; or one of these goes to where it stands in the body.
    fn parameters(&mut self) -> Result<(), String> {
        for (names, count) in self.macros() {
            for place in (0..count).rev() {
                let argument =
                    self.best.parts.iter().filter_map(Part::tree).find_map(|tree| given(tree, &names, place));
                for inlined in [None, argument] {
                    let inlined = inlined.as_ref();
                    self.consider(self.best.edited(|tree| without_parameter(tree, &names, place, inlined)))?;
                }
                self.consider(self.best.edited(|tree| unused(tree, &names, place)))?;
            }
        }
        Ok(())
    }

    /// A macro without parameters goes to where it is called, and its definition away.
    fn bodies(&mut self) -> Result<(), String> {
        let mut place = 0;
        while let [Part::Tree(registry), Part::Tree(condition)] = &self.best.parts[..]
            && let Some(definition) = registry.children.get(place).filter(|definition| definition.code == 60)
        {
            let [name, parameters, body] = &definition.children[..] else { return Ok(()) };
            place += 1;
            if parameters.value > 0 || body.code != 62 {
                continue;
            }
            let mut others = registry.children.clone();
            others.remove(place - 1);
            let mut shape = self.best.clone();
            shape.parts[1] = Part::Tree(with_body(condition, &name.text, &body.children[0]));
            shape.parts[0] = Part::Tree(Node::counted(41, 1, others));
            place -= usize::from(self.consider(shape)?);
        }
        Ok(())
    }

    /// All calls of one macro become calls of another, and its definition goes.
    fn calls(&mut self) -> Result<(), String> {
        let Some(Part::Tree(registry)) = self.best.parts.first() else { return Ok(()) };
        let definitions: Vec<Node> = registry.children.iter().filter(|child| child.code == 60).cloned().collect();
        if registry.code != 41 || definitions.len() > FEW {
            return Ok(());
        }
        for (i, from) in definitions.iter().enumerate() {
            for to in definitions.iter().filter(|to| *to != from) {
                if self.redirected(i, from, to)? {
                    return self.calls();
                }
            }
        }
        Ok(())
    }

    /// The definition at a place goes, and calls of it become those of another one.
    fn redirected(&mut self, place: usize, from: &Node, to: &Node) -> Result<bool, String> {
        let [old, new] = [from, to].map(|definition| definition.children[0].text.clone());
        let count = to.children[1].value as usize;
        for filler in [plain::holding(56, plain::wildcard()), plain::holding(55, plain::tp())] {
            let mut shape = self.best.edited(|tree| redirect(tree, &old, &new, count, &filler));
            if let Part::Tree(registry) = &mut shape.parts[0] {
                registry.children.remove(place);
                registry.value -= 1;
            }
            if self.consider(shape)? {
                return Ok(true);
            }
        }
        Ok(false)
    }

    /// A macro for values becomes one for conditions, and a comparison with a call of it that call alone. The definition
    /// is larger by that, and what calls it smaller.
    fn values(&mut self) -> Result<(), String> {
        let Some(Part::Tree(registry)) = self.best.parts.first().cloned() else { return Ok(()) };
        for (i, definition) in registry.children.iter().enumerate().filter(|(_, child)| child.code == 60) {
            let [name, _, body] = &definition.children[..] else { return Ok(()) };
            if registry.code != 41 || body.code != 63 {
                continue;
            }
            for condition in [plain::tp(), plain::equal(body.children[0].clone())] {
                let mut shape = self.best.edited(|tree| *tree = without_comparison(tree, &name.text));
                if let Part::Tree(registry) = &mut shape.parts[0] {
                    registry.children[i].children[2] = plain::holding(62, condition);
                }
                self.consider(shape)?;
            }
        }
        Ok(())
    }

    /// The macros by the names that calls of them have, and how many parameters each has. In a substitution definition
    /// and call may have different names.
    fn macros(&self) -> BTreeSet<(Vec<Vec<u8>>, usize)> {
        let trees: Vec<&Node> = self.best.parts.iter().filter_map(Part::tree).collect();
        let lone_call = trees.get(1).filter(|tree| tree.code == 54).map(|call| call.children[0].text.clone());
        let mut found = BTreeSet::new();
        for tree in &trees {
            tree.visit(&mut |node| {
                if node.code == 60 {
                    let names = std::iter::once(node.children[0].text.clone()).chain(lone_call.clone()).collect();
                    found.insert((names, node.children[1].value as usize));
                }
            });
        }
        found
    }

    /// Each text by a short one, wherever it stands.
    fn names(&mut self) -> Result<(), String> {
        let mut texts: Vec<(Vec<u8>, &'static str)> = Vec::new();
        for tree in self.best.parts.iter().filter_map(Part::tree) {
            collect_texts(tree, "", &mut texts);
        }
        for (text, letters) in texts.clone() {
            let is_free = |letter: &&str| !texts.iter().any(|(other, _)| other == letter.as_bytes());
            let Some(letter) = letters.split(' ').find(is_free) else { continue };
            if self.consider(self.best.edited(|tree| rename(tree, &text, letter.as_bytes())))? {
                texts.push((letter.as_bytes().to_vec(), letters));
            }
        }
        Ok(())
    }

    /// What is no tree loses entries and bytes, many at once and then fewer, and what is left becomes plain.
    fn bytes(&mut self, part: usize) -> Result<(), String> {
        for other in malformed::plainest(self.bytes_of(part)) {
            if self.put(part, other)? {
                break;
            }
        }
        if Flat::of(self.bytes_of(part)).is_none() {
            self.pieces(part, &|bytes| Some(bytes.len()), &malformed::without_bytes)?;
            return self.pieces(part, &|bytes| Some(bytes.len()), &malformed::zeroed);
        }
        self.entry_pieces(part, Flat::without)?;
        if let Some(flat) = Flat::of(self.bytes_of(part)) {
            self.put(part, flat.without_rest().encode())?;
        }
        self.entry_pieces(part, Flat::plain)?;
        self.entry_pieces(part, Flat::wild)?;
        self.entries(part)
    }

    /// Edits pieces of a tape's entries.
    fn entry_pieces(&mut self, part: usize, edit: fn(&Flat, Range<usize>) -> Flat) -> Result<(), String> {
        let edited = |bytes: &[u8], range| Flat::of(bytes).map_or(vec![], |flat| edit(&flat, range).encode());
        self.pieces(part, &|bytes| Flat::of(bytes).map(|flat| flat.len()), &edited)
    }

    /// Edits pieces of what a part has so many of, large ones first, each size from the end on.
    fn pieces(&mut self, part: usize, count: &dyn Fn(&[u8]) -> Option<usize>, edit: &Edit) -> Result<(), String> {
        for chunk in malformed::pieces(count(self.bytes_of(part)).unwrap_or(0)) {
            let mut end = count(self.bytes_of(part)).unwrap_or(0);
            while end > 0 && !self.is_spent() {
                let start = end.saturating_sub(chunk);
                let edited = edit(self.bytes_of(part), start..end);
                self.put(part, edited)?;
                end = start.min(count(self.bytes_of(part)).unwrap_or(0));
            }
        }
        Ok(())
    }

    /// From the first entry on, every part of the tree that the entries are as far as they are one.
    fn entries(&mut self, part: usize) -> Result<(), String> {
        let root = self.root(part);
        let seen = |part: &Part| {
            let flat = part.bytes().and_then(Flat::of)?;
            let extents = flat.extents(root.copied().unwrap_or(Sort::Any));
            Some((flat, extents))
        };
        self.each_place(part, &seen, &|(flat, extents), place| {
            let others = (place < flat.len()).then(|| flat.instead(place, extents).into_iter())?;
            Some(Box::new(others.map(move |other| Part::of(other.encode(), root))))
        })
    }

    /// The bytes of a part that is no tree; none of one that is.
    fn bytes_of(&self, part: usize) -> &[u8] {
        self.best.parts[part].bytes().unwrap_or_default()
    }

    fn put(&mut self, part: usize, bytes: Vec<u8>) -> Result<bool, String> {
        self.consider(self.best.with(part, Part::of(bytes, self.root(part))))
    }
}

/// Where the limit matters, what is charged has to reach it, or to be one more. As parts go, less is charged.
fn budgets(shape: &Shape) -> Vec<u32> {
    let limit = shape.case.limit;
    if limit == u32::MAX || !shape.case.operation.charges() || shape.unreadable() > 0 {
        return vec![];
    }
    let unlimited = Case { limit: u32::MAX, ..shape.case() };
    let charged = archive::by_model(&unlimited).charged().min(u64::from(u32::MAX)) as u32;
    [charged, charged.saturating_sub(1)].into_iter().filter(|exact| *exact != limit).collect()
}

#[cfg(test)]
mod tests {
    use super::*;
    use crate::second::{Fault, Second};
    use crate::serve::Head;
    use crate::{notation, reading};
    use differential::case::Operation;
    use differential::generate;
    use differential::tape::{self, Value};

    /// The first case of a seed of which something holds, made small.
    fn smallest(holds: impl Fn(&Case) -> bool) -> Shape {
        let case = (0..).map(|i| generate::case(21, i)).find(|case| holds(case)).expect("one of them");
        shrunk(&case, holds)
    }

    fn shrunk(case: &Case, holds: impl Fn(&Case) -> bool) -> Shape {
        assert!(holds(case), "{}", Shape::of(case).text());
        let effort = Effort { tries: 20_000, time: Duration::from_secs(60) };
        shrink(case, effort, &mut |case| Ok(holds(case))).expect("shrunk").shape
    }

    /// Whether a case shows that a head is wrong.
    fn shows(fault: Fault) -> impl Fn(&Case) -> bool {
        let known = Second { fault }.hello().operations;
        let is_known = move |case: &Case| known.iter().any(|name| name == case.operation.name());
        move |case| is_known(case) && Second { fault }.answer(case) != archive::by_model(case)
    }

    fn expansion(text: &str) -> Case {
        let document = notation::parse(&format!("spans 0..0 {text}")).expect("a text");
        let trees = [document.registry(), document.rules[0].condition.clone()];
        let limit = document.limit.unwrap_or(u32::MAX);
        Case::new(Operation::Expand, limit, trees.iter().map(tape::encode).collect())
    }

    fn definition(text: &str) -> Case {
        let document = notation::parse(&format!("spans 0..0 {text}")).expect("a text");
        Case::new(Operation::Check, 0, vec![tape::encode(&document.definitions[0])])
    }

    fn holds(case: &Case, code: u8) -> bool {
        let mut found = false;
        for tree in Shape::of(case).parts.iter().filter_map(Part::tree) {
            tree.visit(&mut |node| found |= node.code == code);
        }
        found
    }

    fn answers(case: &Case, operation: &str, number: u64) -> bool {
        case.operation.name() == operation && archive::by_model(case).number() == number
    }

    #[test]
    fn small_cases_remain() {
        let shape = smallest(|case| answers(case, "expand", 47));
        assert!(shape.entries() <= 12, "{}", shape.text());
        let shape = smallest(|case| answers(case, "expand", 35));
        assert!(shape.entries() <= 12, "{}", shape.text());
    }

    #[test]
    fn limits_are_lowered_with_what_is_charged() {
        let (case, differs) =
            (expansion("limit 12 m(x) = ?x && ?x && tp(z) rule: m(m(tp(y)))"), shows(Fault::BudgetShort));
        let shape = shrunk(&case, differs);
        assert!(shape.entries() <= 11, "{}", shape.text());
    }

    #[test]
    fn parts_are_hoisted_whatever_stands_around_them() {
        let case = definition("n(x) = P{w: count where tp(?x) && tp(z)} && tp(z)");
        let counts = |case: &Case| case.operation == Operation::Check && holds(case, 35);
        let shape = shrunk(&case, counts);
        assert!(shape.entries() == 9 && shape.text().contains("value n() = count where"), "{}", shape.text());
        let case = definition("value n() = [1, sum x where !tp(z) && tp(y)]");
        let negates = |case: &Case| case.operation == Operation::Check && holds(case, 3);
        let shape = shrunk(&case, negates);
        assert!(shape.entries() == 7 && shape.text().contains("() = !tp("), "{}", shape.text());
    }

    #[test]
    fn calls_of_one_macro_become_calls_of_another() {
        let case = expansion("m(P) = tp(q) value k() = * rule: m(k())");
        let shape = shrunk(&case, shows(Fault::CountsNestedForgotten));
        assert_eq!(shape.text(), "m(P) = tp(q)\nrule: m(m(*))\n");
    }

    #[test]
    fn a_value_macro_becomes_one_for_conditions() {
        let shape = shrunk(&expansion("value m() = * rule: * == m()"), shows(Fault::HandsBack));
        assert_eq!(shape.text(), "m() = tp(q)\nrule: m()\n");
    }

    #[test]
    fn texts_that_stand_side_by_side_stay_so() {
        let case = expansion(r"value q() = count for q: '\xF0\x90', $'\x80\x80': Timepoint where tp(q) rule: tp(q)");
        let shape = shrunk(&case, shows(Fault::TextsTogether));
        assert!(shape.entries() <= 6, "{}", shape.text());
    }

    #[test]
    fn another_operation_may_need_less() {
        let shape = shrunk(&expansion("m() = P{c: 0, d: 1}{h: *} rule: !m()"), shows(Fault::FieldsBefore));
        assert_eq!(shape.each_entries(), [1, 13], "{}", shape.text());
        let shape = shrunk(&expansion("m(x) = P{c: ?x} k() = tp($t) rule: m(5) && k()"), shows(Fault::FileZeroWritten));
        assert_eq!(shape.case.operation, Operation::Substitute, "{}", shape.text());
    }

    #[test]
    fn at_a_limit_no_tape_is_large() {
        let strings = expansion(r#"m() = * == ["a\{255}"; 12, "aaaaaaaaaaaa"] rule: tp(q)"#);
        let shape = shrunk(&strings, shows(Fault::TextOver));
        assert!(shape.largest() <= 12, "{}", shape.text());
        let wildcards = expansion("rule: * == [*; 1020]");
        let shape = shrunk(&wildcards, shows(Fault::ResultShort));
        assert!(shape.entries() <= 41, "{}", shape.text());
    }

    #[test]
    fn what_needs_its_size_becomes_plain() {
        let is_over =
            |case: &Case| answers(case, "check", 3) && reading::sizes(&case.tapes[0]).is_some_and(|s| s.0 == 1025);
        let shape = smallest(is_over);
        assert!(shape.entries() == 1025 && shape.text().len() < 80, "{}", shape.text());
    }

    /// The largest of the first cases that have a tape that is no tree and of which something holds, made small.
    fn smallest_malformed(holds: impl Fn(&Case) -> bool) -> (Shape, Shape) {
        let cases = (0..60_000).map(|i| generate::case(21, i)).filter(|case| holds(case)).map(|case| Shape::of(&case));
        let large = cases.filter(|shape| shape.unreadable() > 0).take(8).max_by_key(Shape::entries).expect("some");
        let small = shrunk(&large.case, holds);
        (large, small)
    }

    /// Whether the model refuses a tape with 2, but not once it is edited.
    fn is_refused_but_for(case: &Case, edit: impl Fn(&Flat) -> Flat) -> bool {
        let edited = |tape: &Vec<u8>| Flat::of(tape).map_or(tape.clone(), |flat| edit(&flat).encode());
        let other = Case { tapes: case.tapes.iter().map(edited).collect(), ..case.clone() };
        let number = |case: &Case| archive::by_model(case).number();
        case.operation != Operation::Sheet && number(case) == 2 && number(&other) != 2
    }

    /// Whether a case's first tape is no tree.
    fn is_malformed(case: &Case) -> bool {
        let root = case.operation.roots().first();
        root.is_some_and(|root| reading::tree(&case.tapes[0], *root).is_err())
    }

    /// A head that first looks at the entries and then at how many there are says 2 where 3 comes first.
    #[test]
    fn a_malformed_tape_of_too_many_entries_becomes_the_least_of_these() {
        let is_large = |tape: &Vec<u8>| Flat::of(tape).is_some_and(|flat| flat.len() > 1024);
        let (large, small) = smallest_malformed(|case| is_large(&case.tapes[0]) && is_malformed(case));
        assert!(large.each_entries()[0] > 1025 && small.each_entries()[0] == 1025, "{:?}", small.each_entries());
        // The least condition has two entries.
        assert!(small.each_entries()[1..].iter().sum::<usize>() <= 2, "{}", small.readable());
        let lines: Vec<String> = small.readable().lines().map(str::to_string).collect();
        assert!(lines.len() < 20 && lines.iter().any(|line| line.trim() == "1,013 entries more"), "{lines:?}");
    }

    /// Where the sizes alone show it, nothing else is left.
    #[test]
    fn sizes_that_are_over_need_no_entries() {
        let is_over = |case: &Case| {
            let sizes = reading::sizes(&case.tapes[0]).filter(|_| is_malformed(case));
            sizes.is_some_and(|(entries, _)| entries > 1024) && archive::by_model(case).number() == 3
        };
        let (large, small) = smallest_malformed(is_over);
        assert!(large.entries() > 1024 && small.entries() == 0, "{}", small.readable());
        assert!(small.readable().contains("1025 entries and 0 bytes of text"), "{}", small.readable());
    }

    /// What is wrong stands in a tree that is otherwise one: a value that has to be 0.
    #[test]
    fn what_stands_around_a_wrong_value_goes() {
        let zero =
            |flat: &Flat| flat.with_values(|code, value| if tape::value(code) == Value::Zero { 0 } else { value });
        let (large, small) = smallest_malformed(|case| is_refused_but_for(case, zero));
        assert!(large.entries() > 40 && small.entries() <= 8, "{}: {}", large.entries(), small.readable());
    }

    /// And one that has to be below a few.
    #[test]
    fn what_stands_around_an_operator_goes() {
        let below = |flat: &Flat| flat.with_values(|code, value| if code == 53 { value % 6 } else { value });
        let (large, small) = smallest_malformed(|case| is_refused_but_for(case, below));
        assert!(large.entries() > 40 && small.entries() <= 8, "{}: {}", large.entries(), small.readable());
    }

    #[test]
    fn what_is_left_over_stays_alone() {
        let (large, small) = smallest_malformed(|case| {
            let without_last = |flat: &Flat| flat.without(flat.len().saturating_sub(1)..flat.len());
            is_refused_but_for(case, without_last)
        });
        assert!(large.entries() > 8 && small.entries() <= 8, "{}: {}", large.entries(), small.readable());
        let (large, small) = smallest_malformed(|case| is_refused_but_for(case, Flat::without_rest));
        assert!(large.entries() > 8 && small.entries() <= 8, "{}: {}", large.entries(), small.readable());
    }

    /// It goes as a whole, or not at all: of many entries not one makes that another question.
    #[test]
    fn what_is_left_over_is_tried_once() {
        let sizes = [60, 2].map(u32::to_le_bytes).concat();
        let tape = [sizes, vec![28; 60], vec![0; 8 * 60], b"ab".to_vec()].concat();
        let without = std::cell::Cell::new(0);
        let shape = shrunk(&Case::new(Operation::Check, 0, vec![tape]), |case| {
            let left = |tape| reading::sections(tape).ok().filter(|s| s.codes.len() == 60).map(|s| s.text.len());
            without.set(without.get() + usize::from(left(&case.tapes[0]) == Some(0)));
            left(&case.tapes[0]).is_some_and(|left| left > 0)
        });
        assert!(shape.entries() > 60 && without.get() < 10, "{}", without.get());
    }

    /// A tape of a provider has no text in the notation, and becomes small all the same.
    #[test]
    fn a_provider_tape_becomes_small() {
        let is_refused = |case: &Case| answers(case, "argument_to_term", 56);
        let (large, small) = smallest_malformed(is_refused);
        assert!(large.entries() > 10 && small.entries() <= 5, "{}: {}", large.entries(), small.readable());
    }
}
