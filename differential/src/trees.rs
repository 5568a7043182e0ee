//! Random well-formed trees.

use crate::profile;
use crate::random::Random;
use crate::tape::{self, LARGEST, Node, Value};
use crate::texts;

/// How a parameter is meant to be used.
#[derive(Clone, Copy, Debug, PartialEq, Eq)]
pub enum Use {
    Condition,
    Term,
    Slot,
    Within,
}

const USES: [Use; 4] = [Use::Condition, Use::Term, Use::Slot, Use::Within];

/// What is known of a definition that calls are made of.
#[derive(Clone, Debug)]
pub struct Macro {
    pub name: Vec<u8>,
    pub uses: Vec<Use>,
    /// 61, 62 or 63
    pub body: u8,
}

/// Where a tree stands. It decides which sigils, calls and identifiers are likely there.
#[derive(Clone, Copy, PartialEq, Eq)]
pub enum Ground {
    /// In a definition's body.
    Body,
    /// Where expansion looks: a sigil is refused, a call expanded.
    Entered,
    /// Where expansion does not look, and in the arguments that substitution pastes: anything may stand there.
    Hidden,
}

/// How often, in a hundred, a tree holds what will be refused there.
#[derive(Clone, Copy)]
pub struct Style {
    /// Sigils where expansion looks; in bodies undeclared and misused parameters, and calls.
    pub stray: usize,
    /// Plain identifiers in bodies.
    pub plain: usize,
    /// Calls with a wrong number or kind of arguments, or of a macro that is not there.
    pub wrong: usize,
    /// The 54s that may still stand inside one another.
    pub calls: usize,
    /// Intervals in weeks.
    pub weeks: usize,
    /// Numbers of weeks that are too large for days.
    pub wild: usize,
    /// Intervals around 0 and one day, instead of any.
    pub day: bool,
}

pub struct Trees<'a> {
    pub random: &'a mut Random,
    pub style: Style,
    /// The parameters of the body that is being made.
    pub parameters: Vec<(Vec<u8>, Use)>,
    /// The macros that calls name.
    pub macros: Vec<Macro>,
    /// About how many more nodes are to be made.
    pub fuel: usize,
}

/// No path of a random tree is meant to be longer; the limit itself is tried by `brim`.
pub const DEPTH: usize = 40;

/// A definition has four entries at the least: 60, 40, 41 and 61.
const LEAST_DEFINITION: usize = 4;

/// The most definitions that a registry's tape has room for, with the list's own entry.
pub const MOST_DEFINITIONS: usize = (LARGEST.entries - 1) / LEAST_DEFINITION;

/// The most weeks whose days have a number.
const MOST_WEEKS: i64 = i64::MAX / 7;

const NAMES: [&str; 14] = ["a", "b", "c", "d", "s", "t", "x", "y", "z", "w", "v", "f", "g", "h"];
const ODD_NAMES: [&str; 14] =
    ["", " ", "`", "?x", "$t", "x y", "in", "a.b.c", "~~~~", "0", "t$7", "t$7#1", "#9", "$1#"];
/// Names whose order by bytes is not that of an alphabet, nor that of UTF-16: there `\u{10000}` is before `\u{E000}`.
const WIDE_NAMES: [&str; 12] =
    ["Küche", "Séjour", "é", "e\u{301}", "É", "ä", "ß", "日本", "€", "\u{E000}", "\u{FFFD}", "\u{10000}"];
const MACRO_NAMES: [&str; 13] = ["m", "k", "w", "b", "z", "e", "n", "o", "p", "q", "öffne", "in\u{AD}", "😀"];
const RESERVED: [&str; 17] = [
    "decimal", "datetime", "duration", "ip", "let", "in", "where", "for", "sum", "count", "tp", "formerly", "previous",
    "since", "true", "false", "True",
];

impl Trees<'_> {
    /// Runs `make` with a random share of the fuel, and leaves the rest for what comes next.
    pub fn share<T>(&mut self, make: impl FnOnce(&mut Self) -> T) -> T {
        let fuel = self.fuel;
        let share = self.random.below(fuel + 1);
        self.fuel = share;
        let made = make(self);
        self.fuel += fuel - share;
        made
    }

    fn burn(&mut self) {
        self.fuel = self.fuel.saturating_sub(1);
    }

    // -------------------------------------------------------------- leaves

    pub fn span(&mut self) -> u64 {
        match self.random.weighted(&[25, 30, 30, 12, 3]) {
            0 => 0,
            1 => *self.random.pick(&[tape::span(7, 9), tape::span(1, 2), tape::span(9, 7), tape::span(10, 9)]),
            2 => tape::span(self.random.below(1000) as u32, self.random.below(1000) as u32),
            3 => self.random.number(),
            _ => *self.random.pick(&[u64::MAX, 0xFFFF_FFFF, u64::MAX << 32, tape::span(1_000_000_000, 1)]),
        }
    }

    pub fn name(&mut self) -> Vec<u8> {
        match self.random.weighted(&[76, 8, 12, 3, 1]) {
            0 => self.random.pick(&NAMES).as_bytes().to_vec(),
            1 => self.random.pick(&ODD_NAMES).as_bytes().to_vec(),
            2 => self.random.pick(&WIDE_NAMES).as_bytes().to_vec(),
            3 => {
                let length = self.random.size(64);
                texts::of_length(self.random, length)
            }
            _ => texts::of_length(self.random, 64),
        }
    }

    pub fn macro_name(&mut self) -> Vec<u8> {
        match self.random.weighted(&[960, 12, 20, 8]) {
            0 => self.random.pick(&MACRO_NAMES).as_bytes().to_vec(),
            1 => self.random.pick(&RESERVED).as_bytes().to_vec(),
            2 => self.name(),
            _ => texts::of_length(self.random, 64),
        }
    }

    fn text(&mut self) -> Node {
        let name = self.name();
        Node::with_text(40, &name)
    }

    fn texts(&mut self, code: u8) -> Node {
        let count = self.random.weighted(&[40, 40, 15, 5]);
        Node::counted(code, 1, (0..count).map(|_| self.text()).collect())
    }

    fn amount(&mut self) -> u64 {
        match self.random.weighted(&[80, 10, 10]) {
            0 => self.random.below(100) as u64,
            1 => self.random.number(),
            _ => *self.random.pick(&[u64::MAX, 1 << 63, (1 << 63) - 1, 0]),
        }
    }

    pub fn interval(&mut self) -> Node {
        if self.style.day {
            return profile::interval(self.random);
        }
        if self.random.chance(self.style.weeks) {
            return Node::new(64, self.weeks() as u64, vec![]);
        }
        Node::new(self.random.within(48, 51) as u8, self.amount(), vec![])
    }

    fn weeks(&mut self) -> i64 {
        if self.random.chance(self.style.wild) {
            let beyond = [MOST_WEEKS + 1, -MOST_WEEKS - 1, i64::MAX, i64::MIN, self.random.number() as i64];
            return *self.random.pick(&beyond);
        }
        *self.random.pick(&[0, 1, 2, 52, -1, -52, MOST_WEEKS, -MOST_WEEKS, MOST_WEEKS - 1, 1 - MOST_WEEKS])
    }

    fn binder_type(&mut self) -> Node {
        if self.random.chance(60) { Node::new(46, 0, vec![]) } else { self.texts(47) }
    }

    // -------------------------------------------------------------- sigils

    /// Whether a sigil is to stand here.
    fn wants_sigil(&mut self, ground: Ground) -> bool {
        let percent = match ground {
            Ground::Body => 35,
            Ground::Entered => self.style.stray,
            Ground::Hidden => 15,
        };
        self.random.chance(percent)
    }

    /// A parameter's name for this use. Outside bodies, and now and then inside, any name.
    fn parameter(&mut self, wanted: Use) -> Option<Vec<u8>> {
        if self.random.chance(self.style.stray) {
            let any: Vec<_> = self.parameters.iter().map(|(name, _)| name.clone()).collect();
            return if any.is_empty() || self.random.chance(50) {
                Some(self.name())
            } else {
                Some(self.random.pick(&any).clone())
            };
        }
        let fitting: Vec<_> =
            self.parameters.iter().filter(|(_, u)| *u == wanted).map(|(name, _)| name.clone()).collect();
        if fitting.is_empty() { None } else { Some(self.random.pick(&fitting).clone()) }
    }

    /// The `?` that fits the place, or where there is none a `$`.
    fn sigil(&mut self, ground: Ground, wanted: Use, parameter: u8, binder: u8) -> Node {
        let name = match ground {
            Ground::Body if self.random.chance(75) => self.parameter(wanted),
            Ground::Body => None,
            _ if self.random.chance(50) => Some(self.name()),
            _ => None,
        };
        match name {
            Some(name) => Node::with_text(parameter, &name),
            None => {
                let name = self.name();
                Node::with_text(binder, &name)
            }
        }
    }

    pub fn slot(&mut self, ground: Ground) -> Node {
        let plain = match ground {
            Ground::Body => self.random.chance(self.style.plain),
            _ => !self.wants_sigil(ground),
        };
        if plain {
            let name = self.name();
            return Node::with_text(43, &name);
        }
        self.sigil(ground, Use::Slot, 44, 45)
    }

    fn within(&mut self, ground: Ground) -> Node {
        let name = match ground {
            Ground::Body if self.random.chance(50) => self.parameter(Use::Within),
            Ground::Body => None,
            _ if self.wants_sigil(ground) => Some(self.name()),
            _ => None,
        };
        match name {
            Some(name) => Node::with_text(52, &name),
            None => self.interval(),
        }
    }

    // -------------------------------------------------------------- conditions

    pub fn condition(&mut self, ground: Ground, depth: usize) -> Node {
        self.burn();
        if self.wants_sigil(ground) && (ground != Ground::Body || self.random.chance(40)) {
            return self.sigil_condition(ground);
        }
        if depth > 1
            && self.wants_call(ground)
            && let Some(called) = self.choose(ground, 62)
        {
            return self.spanned(11, |g| vec![g.call_of(&called, ground, depth - 1)]);
        }
        if self.fuel == 0 || depth <= 2 {
            return match self.random.weighted(&[6, 2, 2]) {
                0 => self.predicate(ground, 0),
                1 => self.comparison(ground, depth),
                _ => self.tp(ground),
            };
        }
        // As long as much is to be made, what branches is more likely.
        let weights =
            if self.fuel > 12 { [24, 14, 6, 6, 5, 16, 5, 14, 6, 0, 4] } else { [10, 6, 8, 7, 6, 7, 14, 16, 7, 4, 8] };
        match self.random.weighted(&weights) {
            code @ (0 | 1) => {
                let left = self.share(|g| g.condition(ground, depth - 1));
                self.spanned(code as u8 + 1, |g| vec![left, g.condition(ground, depth - 1)])
            }
            2 => self.spanned(3, |g| vec![g.condition(ground, depth - 1)]),
            code @ (3 | 4) => self.spanned(code as u8 + 1, |g| vec![g.within(ground), g.condition(ground, depth - 1)]),
            5 => self.spanned(6, |g| {
                let left = g.share(|g| g.condition(ground, depth - 1));
                vec![left, g.within(ground), g.condition(ground, depth - 1)]
            }),
            6 => self.predicate(ground, depth - 1),
            7 => self.comparison(ground, depth),
            8 => self.spanned(9, |g| vec![g.slot(ground), g.binder_type(), g.condition(ground, depth - 1)]),
            9 => self.tp(ground),
            _ => self.refinement(ground, depth),
        }
    }

    fn spanned(&mut self, code: u8, parts: impl FnOnce(&mut Self) -> Vec<Node>) -> Node {
        let span = self.span();
        Node::new(code, span, parts(self))
    }

    fn sigil_condition(&mut self, ground: Ground) -> Node {
        let sigil = match ground {
            // A `$` for a whole condition is refused, so in a body it is rare.
            Ground::Body => match self.parameter(Use::Condition) {
                Some(name) => Node::with_text(58, &name),
                None if self.random.chance(self.style.stray) => Node::with_text(59, b"t"),
                None => return self.tp(ground),
            },
            _ => self.sigil(ground, Use::Condition, 58, 59),
        };
        self.spanned(12, |_| vec![sigil])
    }

    fn tp(&mut self, ground: Ground) -> Node {
        self.spanned(10, |g| vec![g.slot(ground)])
    }

    pub fn predicate(&mut self, ground: Ground, depth: usize) -> Node {
        let inner = if ground == Ground::Body { Ground::Body } else { self.field_ground(ground) };
        self.spanned(7, |g| {
            let place = Node::new(42, g.span(), vec![]);
            vec![place, g.texts(41), g.text(), g.text(), g.fields(inner, depth)]
        })
    }

    /// In a field expansion looks at sigils, and into arrays only; the rest of a field is hidden.
    fn field_ground(&mut self, ground: Ground) -> Ground {
        if ground == Ground::Entered && self.random.chance(self.style.stray) { Ground::Hidden } else { ground }
    }

    fn fields(&mut self, ground: Ground, depth: usize) -> Node {
        let count = self.random.weighted(&[20, 40, 25, 10, 5]);
        let mut fields = Vec::new();
        for _ in 0..count {
            fields.push(self.text());
            fields.push(self.share(|g| g.field(ground, depth)));
        }
        Node::counted(41, 2, fields)
    }

    fn field(&mut self, ground: Ground, depth: usize) -> Node {
        let term = self.term(ground, depth);
        match (ground, term.code) {
            // What stands below an aggregate or arithmetic in a field is hidden.
            (Ground::Entered, 30 | 31) if depth > 2 => self.share(|g| g.compound(Ground::Hidden, depth)),
            _ => term,
        }
    }

    fn comparison(&mut self, ground: Ground, depth: usize) -> Node {
        self.spanned(8, |g| {
            let operator = Node::new(53, g.random.below(6) as u64, vec![]);
            let left = g.share(|g| g.operand(ground, depth - 1));
            vec![operator, left, g.operand(ground, depth - 1)]
        })
    }

    /// In an operand expansion does not look into arrays.
    pub fn operand(&mut self, ground: Ground, depth: usize) -> Node {
        if ground == Ground::Entered && depth > 1 && self.random.chance(10) {
            let items = (0..self.random.below(4)).map(|_| self.share(|g| g.term(Ground::Hidden, depth - 1))).collect();
            return Node::counted(29, 1, items);
        }
        self.term(ground, depth)
    }

    /// Fields of a refinement are not looked at by expansion.
    fn refinement(&mut self, ground: Ground, depth: usize) -> Node {
        self.spanned(13, |g| {
            let place = Node::new(42, g.span(), vec![]);
            let base = match g.random.weighted(&[60, 30, 10]) {
                0 if ground == Ground::Body && g.parameters.iter().any(|(_, u)| *u == Use::Condition) => {
                    g.sigil_condition(ground)
                }
                0 | 1 => g.share(|g| g.predicate(ground, depth - 2)),
                _ => g.share(|g| g.condition(ground, depth - 1)),
            };
            let fields = if ground == Ground::Body { Ground::Body } else { Ground::Hidden };
            vec![place, base, g.fields(fields, depth - 1)]
        })
    }

    // -------------------------------------------------------------- terms

    pub fn term(&mut self, ground: Ground, depth: usize) -> Node {
        self.burn();
        if depth > 0 && self.wants_sigil(ground) {
            return self.sigil(ground, Use::Term, 32, 33);
        }
        if depth > 4
            && self.wants_call(ground)
            && let Some(called) = self.choose(ground, 63)
        {
            let call = self.spanned(36, |g| vec![g.call_of(&called, ground, depth - 2)]);
            return Node::new(30, 0, vec![call]);
        }
        if self.fuel == 0 || depth <= 3 || self.random.chance(if self.fuel > 12 { 20 } else { 50 }) {
            return self.literal(ground);
        }
        self.compound(ground, depth)
    }

    fn literal(&mut self, ground: Ground) -> Node {
        match self.random.weighted(&[8, 20, 6, 10, 8, 8, 8, 16, 8, 3]) {
            0 => Node::new(20, 0, vec![self.text(), self.text()]),
            1 => Node::new(21, self.amount(), vec![]),
            code @ (2 | 3) => {
                let length = if self.random.chance(4) { 255 } else { self.random.size(20) - 1 };
                let text = texts::of_length(self.random, length);
                Node::with_text(code as u8 + 20, &text)
            }
            4 => Node::new(24, self.random.below(2) as u64, vec![]),
            code @ (5 | 6) => self.texts(code as u8 + 20),
            7 if ground != Ground::Body || self.random.chance(self.style.plain) => {
                let name = self.name();
                Node::with_text(27, &name)
            }
            7 | 8 => Node::new(28, 0, vec![]),
            _ => Node::counted(29, 1, vec![]),
        }
    }

    fn compound(&mut self, ground: Ground, depth: usize) -> Node {
        match self.random.weighted(&[30, 40, 30]) {
            0 => {
                let count = self.random.below(5);
                let items = (0..count).map(|_| self.share(|g| g.term(ground, depth - 1))).collect();
                Node::counted(29, 1, items)
            }
            1 => Node::new(30, 0, vec![self.aggregate(ground, depth - 2)]),
            _ => {
                let left = self.share(|g| g.term(ground, depth - 1));
                Node::new(31, self.random.below(3) as u64, vec![left, self.term(ground, depth - 1)])
            }
        }
    }

    fn aggregate(&mut self, ground: Ground, depth: usize) -> Node {
        let sum = self.random.chance(50);
        self.spanned(if sum { 34 } else { 35 }, |g| {
            let mut parts = Vec::new();
            if sum {
                parts.push(g.slot(ground));
            }
            let count = g.random.weighted(&[30, 40, 20, 10]);
            parts.push(Node::counted(41, 2, (0..count).flat_map(|_| [g.slot(ground), g.binder_type()]).collect()));
            parts.push(g.condition(ground, depth));
            parts
        })
    }

    // -------------------------------------------------------------- calls

    fn wants_call(&mut self, ground: Ground) -> bool {
        let percent = match ground {
            _ if self.style.calls == 0 => 0,
            Ground::Body => self.style.stray / 3,
            Ground::Entered => 30,
            Ground::Hidden => 8,
        };
        self.random.chance(percent)
    }

    /// The macro to call where one with this body belongs: now and then another, or none that is known.
    fn choose(&mut self, ground: Ground, body: u8) -> Option<Macro> {
        let wrong = self.random.chance(self.style.wrong);
        let fitting: Vec<Macro> = self.macros.iter().filter(|m| wrong || m.body == body).cloned().collect();
        if ground != Ground::Entered && fitting.is_empty() || self.random.chance(self.style.wrong / 4) {
            let uses = (0..self.random.below(3)).map(|_| *self.random.pick(&USES)).collect();
            return Some(Macro { name: self.macro_name(), uses, body });
        }
        if fitting.is_empty() { None } else { Some(self.random.pick(&fitting).clone()) }
    }

    pub fn call_of(&mut self, called: &Macro, ground: Ground, depth: usize) -> Node {
        self.burn();
        let mut uses = called.uses.clone();
        if self.random.chance(self.style.wrong / 2) {
            match self.random.below(2) {
                0 => uses.push(Use::Term),
                _ => drop(uses.pop()),
            }
        }
        let span = self.span();
        self.style.calls -= 1;
        let arguments = uses.iter().map(|u| self.share(|g| g.argument(*u, ground, depth))).collect();
        self.style.calls += 1;
        Node::new(54, span, vec![Node::with_text(40, &called.name), Node::counted(41, 1, arguments)])
    }

    fn argument(&mut self, wanted: Use, ground: Ground, depth: usize) -> Node {
        let wanted = if self.random.chance(self.style.wrong) { *self.random.pick(&USES) } else { wanted };
        match wanted {
            Use::Condition => Node::new(55, 0, vec![self.condition(ground, depth)]),
            // The parser gives a bare call as a condition, also where it is a value.
            Use::Term
                if depth > 1
                    && self.wants_call(ground)
                    && let Some(called) = self.choose(ground, 63) =>
            {
                Node::new(55, 0, vec![self.spanned(11, |g| vec![g.call_of(&called, ground, depth - 1)])])
            }
            Use::Term => Node::new(56, 0, vec![self.operand(ground, depth)]),
            Use::Slot => {
                let name = self.name();
                Node::new(56, 0, vec![Node::with_text(27, &name)])
            }
            Use::Within => Node::new(57, 0, vec![self.interval()]),
        }
    }

    // -------------------------------------------------------------- definitions

    pub fn definition(&mut self, name: Vec<u8>) -> (Node, Macro) {
        let count = match self.random.weighted(&[94, 4, 2]) {
            0 => self.random.weighted(&[20, 30, 25, 15, 10]),
            1 => self.random.within(5, 15),
            _ => 16,
        };
        self.parameters = (0..count).map(|_| (self.name(), *self.random.pick(&USES))).collect();
        let uses = self.parameters.iter().map(|(_, wanted)| *wanted).collect();
        // Where a name stands twice, the last parameter's argument counts, so the body uses it as that one.
        for i in (0..count).rev() {
            let (name, wanted) = self.parameters[i].clone();
            self.parameters[..i].iter_mut().filter(|(n, _)| *n == name).for_each(|(_, w)| *w = wanted);
        }
        let body = match self.random.weighted(&[60, 35, 5]) {
            0 => Node::new(62, 0, vec![self.condition(Ground::Body, DEPTH)]),
            1 => Node::new(63, 0, vec![self.value_body()]),
            _ => Node::new(61, 0, vec![]),
        };
        let known = Macro { name: name.clone(), uses, body: body.code };
        let parameters = std::mem::take(&mut self.parameters);
        let mut list = Vec::new();
        for (name, _) in parameters {
            list.push(Node::new(42, self.span(), vec![]));
            list.push(Node::with_text(40, &name));
        }
        let span = self.span();
        let parts = vec![Node::with_text(40, &name), Node::counted(41, 2, list), body];
        (Node::new(60, span, parts), known)
    }

    fn value_body(&mut self) -> Node {
        if self.random.chance(30) { self.term(Ground::Body, DEPTH) } else { self.compound(Ground::Body, DEPTH) }
    }

    /// A registry, whose names are mostly different.
    pub fn registry(&mut self, count: usize) -> Node {
        let mut definitions = Vec::new();
        for _ in 0..count {
            let mut name = self.macro_name();
            if self.macros.iter().any(|m| m.name == name) && !self.random.chance(self.style.wrong / 2) {
                name.push(b'0' + self.random.below(10) as u8);
                name.push(b'0' + self.random.below(10) as u8);
                texts::shorten(&mut name, 64);
            }
            let (definition, known) = self.share(|g| g.definition(name));
            definitions.push(definition);
            self.macros.push(known);
        }
        Node::counted(41, 1, definitions)
    }

    /// A registry of many definitions, most of them Cedar and without parameters. The last one has the first claim to the
    /// entries that are left, so that calls of it are made; few others can be called. Names are numbered, and now and then
    /// the last one has an earlier one's name, or a reserved one.
    pub fn large_registry(&mut self, count: usize) -> Node {
        let mut names: Vec<Vec<u8>> = (0..count).map(|i| format!("d{i}").into_bytes()).collect();
        match self.random.weighted(&[85, 10, 5]) {
            0 => {}
            1 => names[count - 1] = names[self.random.below(count - 1)].clone(),
            _ => names[count - 1] = self.random.pick(&RESERVED).as_bytes().to_vec(),
        }
        let mut spare = (LARGEST.entries - 1).saturating_sub(LEAST_DEFINITION * count);
        let mut definitions: Vec<Node> = names
            .into_iter()
            .rev()
            .enumerate()
            .map(|(i, name)| {
                let made = (i == 0 || self.random.chance(2)).then(|| self.small_definition(&name, spare)).flatten();
                let (definition, known) = made.unwrap_or_else(|| self.cedar_definition(name));
                spare = spare.saturating_sub(tape::measure(&definition).entries - LEAST_DEFINITION);
                self.macros.push(known);
                definition
            })
            .collect();
        definitions.reverse();
        Node::counted(41, 1, definitions)
    }

    /// A definition with a few nodes, if the entries that are left are enough for one that comes up.
    fn small_definition(&mut self, name: &[u8], spare: usize) -> Option<(Node, Macro)> {
        let fuel = std::mem::replace(&mut self.fuel, 2);
        let made = (0..8)
            .map(|_| self.definition(name.to_vec()))
            .find(|(definition, _)| tape::measure(definition).entries <= LEAST_DEFINITION + spare);
        self.fuel = fuel;
        made
    }

    fn cedar_definition(&mut self, name: Vec<u8>) -> (Node, Macro) {
        let parts = vec![Node::with_text(40, &name), Node::counted(41, 2, vec![]), Node::new(61, 0, vec![])];
        (Node::new(60, self.span(), parts), Macro { name, uses: vec![], body: 61 })
    }

    // -------------------------------------------------------------- changes

    /// Changes one entry of a tree, not one of the first few.
    pub fn change_an_entry(&mut self, tree: &mut Node, first: usize) {
        let entries = tape::measure(tree).entries;
        let mut place = first + self.random.below(entries - first);
        self.change_at(tree, &mut place);
    }

    fn change_at(&mut self, node: &mut Node, place: &mut usize) -> bool {
        if *place > 0 {
            *place -= 1;
            return node.children.iter_mut().any(|child| self.change_at(child, place));
        }
        match tape::value(node.code) {
            Value::TextLength => *node = Node::with_text(node.code, &self.name()),
            Value::Any if (48..=51).contains(&node.code) => node.code = 48 + (node.code - 47) % 4,
            Value::Any => node.value = node.value.wrapping_add(1),
            Value::Below(end) => node.value = (node.value + 1) % end,
            Value::Span => node.value = self.span(),
            Value::Count if node.value > 0 => {
                // The last item goes.
                let width = node.children.len() / node.value as usize;
                node.children.truncate(node.children.len() - width);
                node.value -= 1;
            }
            Value::Zero if node.code == 28 => *node = Node::new(24, 1, vec![]),
            Value::Zero if node.code == 61 => *node = Node::new(63, 0, vec![Node::new(28, 0, vec![])]),
            Value::Zero | Value::Count => {}
        }
        true
    }
}
