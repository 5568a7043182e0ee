//! Conditions and terms. Both are read by one grammar, since only what follows tells `?x` the condition from `?x` the
//! term; each operator then says what its sides have to be.

use super::bounds::MOST_REPEATS;
use super::lex::{Kind, Mistake};
use super::names;
use super::parser::{Parser, is_word};
use super::placed::{Place, Placed};

/// What was read, with the part of the text that it takes.
pub struct Parsed {
    pub what: What,
    pub start: usize,
    pub end: usize,
}

pub enum What {
    Condition(Placed),
    Term(Placed),
    /// `?x` or `$t`, a condition or a term.
    Sigil {
        is_parameter: bool,
        name: Vec<u8>,
        place: Place,
        span: u64,
        written: Option<u64>,
    },
    /// A 54, for a condition or a term; `outer` is the span of the 11 or 36 around it.
    Call {
        call: Placed,
        outer: u64,
    },
}

/// How tightly operators bind.
#[derive(Clone, Copy, PartialEq, Eq, PartialOrd, Ord)]
pub enum Level {
    /// All of an expression. `exists`, `count` and `sum` go on to its end, so they are of this level.
    Whole,
    Or,
    And,
    Since,
    Comparison,
    Sum,
    Product,
}

/// The operators between two sides, with their levels.
const BETWEEN: [(&str, Level); 11] = [
    ("||", Level::Or),
    ("&&", Level::And),
    ("<=", Level::Comparison),
    ("<", Level::Comparison),
    (">=", Level::Comparison),
    (">", Level::Comparison),
    ("==", Level::Comparison),
    ("!=", Level::Comparison),
    ("+", Level::Sum),
    ("-", Level::Sum),
    ("*", Level::Product),
];

/// In the order of the values of 53 and of 31.
pub const COMPARISONS: [&str; 6] = ["<=", "<", ">=", ">", "==", "!="];
pub const ARITHMETIC: [&str; 3] = ["+", "-", "*"];

impl Level {
    /// The right side binds tighter: operators of one level are read from the left.
    fn next(self) -> Level {
        match self {
            Level::Whole => Level::Or,
            Level::Or => Level::And,
            Level::And => Level::Since,
            Level::Since => Level::Comparison,
            Level::Comparison => Level::Sum,
            Level::Sum | Level::Product => Level::Product,
        }
    }
}

impl Parsed {
    pub fn into_condition(self) -> Result<Placed, Mistake> {
        match self.what {
            What::Condition(node) => Ok(node),
            What::Call { call, outer } => Ok(Placed::new(11, outer, call.place, vec![call])),
            What::Sigil { is_parameter, name, place, span, written } => {
                let sigil = Placed::with_text(if is_parameter { 58 } else { 59 }, &name, place);
                Ok(Placed::new(12, written.unwrap_or(span), place, vec![sigil]))
            }
            What::Term(_) => Err(Mistake::new(self.start, self.end, "expected a condition, found a term")),
        }
    }

    pub fn into_term(self) -> Result<Placed, Mistake> {
        match self.what {
            What::Term(node) => Ok(node),
            What::Call { call, outer } => {
                let place = call.place;
                Ok(Placed::new(30, 0, place, vec![Placed::new(36, outer, place, vec![call])]))
            }
            What::Sigil { written: Some(_), .. } => {
                Err(Mistake::new(self.start, self.end, "expected no span: of the terms only aggregates have one"))
            }
            What::Sigil { is_parameter, name, place, .. } => {
                Ok(Placed::with_text(if is_parameter { 32 } else { 33 }, &name, place))
            }
            What::Condition(_) => Err(Mistake::new(self.start, self.end, "expected a term, found a condition")),
        }
    }

    /// What it is as an argument, if nothing says which: a call is a condition, a sigil is a term.
    fn into_argument(self) -> Result<Placed, Mistake> {
        let place = Place::new(self.start, self.end);
        match self.what {
            What::Condition(_) | What::Call { .. } => Ok(Placed::new(55, 0, place, vec![self.into_condition()?])),
            What::Term(_) | What::Sigil { .. } => Ok(Placed::new(56, 0, place, vec![self.into_term()?])),
        }
    }
}

impl Parser {
    pub fn condition(&mut self) -> Result<Placed, Mistake> {
        self.expression(Level::Whole)?.into_condition()
    }

    pub fn term(&mut self) -> Result<Placed, Mistake> {
        self.expression(Level::Whole)?.into_term()
    }

    /// The longest expression whose operators bind at least so tightly.
    pub fn expression(&mut self, level: Level) -> Result<Parsed, Mistake> {
        self.deeper(|p| {
            let mut left = p.prefixed()?;
            while let Some((operator, binds)) = p.operator().filter(|(_, binds)| *binds >= level) {
                p.one_deeper()?;
                p.at += 1;
                left = p.joined(left, operator, binds)?;
            }
            Ok(left)
        })
    }

    fn operator(&self) -> Option<(&'static str, Level)> {
        match self.peek() {
            Kind::Symbol(symbol) => BETWEEN.into_iter().find(|(operator, _)| operator == symbol),
            kind if is_word(kind, "since") => Some(("since", Level::Since)),
            _ => None,
        }
    }

    fn joined(&mut self, left: Parsed, operator: &str, level: Level) -> Result<Parsed, Mistake> {
        let (start, sign) = (left.start, self.last());
        let number = |among: &[&str]| among.iter().position(|o| *o == operator).expect("an operator of it") as u64;
        let what = match level {
            Level::Whole | Level::Or | Level::And => {
                let sides = vec![left.into_condition()?, self.expression(level.next())?.into_condition()?];
                What::Condition(self.spanned(if level == Level::And { 1 } else { 2 }, start, sides))
            }
            Level::Since => {
                let left = left.into_condition()?;
                let parts = vec![left, self.within()?, self.expression(level.next())?.into_condition()?];
                What::Condition(self.spanned(6, start, parts))
            }
            Level::Comparison => {
                let left = left.into_term()?;
                let operator = Placed::new(53, number(&COMPARISONS), sign, vec![]);
                let parts = vec![operator, left, self.expression(level.next())?.into_term()?];
                What::Condition(self.spanned(8, start, parts))
            }
            Level::Sum | Level::Product => {
                let left = left.into_term()?;
                // A product's right side is one factor: what is prefixed, and no operator.
                let right = if level == Level::Sum { self.expression(Level::Product)? } else { self.prefixed()? };
                let sides = vec![left, right.into_term()?];
                What::Term(Placed::new(31, number(&ARITHMETIC), self.place_from(start), sides))
            }
        };
        Ok(Parsed { what, start, end: self.end() })
    }

    /// What begins with a word or sign that belongs before it; otherwise what stands alone.
    fn prefixed(&mut self) -> Result<Parsed, Mistake> {
        let start = self.start();
        if self.begins_at_margin() {
            return self.expected("a condition or a term");
        }
        let what = if self.symbol("!") {
            let inner = self.expression(Level::Comparison)?.into_condition()?;
            What::Condition(self.spanned(3, start, vec![inner]))
        } else if self.is_word("formerly") || self.is_word("previous") {
            let code = if self.word("formerly") { 4 } else { 5 };
            self.at += usize::from(code == 5);
            let parts = vec![self.within()?, self.expression(Level::Comparison)?.into_condition()?];
            What::Condition(self.spanned(code, start, parts))
        } else if self.word("exists") {
            let [slot, typed] = self.binder()?;
            self.expect(",", " behind the binder")?;
            let parts = vec![slot, typed, self.condition()?];
            What::Condition(self.spanned(9, start, parts))
        } else if self.is_word("count") || self.is_word("sum") {
            self.aggregate()?
        } else {
            return self.suffixed();
        };
        Ok(Parsed { what, start, end: self.end() })
    }

    /// `count for a: T where c`, `sum a for a: T where c`; without binders there is no `for`.
    fn aggregate(&mut self) -> Result<What, Mistake> {
        let start = self.start();
        let (code, mut parts) = if self.word("count") {
            (35, vec![])
        } else {
            self.expect_word("sum")?;
            (34, vec![self.slot()?])
        };
        let mut binders = Vec::new();
        let listed = self.start();
        if self.word("for") {
            binders.extend(self.binder()?);
            while self.symbol(",") {
                binders.extend(self.binder()?);
            }
        }
        let list = Placed::counted(41, 2, self.place_from(listed), binders);
        self.expect_word("where")?;
        parts.extend([list, self.condition()?]);
        Ok(What::Term(Placed::new(30, 0, self.place_from(start), vec![self.spanned(code, start, parts)])))
    }

    /// What stands alone, with fields and spans behind it.
    fn suffixed(&mut self) -> Result<Parsed, Mistake> {
        let start = self.start();
        let mut parsed = self.alone()?;
        loop {
            if self.is_symbol("{") {
                self.one_deeper()?;
                let base = parsed.into_condition()?;
                let fields = self.fields()?;
                let place = self.spanned(42, start, vec![]);
                let what = What::Condition(self.spanned(13, start, vec![place, base, fields]));
                parsed = Parsed { what, start, end: self.end() };
            } else if let Some(written) = self.annotation()? {
                written.apply(&mut parsed)?;
                parsed.end = self.end();
            } else {
                return Ok(parsed);
            }
        }
    }

    fn alone(&mut self) -> Result<Parsed, Mistake> {
        let start = self.start();
        if self.symbol("(") {
            let inner = self.expression(Level::Whole)?;
            self.expect(")", "")?;
            return Ok(Parsed { start, end: self.end(), ..inner });
        }
        let what = match self.peek().clone() {
            Kind::Parameter(name) => self.sigil(true, name),
            Kind::Binder(name) => self.sigil(false, name),
            Kind::Text(_) => self.text()?,
            Kind::Name(word, false) if names::is_keyword(&word) => self.keyword(&word)?,
            Kind::Name(..) => self.named()?,
            _ => What::Term(self.literal()?),
        };
        Ok(Parsed { what, start, end: self.end() })
    }

    fn sigil(&mut self, is_parameter: bool, name: Vec<u8>) -> What {
        let start = self.start();
        self.at += 1;
        What::Sigil { is_parameter, name, place: self.last(), span: self.span_from(start), written: None }
    }

    /// Numbers, arrays and the wildcard.
    fn literal(&mut self) -> Result<Placed, Mistake> {
        let ahead = usize::from(self.is_symbol("-"));
        match *self.peek_at(ahead) {
            Kind::Number(_) => self.integer(21),
            Kind::Symbol("*") if ahead == 0 => {
                self.at += 1;
                Ok(Placed::new(28, 0, self.last(), vec![]))
            }
            Kind::Symbol("[") if ahead == 0 => self.array(),
            _ => self.expected("a condition or a term"),
        }
    }

    /// An entry of this code whose value is an integer with its sign, as 64 bits of two's complement.
    fn integer(&mut self, code: u8) -> Result<Placed, Mistake> {
        let (start, negative) = (self.start(), self.symbol("-"));
        let amount = match self.take() {
            Kind::Number(amount) | Kind::Interval(amount, _) => amount,
            _ => return self.expected("a number"),
        };
        let signed = if negative { -i128::from(amount) } else { i128::from(amount) };
        let value = i64::try_from(signed)
            .map_err(|_| Mistake::new(start, self.end(), "expected a number of 64 signed bits"))?;
        Ok(Placed::new(code, value as u64, self.place_from(start), vec![]))
    }

    /// `[1, 2]`; `[1; 500, 2]` has 500 of the first.
    fn array(&mut self) -> Result<Placed, Mistake> {
        let start = self.start();
        self.expect("[", "")?;
        let mut items = Vec::new();
        self.list("]", |p| {
            let item = p.term()?;
            let often = "how often the item stands there";
            let count = if p.symbol(";") { p.number(often, MOST_REPEATS as u64)? as usize } else { 1 };
            p.count_repeated(&item, count)?;
            items.extend(std::iter::repeat_n(item, count));
            Ok(())
        })?;
        Ok(Placed::counted(29, 1, self.place_from(start), items))
    }

    fn keyword(&mut self, word: &[u8]) -> Result<What, Mistake> {
        let start = self.start();
        let node = match word {
            b"true" | b"false" => {
                self.at += 1;
                Placed::new(24, u64::from(word == b"true"), self.last(), vec![])
            }
            b"context" | b"scope" | b"principal" | b"resource" => self.context(word)?,
            b"decimal" => {
                self.at += 1;
                self.expect("(", " behind `decimal`")?;
                let Kind::Text(text) = self.peek().clone() else { return self.expected("the decimal in \"…\"") };
                self.at += 1;
                self.expect(")", "")?;
                Placed::with_text(22, &text, self.place_from(start))
            }
            b"tp" => {
                self.at += 1;
                self.expect("(", " behind `tp`")?;
                let slot = self.slot()?;
                self.expect(")", "")?;
                return Ok(What::Condition(self.spanned(10, start, vec![slot])));
            }
            _ => return self.expected("a condition or a term"),
        };
        Ok(What::Term(node))
    }

    /// `context.a.b`, `principal.a`, `resource`, and `scope.a.b` for any other path.
    fn context(&mut self, word: &[u8]) -> Result<Placed, Mistake> {
        let start = self.start();
        self.at += 1;
        let mut path = Vec::new();
        if matches!(word, b"principal" | b"resource") {
            path.push(self.texted(40, word));
        }
        while self.symbol(".") {
            let text = self.any_name("a field's name behind `.`")?;
            path.push(self.texted(40, &text));
        }
        Ok(Placed::counted(if word == b"context" { 25 } else { 26 }, 1, self.place_from(start), path))
    }

    /// What begins with a text in quotes: a string, or a predicate without namespace.
    fn text(&mut self) -> Result<What, Mistake> {
        match (self.peek().clone(), self.peek_at(1)) {
            (Kind::Text(_), Kind::Symbol("::" | "{")) => self.predicate(self.start(), vec![]),
            (Kind::Text(text), _) => {
                self.at += 1;
                Ok(What::Term(self.texted(23, &text)))
            }
            _ => self.expected("a text"),
        }
    }

    /// What begins with a name: a call, a predicate, an entity, a variable.
    fn named(&mut self) -> Result<What, Mistake> {
        let start = self.start();
        let name = self.name("a name")?;
        if self.is_symbol("(") {
            let call = self.arguments(start, &name)?;
            let outer = self.span_from(start);
            return Ok(What::Call { call, outer });
        }
        if self.is_symbol("{") {
            let [action, kind] = [&name[..], b""].map(|text| self.texted(40, text));
            return self.braced(start, vec![], action, kind);
        }
        if !self.is_symbol("::") {
            return Ok(What::Term(self.texted(27, &name)));
        }
        let mut path = vec![self.texted(40, &name)];
        while self.symbol("::") {
            if let Kind::Text(text) = self.peek().clone() {
                if matches!(self.peek_at(1), Kind::Symbol("::" | "{")) {
                    return self.predicate(start, path);
                }
                let names: Vec<&[u8]> = path.iter().map(|part| part.text.as_slice()).collect();
                let of =
                    Placed::with_text(40, &names.join(&b"::"[..]), Place::new(start, path[path.len() - 1].place.end));
                self.at += 1;
                let parts = vec![of, self.texted(40, &text)];
                return Ok(What::Term(Placed::new(20, 0, self.place_from(start), parts)));
            }
            let name = self.name("a name, or an action or id in \"…\"")?;
            path.push(self.texted(40, &name));
        }
        self.expected("`::` and an action or id in \"…\"")
    }

    /// The action in quotes, its kind and its fields.
    fn predicate(&mut self, start: usize, namespace: Vec<Placed>) -> Result<What, Mistake> {
        let Kind::Text(action) = self.take() else { return self.expected("an action in \"…\"") };
        let action = self.texted(40, &action);
        let kind = if self.symbol("::") { self.any_name("a kind")? } else { vec![] };
        let kind = self.texted(40, &kind);
        self.braced(start, namespace, action, kind)
    }

    fn braced(&mut self, start: usize, namespace: Vec<Placed>, action: Placed, kind: Placed) -> Result<What, Mistake> {
        let fields = self.fields()?;
        let place = self.spanned(42, start, vec![]);
        let namespace = Placed::counted(41, 1, Place::new(start, action.place.end), namespace);
        let parts = vec![place, namespace, action, kind, fields];
        Ok(What::Condition(self.spanned(7, start, parts)))
    }

    /// `{f: 1, input.user: x}`
    fn fields(&mut self) -> Result<Placed, Mistake> {
        let start = self.start();
        self.expect("{", " and fields")?;
        let fields = self.list("}", |p| {
            let start = p.start();
            let mut name = p.any_name("a field's name, or `}`")?;
            while p.symbol(".") {
                name.push(b'.');
                name.extend(p.any_name("a name behind `.`")?);
            }
            let name = Placed::with_text(40, &name, p.place_from(start));
            p.expect(":", " behind the field's name")?;
            Ok([name, p.term()?])
        })?;
        Ok(Placed::counted(41, 2, self.place_from(start), fields.into_iter().flatten().collect()))
    }

    /// The 54 of a call whose name was taken.
    fn arguments(&mut self, start: usize, name: &[u8]) -> Result<Placed, Mistake> {
        let (name, listed) = (self.texted(40, name), self.start());
        self.expect("(", "")?;
        let arguments = self.list(")", Parser::argument)?;
        let parts = vec![name, Placed::counted(41, 1, self.place_from(listed), arguments)];
        Ok(self.spanned(54, start, parts))
    }

    /// An interval, a condition or a term; `condition` and `value` before it decide where it could be both.
    fn argument(&mut self) -> Result<Placed, Mistake> {
        let start = self.start();
        let (code, inner) = if self.is_interval() {
            (57, self.within()?)
        } else if self.word("condition") {
            (55, self.condition()?)
        } else if self.word("value") {
            (56, self.term()?)
        } else {
            return self.expression(Level::Whole)?.into_argument();
        };
        Ok(Placed::new(code, 0, self.place_from(start), vec![inner]))
    }

    fn is_interval(&self) -> bool {
        let ahead = usize::from(self.is_symbol("-"));
        matches!(self.peek_at(ahead), Kind::Interval(..))
    }

    /// `1h`, or `?d`
    fn within(&mut self) -> Result<Placed, Mistake> {
        if let Kind::Parameter(name) = self.peek().clone() {
            self.at += 1;
            return Ok(self.texted(52, &name));
        }
        let ahead = usize::from(self.is_symbol("-"));
        match *self.peek_at(ahead) {
            Kind::Interval(_, code) => self.integer(code),
            _ => self.expected("an interval such as 1h, or `?` and a parameter"),
        }
    }

    pub fn slot(&mut self) -> Result<Placed, Mistake> {
        let (code, name) = match self.peek().clone() {
            Kind::Parameter(name) => (44, name),
            Kind::Binder(name) => (45, name),
            _ => (43, self.name("a variable")?),
        };
        self.at += usize::from(code != 43);
        Ok(self.texted(code, &name))
    }

    /// A slot and its type, which is a timepoint's if none is written.
    fn binder(&mut self) -> Result<[Placed; 2], Mistake> {
        let slot = self.slot()?;
        if !self.symbol(":") || self.word("Timepoint") {
            return Ok([slot, Placed::new(46, 0, self.last(), vec![])]);
        }
        let start = self.start();
        let mut path = Vec::new();
        if self.symbol("(") {
            self.expect(")", ": a type without a name is `()`")?;
        } else {
            path.push(self.type_name()?);
            while self.symbol("::") {
                path.push(self.type_name()?);
            }
        }
        Ok([slot, Placed::counted(47, 1, self.place_from(start), path)])
    }

    fn type_name(&mut self) -> Result<Placed, Mistake> {
        let name = self.name("a type")?;
        Ok(self.texted(40, &name))
    }
}
