//! A file of rules: definitions, rules, and what is said of all of them.

use super::lex::{self, Kind, Mistake};
use super::meant;
use super::names;
use super::parser::{Parser, is_word};
use super::placed::{Place, Placed};
use differential::tape::Node;

/// A condition of a file, with its name if it has one.
#[derive(Clone, Debug, PartialEq, Eq)]
pub struct Rule {
    pub name: Option<String>,
    pub condition: Node,
}

/// What is to stand once: the rule of a name, the limit, the file number.
#[derive(Clone, Debug, PartialEq, Eq, PartialOrd, Ord)]
pub enum Once {
    Rule(String),
    Limit,
    File,
}

#[derive(Clone, Debug, Default, PartialEq, Eq)]
pub struct Document {
    pub definitions: Vec<Node>,
    pub rules: Vec<Rule>,
    pub limit: Option<u32>,
    pub file: Option<u16>,
    /// The one tree of a text that says `root`.
    pub root: Option<Node>,
    /// Whether all spans are counted from the text, so that one that is answered points into it.
    pub spans_counted: bool,
    pub placed: PlacedItems,
}

/// The trees of a document with their places.
#[derive(Clone, Debug, Default, PartialEq, Eq)]
pub struct PlacedItems {
    pub definitions: Vec<Placed>,
    pub rules: Vec<Placed>,
    pub root: Option<Placed>,
    /// What is to stand once, as often as it stands there.
    pub once: Vec<(Once, Place)>,
}

/// What could be read of a text, and every mistake that kept the rest from it, in the text's order.
#[derive(Clone, Debug, Default, PartialEq, Eq)]
pub struct Reading {
    pub document: Document,
    pub mistakes: Vec<Mistake>,
    /// The names of macros whose definitions could not be read.
    pub unread: Vec<Vec<u8>>,
}

impl Document {
    pub fn registry(&self) -> Node {
        Node::counted(41, 1, self.definitions.clone())
    }

    /// The one tree that the text stands for: what it says `root` of, its definitions, or its one condition.
    pub fn tree(&self) -> Option<Node> {
        match (&self.root, &self.definitions[..], &self.rules[..]) {
            (Some(root), ..) => Some(root.clone()),
            (None, _, []) => Some(self.registry()),
            (None, [], [rule]) => Some(rule.condition.clone()),
            _ => None,
        }
    }
}

/// A text without mistakes, or the first one.
pub fn parse(text: &str) -> Result<Document, Mistake> {
    let Reading { document, mistakes, .. } = read(text);
    mistakes.into_iter().next().map_or(Ok(document), Err)
}

/// All that can be read. Behind a mistake it goes on where the next item seems to begin.
pub fn read(text: &str) -> Reading {
    if u32::try_from(text.len()).is_err() {
        let mistake = Mistake::new(0, 0, "expected a text of less than 4 gigabytes");
        return Reading { mistakes: vec![mistake], ..Reading::default() };
    }
    let (tokens, mistakes) = lex::tokens(text);
    let mut parser = Parser::new(tokens);
    let mut reading = Reading { mistakes, ..Reading::default() };
    while *parser.peek() != Kind::End {
        parser.begin_item();
        if let Err(mistake) = parser.item(&mut reading.document) {
            let (is_full, start) = (parser.size().over().is_some(), mistake.start);
            if is_full || !parser.is_told(&mistake) {
                reading.mistakes.push(meant::with_guess(mistake, &parser.tokens));
            }
            reading.give_up(&parser);
            if is_full {
                reading.mistakes.retain(|other| other.start <= start);
                break;
            }
            parser.recover();
        }
        while parser.symbol(";") {}
    }
    reading.mistakes.sort_by_key(|mistake| mistake.start);
    reading.document.spans_counted = parser.written_default.is_none() && !parser.spans_written;
    reading
}

/// The brackets that are open, each inside the one before.
#[derive(Default)]
struct Brackets(Vec<&'static str>);

impl Brackets {
    fn pass(&mut self, kind: &Kind) {
        let closed = match *kind {
            Kind::Symbol(open @ ("(" | "[" | "{")) => return self.0.push(open),
            Kind::Symbol(")") => "(",
            Kind::Symbol("]") => "[",
            Kind::Symbol("}") => "{",
            _ => return,
        };
        // What was opened behind it lacks its end.
        while self.0.pop().is_some_and(|open| open != closed) {}
    }

    fn are_of_array(&self) -> bool {
        self.0.last() == Some(&"[")
    }
}

impl Reading {
    /// Nothing more is made of an item with a mistake. One that cannot even begin is the rest of the one before it, unless
    /// it stands at the margin.
    fn give_up(&mut self, parser: &Parser) {
        let is_rest = parser.at <= parser.began + 1 && parser.tokens[parser.began].indent != Some(0);
        let Document { definitions, rules, placed, .. } = &mut self.document;
        let start = |trees: &[Placed]| trees.last().map(|tree| tree.place.start);
        if is_rest && start(&placed.rules) > start(&placed.definitions) {
            placed.rules.pop();
            rules.pop();
        } else if is_rest && !definitions.is_empty() {
            placed.definitions.pop();
            self.unread.extend(definitions.pop().map(|definition| definition.children[0].text.clone()));
        } else {
            self.unread.extend(parser.broken_name());
        }
    }
}

impl Parser {
    fn item(&mut self, document: &mut Document) -> Result<(), Mistake> {
        let before = self.size();
        document.placed.once.extend(self.once());
        let has_number = matches!(self.peek_at(1), Kind::Number(_));
        if has_number && self.word("limit") {
            document.limit = Some(self.number("the limit", u64::from(u32::MAX))? as u32);
        } else if has_number && self.word("file") {
            document.file = Some(self.number("the file number", u64::from(u16::MAX))? as u16);
        } else if has_number && self.word("spans") {
            self.written_default = Some(self.span()?);
        } else if self.is_word("root") && matches!(self.peek_at(1), Kind::Name(_, false)) {
            let root = self.lone_root(document)?;
            self.count(before, &root, 0)?;
            document.root = Some(root.node());
            document.placed.root = Some(root);
        } else if self.is_definition(self.at) {
            let definition = self.definition()?;
            self.count(before, &definition, 1)?;
            document.definitions.push(definition.node());
            document.placed.definitions.push(definition);
        } else {
            let (name, condition) = self.rule()?;
            self.count(before, &condition, 0)?;
            document.rules.push(Rule { name, condition: condition.node() });
            document.placed.rules.push(condition);
        }
        Ok(())
    }

    /// What begins here that is to stand once, and where it says which.
    fn once(&self) -> Option<(Once, Place)> {
        let (once, first) = match self.peek_at(1) {
            Kind::Number(_) if self.is_word("limit") => (Once::Limit, self.at),
            Kind::Number(_) if self.is_word("file") => (Once::File, self.at),
            Kind::Name(name, _) | Kind::Text(name) if self.has_rule_head(self.at) => {
                (Once::Rule(String::from_utf8_lossy(name).to_string()), self.at + 1)
            }
            _ => return None,
        };
        Some((once, Place::new(self.tokens[first].start, self.tokens[self.at + 1].end)))
    }

    /// Whether an item begins at a place that has a word or a head of its own.
    pub fn has_head(&self, at: usize) -> bool {
        let has_number = matches!(self.kind(at + 1), Kind::Number(_));
        let is_setting = has_number && ["limit", "file", "spans"].iter().any(|word| is_word(self.kind(at), word));
        let is_root = is_word(self.kind(at), "root") && matches!(self.kind(at + 1), Kind::Name(_, false));
        is_setting || is_root || self.begins_rule(at) || self.is_definition(at)
    }

    /// Whether a mistake was told with a bad token: it is that token itself, or ends before it where what was meant by it
    /// could make something else of it. Nothing at the margin is taken for that.
    fn is_told(&self, mistake: &Mistake) -> bool {
        let token = &self.tokens[self.at];
        let goes_on = mistake.end == self.end() && token.indent != Some(0);
        token.kind == Kind::Bad && (mistake.start == token.start || goes_on)
    }

    /// On to where the next item seems to begin: with a head at the margin, anywhere behind the item's own beginning; or
    /// behind the mistake with a head on a line of its own, with `rule NAME:`, behind `;`, or at the margin with a name and
    /// a parenthesis, as a definition does whose head is wrong too. The `;` of an array belongs to its item.
    fn recover(&mut self) {
        let mistake = self.at;
        self.at = self.began + 1;
        while self.at < mistake && !self.begins_at_margin() {
            self.at += 1;
        }
        let mut open = Brackets::default();
        self.tokens[self.began..self.at].iter().for_each(|token| open.pass(&token.kind));
        while *self.peek() != Kind::End && !self.seems_to_begin(&open) {
            open.pass(self.peek());
            self.at += 1;
        }
    }

    fn seems_to_begin(&self, open: &Brackets) -> bool {
        let indent = self.tokens[self.at].indent;
        let is_named = matches!(self.peek(), Kind::Name(word, false) if !names::is_keyword(word));
        let is_call = is_named && *self.peek_at(1) == Kind::Symbol("(");
        let is_behind = self.at > 0 && self.tokens[self.at - 1].kind == Kind::Symbol(";") && !open.are_of_array();
        let is_named_rule = self.has_rule_head(self.at) && *self.peek_at(1) != Kind::Symbol(":");
        indent.is_some() && self.has_head(self.at) || indent == Some(0) && is_call || is_named_rule || is_behind
    }

    /// The name of the macro that an item with a mistake was to define, if it was to define one: the last name before a
    /// parenthesis, whatever words are before it.
    fn broken_name(&self) -> Option<Vec<u8>> {
        let began = self.began;
        let names: Vec<&[u8]> = (began..).map_while(|at| self.name_of_head(at)).take(MOST_WORDS + 1).collect();
        let is_rule = is_word(self.kind(began), "rule") && !self.is_head(began + 1);
        let name = match &names[..] {
            [.., last] if !is_rule && *self.kind(began + names.len()) == Kind::Symbol("(") => last,
            [b"value" | b"cedar", name, ..] => name,
            _ => return None,
        };
        Some(name.to_vec())
    }

    /// A macro's name, or a word that may stand before one.
    fn name_of_head(&self, at: usize) -> Option<&[u8]> {
        match self.kind(at) {
            Kind::Name(word, false) if names::is_keyword(word) && !matches!(&word[..], b"value" | b"cedar") => None,
            Kind::Name(word, _) => Some(word),
            _ => None,
        }
    }

    /// A root in a text that has no macro and no rule: they would be no part of its one tree. What is wrong with the root
    /// itself is told first.
    fn lone_root(&mut self, document: &Document) -> Result<Placed, Mistake> {
        let start = self.start();
        let end = self.tokens[self.at].end;
        let root = self.root()?;
        if document.definitions.is_empty() && document.rules.is_empty() {
            return Ok(root);
        }
        Err(Mistake::new(start, end, "expected no macro and no rule before `root`, which is the one tree of its text"))
    }

    /// `root call m(5)`: one tree of a kind that its text does not tell, and nothing else.
    fn root(&mut self) -> Result<Placed, Mistake> {
        self.expect_word("root")?;
        let root = if self.word("call") {
            let node = self.condition()?;
            match (node.code, node.children.into_iter().next()) {
                (11, Some(call)) => call,
                _ => return self.expected("a call"),
            }
        } else if self.word("value") {
            self.term()?
        } else if self.word("condition") {
            self.condition()?
        } else if self.word("definition") {
            self.definition()?
        } else {
            return self.expected("`call`, `value`, `condition` or `definition` behind `root`");
        };
        match self.peek() {
            Kind::End => Ok(root),
            _ => self.expected("the end, as `root` has one tree"),
        }
    }

    /// Whether a definition begins at a place: `m(..) =`, or `value` or `cedar` before a name; or one with a wrong word before
    /// it, or without its `=`.
    fn is_definition(&self, at: usize) -> bool {
        let has_word = is_word(self.kind(at), "value") || is_word(self.kind(at), "cedar");
        let is_named = has_word && matches!(self.kind(at + 1), Kind::Name(..));
        is_named || self.is_head(at) || self.has_wrong_word(at) || self.lacks_equals(at)
    }

    /// Whether a word begins a definition that belongs before none: `let m(x) = …`, `def temporal m(x) = …`. No expression
    /// has two names side by side. The name at the margin would be a definition's own beginning.
    fn has_wrong_word(&self, at: usize) -> bool {
        let is_plain = |at: usize| matches!(self.kind(at), Kind::Name(word, false) if !names::is_keyword(word));
        let is_behind = |at: &usize| is_plain(at - 1) && self.tokens[*at].indent != Some(0);
        let mut heads = (at + 1..).take(MOST_WORDS).take_while(is_behind);
        heads.any(|at| self.is_head(at)) || self.has_misspelt_word(at)
    }

    /// `ceder c(x)`, which has no `=` to be known by.
    fn has_misspelt_word(&self, at: usize) -> bool {
        let is_named = matches!(self.kind(at + 1), Kind::Name(..)) && *self.kind(at + 2) == Kind::Symbol("(");
        let is_near = |kind: &Kind| matches!(kind, Kind::Name(word, false) if meant::is_before_names(word));
        let is_first = |at: usize| self.tokens[at].indent.is_some();
        is_first(at) && is_named && !is_first(at + 1) && is_near(self.kind(at))
    }

    /// Whether what looks like a call is the head of a definition without `=`: it has names alone and stands at the margin,
    /// and behind it, not at the margin, stands what no call goes on with and begins no other item.
    fn lacks_equals(&self, at: usize) -> bool {
        let is_first = |at: usize| self.tokens[at].indent == Some(0);
        let close = self.end_of_head(at).filter(|close| *self.kind(*close) == Kind::Symbol(")"));
        let Some(close) = close.filter(|_| is_first(at)) else { return false };
        let has_names = (at + 2..close).all(|at| matches!(self.kind(at), Kind::Name(..) | Kind::Symbol(",")));
        let behind = self.kind(close + 1);
        let is_body = *behind != Kind::Bad && begins_another(behind) || matches!(behind, Kind::Symbol("(" | ":"));
        let is_arrow = *behind == Kind::Symbol("-") && *self.kind(close + 2) == Kind::Symbol(">");
        has_names && (is_body || is_arrow) && !is_first(close + 1) && !self.has_head(close + 1)
    }

    /// Whether `m(..) =` stands at a place. One whose `)` is missing is one too, as nothing else has a `=`.
    fn is_head(&self, at: usize) -> bool {
        let Some(close) = self.end_of_head(at) else { return false };
        let in_span = |kind: &Kind| matches!(kind, Kind::Number(_) | Kind::Symbol("@" | ".."));
        let behind = (close + 1..).find(|at| !in_span(self.kind(*at))).expect("the end is in no span");
        match self.kind(close) {
            Kind::Symbol(")") => *self.kind(behind) == Kind::Symbol("="),
            Kind::Symbol("=") => (at + 2..close).all(|at| is_in_head(self.kind(at))),
            _ => false,
        }
    }

    /// Where the parameters end that stand in parentheses behind a name, be they right or wrong.
    fn end_of_head(&self, at: usize) -> Option<usize> {
        let is_named = matches!(self.kind(at), Kind::Name(..)) && *self.kind(at + 1) == Kind::Symbol("(");
        let is_wrong = |kind: &Kind| match kind {
            Kind::Text(_) | Kind::Interval(..) | Kind::Parameter(_) | Kind::Binder(_) => true,
            Kind::Symbol(symbol) => matches!(*symbol, ":" | "::" | "."),
            _ => false,
        };
        let is_inside = |kind: &Kind| is_in_head(kind) || is_wrong(kind);
        is_named.then(|| (at + 2..).find(|at| !is_inside(self.kind(*at))).expect("the end is in no head"))
    }

    /// `m(x) = condition`, `value v(x) = term`, `cedar c(x)`
    fn definition(&mut self) -> Result<Placed, Mistake> {
        let start = self.start();
        if self.has_wrong_word(self.at) {
            return self.expected(meant::BEFORE_NAME);
        }
        let code = match () {
            () if self.word("value") => 63,
            () if self.word("cedar") => 61,
            () => 62,
        };
        // `value` may stand on a line of its own.
        if code == 63 && self.is_head(self.at) {
            self.began = self.at;
        }
        let name = self.name("a macro's name")?;
        let (name, listed) = (self.texted(40, &name), self.start());
        self.expect("(", " and the parameters")?;
        let parameters = self.list(")", Parser::parameter)?;
        let list = self.place_from(listed);
        let written = self.annotation()?.map(|written| written.single("a definition")).transpose()?;
        if code != 61 {
            self.expect("=", " and the body")?;
        }
        let behind = self.start();
        let body = match code {
            62 => vec![self.condition()?],
            63 => vec![self.term()?],
            _ => vec![],
        };
        let parameters = Placed::counted(41, 2, list, parameters.into_iter().flatten().collect());
        let parts = vec![name, parameters, Placed::new(code, 0, self.place_from(behind), body)];
        Ok(Placed::new(60, written.unwrap_or_else(|| self.span_from(start)), self.place_from(start), parts))
    }

    fn parameter(&mut self) -> Result<[Placed; 2], Mistake> {
        let start = self.start();
        let name = self.name("a parameter's name")?;
        let (counted, name) = (self.span_from(start), self.texted(40, &name));
        let written = self.annotation()?.map(|written| written.single("a parameter")).transpose()?;
        Ok([Placed::new(42, written.unwrap_or(counted), name.place, vec![]), name])
    }

    fn has_rule_head(&self, at: usize) -> bool {
        let is_colon = |at: usize| *self.kind(at) == Kind::Symbol(":");
        let is_name = matches!(self.kind(at + 1), Kind::Name(..) | Kind::Text(_));
        is_word(self.kind(at), "rule") && (is_colon(at + 1) || is_name && is_colon(at + 2))
    }

    /// Whether a rule begins at a place, even if its `:` is missing: then no variable `rule` goes on that way.
    fn begins_rule(&self, at: usize) -> bool {
        self.has_rule_head(at) || is_word(self.kind(at), "rule") && begins_another(self.kind(at + 1))
    }

    /// `rule name: condition`, or a condition alone.
    fn rule(&mut self) -> Result<(Option<String>, Placed), Mistake> {
        if !self.begins_rule(self.at) {
            return Ok((None, self.condition()?));
        }
        self.at += 1;
        let name = match self.peek() {
            Kind::Name(..) if self.begins_at_margin() => None,
            Kind::Name(text, _) | Kind::Text(text) => Some(String::from_utf8_lossy(text).to_string()),
            _ => None,
        };
        self.at += usize::from(name.is_some());
        self.expect(":", if name.is_some() { " behind the rule's name" } else { " or a name behind `rule`" })?;
        Ok((name, self.condition()?))
    }
}

/// How many words may stand before a macro's name, so that it is still seen as one: `def temporal m(x) = …`.
const MOST_WORDS: usize = 2;

/// Whether a definition has such a token between its parentheses.
fn is_in_head(kind: &Kind) -> bool {
    matches!(kind, Kind::Name(..) | Kind::Number(_) | Kind::Symbol("," | "@" | ".."))
}

/// Whether this begins an expression and goes on with none, so that what stands before it has ended. A bad token was most
/// likely meant to be such a one.
fn begins_another(kind: &Kind) -> bool {
    match kind {
        Kind::Name(word, is_quoted) => *is_quoted || ![&b"since"[..], b"for", b"where"].contains(&&word[..]),
        Kind::Text(_) | Kind::Number(_) | Kind::Interval(..) | Kind::Parameter(_) | Kind::Binder(_) | Kind::Bad => true,
        Kind::Symbol(symbol) => matches!(*symbol, "!" | "["),
        Kind::End => false,
    }
}
