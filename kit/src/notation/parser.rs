//! What all parts of the parser use: the tokens, and what is said where another one was expected.

use super::bounds::{MOST_NESTED, Size};
use super::lex::{Kind, Mistake, Token};
use super::names;
use super::placed::{Place, Placed};
use crate::pair::grouped;
use crate::reading::DEEPEST;

pub struct Parser {
    pub tokens: Vec<Token>,
    pub at: usize,
    /// Where the item begins that is being read.
    pub began: usize,
    /// The span of what has none written, if it is not to be counted from the text.
    pub written_default: Option<u64>,
    /// Whether a span was written anywhere.
    pub spans_written: bool,
    /// How many expressions are being read, each inside the one before.
    depth: usize,
    /// How deep the expression goes that is being read, as far as it was.
    reached: usize,
    /// What the trees come to that were read, and what was repeated in the one that is being read.
    size: Size,
}

impl Parser {
    pub fn new(tokens: Vec<Token>) -> Parser {
        Parser {
            tokens,
            at: 0,
            began: 0,
            written_default: None,
            spans_written: false,
            depth: 0,
            reached: 0,
            size: Size::default(),
        }
    }

    pub fn peek(&self) -> &Kind {
        self.peek_at(0)
    }

    /// The token so many places ahead.
    pub fn peek_at(&self, ahead: usize) -> &Kind {
        self.kind(self.at + ahead)
    }

    /// The token at a place; behind the last one there is the end.
    pub fn kind(&self, at: usize) -> &Kind {
        &self.tokens[at.min(self.tokens.len() - 1)].kind
    }

    pub fn start(&self) -> usize {
        self.tokens[self.at].start
    }

    /// Where the last token that was taken ends.
    pub fn end(&self) -> usize {
        self.at.checked_sub(1).map_or(0, |last| self.tokens[last].end)
    }

    pub fn take(&mut self) -> Kind {
        let kind = self.peek().clone();
        if kind != Kind::End {
            self.at += 1;
        }
        kind
    }

    pub fn is_symbol(&self, symbol: &str) -> bool {
        matches!(self.peek(), Kind::Symbol(found) if *found == symbol)
    }

    pub fn is_word(&self, word: &str) -> bool {
        is_word(self.peek(), word)
    }

    /// Takes the symbol if it is there.
    pub fn symbol(&mut self, symbol: &str) -> bool {
        let is_there = self.is_symbol(symbol);
        self.at += usize::from(is_there);
        is_there
    }

    /// Takes the keyword if it is there, and begins no other item.
    pub fn word(&mut self, word: &str) -> bool {
        let is_there = self.is_word(word) && !self.begins_at_margin();
        self.at += usize::from(is_there);
        is_there
    }

    pub fn expect(&mut self, symbol: &str, or: &str) -> Result<(), Mistake> {
        if self.symbol(symbol) { Ok(()) } else { self.expected(&format!("`{symbol}`{or}")) }
    }

    pub fn expect_word(&mut self, word: &str) -> Result<(), Mistake> {
        if self.word(word) { Ok(()) } else { self.expected(&format!("`{word}`")) }
    }

    /// The mistake that something else stands where `what` belongs.
    pub fn expected<T>(&self, what: &str) -> Result<T, Mistake> {
        let token = &self.tokens[self.at];
        let found = match &token.kind {
            Kind::End => "the end".to_string(),
            Kind::Bad => "what is none".to_string(),
            Kind::Name(text, false) => format!("`{}`", String::from_utf8_lossy(text)),
            Kind::Name(text, true) => names::quoted(text, '\''),
            Kind::Text(text) => names::quoted(text, '"'),
            Kind::Number(n) => n.to_string(),
            Kind::Interval(..) => "an interval".to_string(),
            Kind::Parameter(name) => format!("`?{}`", names::name(name)),
            Kind::Binder(name) => format!("`${}`", names::name(name)),
            Kind::Symbol(symbol) => format!("`{symbol}`"),
        };
        let follows = if self.begins_at_margin() { ", which begins what follows" } else { "" };
        // What is missing is missing behind what stands before, and not at the end of the text or in the next item.
        let is_behind = !follows.is_empty() || token.kind == Kind::End;
        let (start, end) = if is_behind { (self.end(), self.end()) } else { (token.start, token.end) };
        Err(Mistake::new(start, end, format!("expected {what}, found {found}{follows}")))
    }

    /// A name; a keyword only in quotes.
    pub fn name(&mut self, what: &str) -> Result<Vec<u8>, Mistake> {
        match self.peek() {
            Kind::Name(word, false) if names::is_keyword(word) && !self.begins_at_margin() => {
                let word = String::from_utf8_lossy(word).to_string();
                self.expected(&format!("{what} (the keyword as a name is written '{word}')"))
            }
            _ => self.any_name(what),
        }
    }

    /// A name where no keyword is read, so that each may stand there plain.
    pub fn any_name(&mut self, what: &str) -> Result<Vec<u8>, Mistake> {
        match self.peek().clone() {
            Kind::Name(text, _) if !self.begins_at_margin() => {
                self.at += 1;
                Ok(text)
            }
            _ => self.expected(what),
        }
    }

    pub fn number(&mut self, what: &str, last: u64) -> Result<u64, Mistake> {
        match *self.peek() {
            Kind::Number(n) if n <= last => {
                self.at += 1;
                Ok(n)
            }
            _ => self.expected(&format!("{what}, a number from 0 to {last}")),
        }
    }

    /// The span of what stands from `start` to the token that was taken last.
    pub fn span_from(&self, start: usize) -> u64 {
        self.written_default.unwrap_or_else(|| self.place_from(start).span())
    }

    /// From `start` to the end of the token that was taken last.
    pub fn place_from(&self, start: usize) -> Place {
        Place::new(start, self.end().max(start))
    }

    /// The token that was taken last.
    pub fn last(&self) -> Place {
        let last = &self.tokens[self.at.saturating_sub(1)];
        Place::new(last.start, last.end)
    }

    pub fn spanned(&self, code: u8, start: usize, children: Vec<Placed>) -> Placed {
        Placed::new(code, self.span_from(start), self.place_from(start), children)
    }

    /// An entry with the text of the token that was taken last.
    pub fn texted(&self, code: u8, text: &[u8]) -> Placed {
        Placed::with_text(code, text, self.last())
    }

    /// Runs a part that can hold itself. A text that nests without end is a mistake of its own.
    pub fn deeper<T>(&mut self, part: impl FnOnce(&mut Parser) -> Result<T, Mistake>) -> Result<T, Mistake> {
        let around = std::mem::replace(&mut self.reached, self.depth);
        self.depth += 1;
        let done = self.one_deeper().and_then(|()| part(self));
        self.depth -= 1;
        self.reached = self.reached.max(around);
        done
    }

    pub fn begin_item(&mut self) {
        self.began = self.at;
    }

    /// Whether an item begins at the margin here, where the one before it has not ended: nothing goes on that way.
    pub fn begins_at_margin(&self) -> bool {
        self.at > self.began && self.tokens[self.at].indent == Some(0) && self.has_head(self.at)
    }

    /// What was read of the expression becomes a part of what follows it: an operator's left side, what has fields. That
    /// nests as parentheses do, though nothing of it stands in any.
    pub fn one_deeper(&mut self) -> Result<(), Mistake> {
        self.reached += 1;
        if self.reached > MOST_NESTED { self.expected("less nesting") } else { Ok(()) }
    }

    /// Counts what an item of an array is repeated to, before that is made.
    pub fn count_repeated(&mut self, item: &Placed, count: usize) -> Result<(), Mistake> {
        if count > 1 {
            self.size = self.size.and(Size::of(item), count - 1);
        }
        self.bounded(Place::new(item.place.start, self.end()))
    }

    /// Counts a tree that was read, before which a text had come to so much; and looks how deep it is, as a tape is looked
    /// at that is shown. On that tape the tree is inside so many entries.
    pub fn count(&mut self, before: Size, tree: &Placed, around: usize) -> Result<(), Mistake> {
        if let Some(Placed { place, .. }) = tree.below(DEEPEST - around) {
            let what = format!("expected at most {} entries inside one another", grouped(DEEPEST as u64));
            return Err(Mistake::new(place.start, place.end, what));
        }
        self.size = self.size.max(before.and(Size::of(tree), 1));
        self.bounded(tree.place)
    }

    fn bounded(&self, place: Place) -> Result<(), Mistake> {
        self.size.over().map_or(Ok(()), |what| Err(Mistake::new(place.start, place.end, what)))
    }

    pub fn size(&self) -> Size {
        self.size
    }

    /// What stands between here and `close`, separated by commas.
    pub fn list<T>(
        &mut self,
        close: &str,
        mut item: impl FnMut(&mut Parser) -> Result<T, Mistake>,
    ) -> Result<Vec<T>, Mistake> {
        let mut items = Vec::new();
        if self.symbol(close) {
            return Ok(items);
        }
        loop {
            items.push(item(self)?);
            if self.symbol(close) {
                return Ok(items);
            }
            self.expect(",", &format!(" or `{close}`"))?;
        }
    }
}

pub fn is_word(kind: &Kind, word: &str) -> bool {
    matches!(kind, Kind::Name(text, false) if text == word.as_bytes())
}
