//! Spans that are written: `@7..9`, and for what has two `@1..2/7..9`.

use super::expression::{Parsed, What};
use super::lex::Mistake;
use super::parser::Parser;
use super::placed::Placed;
use differential::tape;

/// The spans of an annotation: of the condition or aggregate, and the predicate's, refinement's or call's own.
pub struct Written {
    outer: Option<u64>,
    inner: Option<u64>,
    start: usize,
    end: usize,
}

impl Parser {
    /// An annotation, if there is one.
    pub fn annotation(&mut self) -> Result<Option<Written>, Mistake> {
        let start = self.start();
        if !self.symbol("@") {
            return Ok(None);
        }
        self.spans_written = true;
        let outer = if self.is_symbol("/") { None } else { Some(self.span()?) };
        let inner = if self.symbol("/") { Some(self.span()?) } else { None };
        Ok(Some(Written { outer, inner, start, end: self.end() }))
    }

    /// `7..9`
    pub fn span(&mut self) -> Result<u64, Mistake> {
        let start = self.number("a span's start", u64::from(u32::MAX))?;
        self.expect("..", " between a span's start and its end")?;
        let end = self.number("a span's end", u64::from(u32::MAX))?;
        Ok(tape::span(start as u32, end as u32))
    }
}

impl Written {
    /// The one span of what has no second.
    pub fn single(&self, what: &str) -> Result<u64, Mistake> {
        match (self.outer, self.inner) {
            (Some(span), None) => Ok(span),
            _ => self.mistake(&format!("expected one span, as {what} has no second")),
        }
    }

    /// Both spans of what has two: one that is written alone is for both.
    fn both(&self, outer: &mut u64, inner: &mut u64) {
        if let Some(span) = self.outer {
            *outer = span;
        }
        if let Some(span) = self.inner.or(self.outer) {
            *inner = span;
        }
    }

    pub fn apply(&self, to: &mut Parsed) -> Result<(), Mistake> {
        match &mut to.what {
            What::Condition(node) if matches!(node.code, 7 | 13) => {
                let Placed { value, children, .. } = node;
                self.both(value, &mut children[0].value);
            }
            What::Condition(node) => node.value = self.single("this condition")?,
            What::Call { call, outer } => self.both(outer, &mut call.value),
            What::Sigil { written, .. } => *written = Some(self.single("a sigil")?),
            What::Term(node) if node.code == 30 => node.children[0].value = self.single("an aggregate")?,
            What::Term(_) => return self.mistake("expected no span: of the terms only aggregates have one"),
        }
        Ok(())
    }

    fn mistake<T>(&self, what: &str) -> Result<T, Mistake> {
        Err(Mistake::new(self.start, self.end, what))
    }
}
