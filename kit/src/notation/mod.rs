//! Rules as text: printer and parser. The grammar stands in docs/NOTATION.md.

mod bounds;
mod expression;
mod items;
mod lex;
mod meant;
mod names;
mod parser;
mod placed;
mod print;
mod spans;

pub use bounds::Size;
pub use items::{Document, Once, PlacedItems, Reading, Rule, parse, read};
pub use lex::Mistake;
pub use names::{name, quoted, visible};
pub use placed::{Place, Placed};
pub use print::{Spans, print, print_items, print_lines, print_root, spans_of};
