//! How much a text may stand for. What is written out is as long as the text itself, but a number behind an item or a
//! character repeats it, and a line of them could take all memory.

use super::placed::Placed;
use crate::pair::grouped;
use crate::reading;

/// So often one item of an array may stand there, or one character of a text in quotes.
pub const MOST_REPEATS: usize = 4096;

/// The entries of a whole text, which may have many rules: as many as a thousand of the largest tapes.
const MOST_ENTRIES: usize = 1_000_000;

/// The bytes of names and strings of a whole text.
const MOST_TEXT: usize = reading::MOST_TEXT;

/// How deep expressions lie in one another while they are read: twice as deep as the tree that they become, since a span
/// puts a part in parentheses. The stack of `main` has room for ten times as many.
pub const MOST_NESTED: usize = 2 * reading::DEEPEST;

// A tape that is shown can be read again.
const _: () = assert!(MOST_ENTRIES >= reading::MOST_ENTRIES);

/// What a text comes to.
#[derive(Clone, Copy, Debug, Default)]
pub struct Size {
    pub entries: usize,
    /// Bytes of names and strings.
    pub text: usize,
}

impl Size {
    pub fn of(tree: &Placed) -> Size {
        let mut size = Size::default();
        tree.visit(&mut |node| {
            size.entries += 1;
            size.text += node.text.len();
        });
        size
    }

    /// With something as often as that.
    pub fn and(self, more: Size, often: usize) -> Size {
        Size { entries: self.entries + often * more.entries, text: self.text + often * more.text }
    }

    pub fn max(self, other: Size) -> Size {
        Size { entries: self.entries.max(other.entries), text: self.text.max(other.text) }
    }

    /// What is said of a text that comes to more than it may.
    pub fn over(self) -> Option<String> {
        let most = [(self.entries, MOST_ENTRIES, "entries"), (self.text, MOST_TEXT, "bytes of names and strings")];
        let (_, most, what) = most.into_iter().find(|(is, most, _)| is > most)?;
        Some(format!("expected at most {} {what} in the whole text", grouped(most as u64)))
    }
}
