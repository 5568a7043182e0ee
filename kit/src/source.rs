//! Places in a text, as a reader counts them.

use std::iter;

/// A file that was read, with its name.
pub struct Source {
    pub name: String,
    pub text: String,
    /// Where each line begins. The byte order mark belongs to none.
    lines: Vec<usize>,
    /// How many characters begin before each block of the text, so that no place is counted from the front.
    counts: Vec<usize>,
}

/// So many bytes are counted at the most to find a column.
const BLOCK: usize = 1024;

impl Source {
    pub fn new(name: &str, text: String) -> Source {
        let first = if text.starts_with(MARK) { MARK.len_utf8() } else { 0 };
        let lines = iter::once(first).chain(text.match_indices('\n').map(|(end, _)| end + 1)).collect();
        let mut counts = vec![0];
        let mut count = 0;
        for block in text.as_bytes().chunks(BLOCK) {
            count += characters(block);
            counts.push(count);
        }
        Source { name: name.to_string(), text, lines, counts }
    }

    /// Line and column of a byte, both from 1; columns are characters.
    pub fn place(&self, at: usize) -> (usize, usize) {
        let at = self.boundary(at);
        let line = self.lines.partition_point(|start| *start <= at);
        (line, self.before(at) - self.before(self.lines[line - 1]) + 1)
    }

    /// `file:line:column: what`, the line, and a mark below the bytes from `start` to `end`, as terminals show them.
    pub fn pointed(&self, start: usize, end: usize, what: &str) -> String {
        let (line, column) = self.place(start);
        let [start, end] = [start, end.max(start)].map(|at| self.boundary(at));
        let Shown { line: shown, before } = self.shown(line, start);
        let blank = |c: &char| if *c == '\t' { "\t".to_string() } else { " ".repeat(cells(*c)) };
        let blanks: String = shown[..before].iter().map(blank).collect();
        let marked = self.text[start..end].chars().take_while(|c| *c != '\n').take(shown.len() - before);
        let marks = "^".repeat(marked.map(cells).sum::<usize>().max(1));
        let shown: String = shown.into_iter().collect();
        format!("{}:{line}:{column}: {what}\n    {shown}\n    {blanks}{marks}", self.name)
    }

    /// The place at or before a byte where a character begins, behind the mark.
    fn boundary(&self, at: usize) -> usize {
        self.text.floor_char_boundary(at).max(self.lines[0])
    }

    /// How many characters begin before a byte.
    fn before(&self, at: usize) -> usize {
        let block = at / BLOCK;
        self.counts[block] + characters(&self.text.as_bytes()[block * BLOCK..at])
    }

    /// A line, with the place of a byte of it; of a long one the part around that, with `…` where it is cut.
    fn shown(&self, line: usize, at: usize) -> Shown {
        let start = self.lines[line - 1];
        let end = self.lines.get(line).map_or(self.text.len(), |next| next - 1);
        let whole = self.text[start..end].trim_end_matches('\r');
        let at = (at - start).min(whole.len());
        let [before, length] = [at, whole.len()].map(|at| self.before(start + at) - self.before(start));
        let cut = before.saturating_sub(BEFORE).min(length.saturating_sub(SHOWN));
        let before = before - cut;
        let first = whole[..at].char_indices().rev().take(before).last().map_or(at, |(first, _)| first);
        let mut shown: Vec<char> = whole[first..].chars().take(SHOWN).collect();
        if cut > 0 {
            shown[0] = '…';
        }
        if cut + shown.len() < length {
            shown[SHOWN - 1] = '…';
        }
        Shown { line: shown, before }
    }
}

/// What is shown of a line, and how many characters of that stand before the place.
struct Shown {
    line: Vec<char>,
    before: usize,
}

/// So much of a line is shown at the most, and of that so much before the place.
const SHOWN: usize = 150;
const BEFORE: usize = 60;

/// The byte order mark, with which some editors begin a text. Nobody sees it.
pub const MARK: char = '\u{FEFF}';

/// Marks that belong to the character before them, and what nobody sees.
const WITHOUT_CELL: [(char, char); 8] = [
    ('\u{300}', '\u{36F}'),
    ('\u{1AB0}', '\u{1AFF}'),
    ('\u{1DC0}', '\u{1DFF}'),
    ('\u{200B}', '\u{200F}'),
    ('\u{20D0}', '\u{20FF}'),
    ('\u{FE00}', '\u{FE0F}'),
    ('\u{FE20}', '\u{FE2F}'),
    (MARK, MARK),
];

/// The characters of East Asia that are as wide as two others, and pictures.
const TWO_CELLS: [(char, char); 14] = [
    ('\u{1100}', '\u{115F}'),
    ('\u{2E80}', '\u{303E}'),
    ('\u{3041}', '\u{33FF}'),
    ('\u{3400}', '\u{4DBF}'),
    ('\u{4E00}', '\u{9FFF}'),
    ('\u{A000}', '\u{A4CF}'),
    ('\u{AC00}', '\u{D7A3}'),
    ('\u{F900}', '\u{FAFF}'),
    ('\u{FE30}', '\u{FE6F}'),
    ('\u{FF00}', '\u{FF60}'),
    ('\u{FFE0}', '\u{FFE6}'),
    ('\u{1F300}', '\u{1F64F}'),
    ('\u{1F900}', '\u{1F9FF}'),
    ('\u{20000}', '\u{3FFFD}'),
];

/// How many cells of a terminal a character takes, as most terminals have it: no rule holds for all.
fn cells(c: char) -> usize {
    let is_in = |ranges: &[(char, char)]| ranges.iter().any(|(first, last)| (*first..=*last).contains(&c));
    match c {
        ' '..='~' => 1,
        _ if is_in(&WITHOUT_CELL) => 0,
        _ if is_in(&TWO_CELLS) => 2,
        _ => 1,
    }
}

/// How many characters begin in a part of a text: all bytes but those that go on with one.
fn characters(bytes: &[u8]) -> usize {
    bytes.iter().filter(|byte| **byte & 0xC0 != 0x80).count()
}

#[cfg(test)]
mod tests {
    use super::*;

    #[test]
    fn columns_are_characters_and_marks_stay_in_a_line() {
        let source = Source::new("f", "a\nKüche = x\ny".to_string());
        assert_eq!(source.place(0), (1, 1));
        assert_eq!(source.place(9), (2, 7));
        assert_eq!(source.pointed(9, 14, "why"), "f:2:7: why\n    Küche = x\n          ^^^");
        assert_eq!(source.pointed(99, 120, "why"), "f:3:2: why\n    y\n     ^");
    }

    /// Columns are characters, but marks stand where a terminal has them. A byte order mark is in no column.
    #[test]
    fn marks_stand_below_what_is_wide_or_has_no_width() {
        let source = Source::new("f", "\u{FEFF}\"日本\" ~\ne\u{301}\t한~".to_string());
        let at = |what: char| source.text.find(what).expect("it is there");
        assert_eq!(source.pointed(0, 3, "w"), "f:1:1: w\n    \"日本\" ~\n    ^");
        assert_eq!(source.pointed(at('~'), at('~') + 1, "w"), "f:1:6: w\n    \"日本\" ~\n           ^");
        assert_eq!(source.pointed(at('日'), at('"') + 7, "w"), "f:1:2: w\n    \"日本\" ~\n     ^^^^");
        let last = source.text.len() - 1;
        assert_eq!(source.pointed(last, last + 1, "w"), "f:2:5: w\n    e\u{301}\t한~\n     \t  ^");
    }

    /// Places on both sides of a block's beginning, and of characters that lie across it.
    #[test]
    fn places_are_those_counted_from_the_front() {
        let text = "aü日\n👩b\r\n".repeat(400) + &"ü".repeat(3000);
        let source = Source::new("f", text.clone());
        for (at, _) in text.char_indices() {
            let line = text[..at].matches('\n').count() + 1;
            let start = text[..at].rfind('\n').map_or(0, |end| end + 1);
            assert_eq!(source.place(at), (line, text[start..at].chars().count() + 1));
        }
    }

    #[test]
    fn of_a_long_line_a_part_is_shown() {
        let source = Source::new("f", format!("{}XY{}\r\n", "a".repeat(300), "b".repeat(300)));
        let shown = format!("…{}XY{}…", "a".repeat(59), "b".repeat(87));
        assert_eq!(source.pointed(300, 302, "w"), format!("f:1:301: w\n    {shown}\n    {}^^", " ".repeat(60)));
        let shown = format!("{}…", "a".repeat(149));
        assert_eq!(source.pointed(1, 600, "w"), format!("f:1:2: w\n    {shown}\n     {}", "^".repeat(149)));
        let shown = format!("…{}", "b".repeat(149));
        assert_eq!(source.pointed(601, 602, "w"), format!("f:1:602: w\n    {shown}\n    {}^", " ".repeat(149)));
    }
}
