//! Text to tokens.

use super::bounds::{MOST_REPEATS, Size};
use super::names;
use crate::source::MARK;

/// What is wrong with a text, and where: bytes `start` to `end` of it.
#[derive(Clone, Debug, PartialEq, Eq)]
pub struct Mistake {
    pub start: usize,
    pub end: usize,
    pub what: String,
    /// What was probably meant.
    pub meant: Option<String>,
}

impl Mistake {
    pub fn new(start: usize, end: usize, what: impl Into<String>) -> Mistake {
        Mistake { start, end, what: what.into(), meant: None }
    }
}

#[derive(Clone, Debug, PartialEq, Eq)]
pub enum Kind {
    /// A name, and whether it was quoted: then it is no keyword.
    Name(Vec<u8>, bool),
    /// `"text"`
    Text(Vec<u8>),
    Number(u64),
    /// An amount and the code of its unit.
    Interval(u64, u8),
    /// `?x`
    Parameter(Vec<u8>),
    /// `$t`
    Binder(Vec<u8>),
    Symbol(&'static str),
    /// What begins nothing, or is cut off: a mistake of its own.
    Bad,
    End,
}

#[derive(Clone, Debug, PartialEq, Eq)]
pub struct Token {
    pub kind: Kind,
    pub start: usize,
    pub end: usize,
    /// How many characters stand before it, if those are blanks alone.
    pub indent: Option<usize>,
}

/// Longer ones first, so that `==` is not read as `=` twice.
const SYMBOLS: [&str; 27] = [
    "::", "..", "==", "!=", "<=", ">=", "&&", "||", "(", ")", "{", "}", "[", "]", ",", ";", ":", ".", "=", "<", ">",
    "!", "+", "-", "*", "@", "/",
];

/// The digits of the largest number that says how often a character stands there.
const DIGITS: usize = MOST_REPEATS.ilog10() as usize + 1;

/// The units of an interval with their codes.
pub const UNITS: [(&str, u8); 5] = [("s", 48), ("m", 49), ("h", 50), ("d", 51), ("w", 64)];

/// The tokens of a text, with a bad one for each mistake.
pub fn tokens(text: &str) -> (Vec<Token>, Vec<Mistake>) {
    let at = if text.starts_with(MARK) { MARK.len_utf8() } else { 0 };
    let mut lexer = Lexer { text, at, repeated: Size::default() };
    let (mut tokens, mut mistakes) = (Vec::new(), Vec::new());
    loop {
        let skipped = lexer.skip_blanks();
        let (start, indent) = (lexer.at, indent(skipped, tokens.is_empty()));
        let kind = lexer.next().unwrap_or_else(|mistake| {
            lexer.at = lexer.at.max(mistake.end);
            mistakes.push(mistake);
            Kind::Bad
        });
        let is_last = kind == Kind::End;
        tokens.push(Token { kind, start, end: lexer.at, indent });
        if is_last {
            return (tokens, mistakes);
        }
    }
}

/// How many characters stand before a token on its line, if those are blanks alone: then the line's beginning is in what was
/// skipped before the token, or is the text's.
fn indent(skipped: &str, is_first: bool) -> Option<usize> {
    let line = match skipped.rfind('\n') {
        Some(end) => &skipped[end + 1..],
        None if is_first => skipped,
        None => return None,
    };
    line.chars().all(char::is_whitespace).then(|| line.chars().count())
}

/// Whether a line ends here, with or without a `\r` before its end or the text's.
fn is_line_end(rest: &str) -> bool {
    rest.starts_with('\n') || rest.starts_with("\r\n") || rest == "\r"
}

struct Lexer<'a> {
    text: &'a str,
    at: usize,
    /// What repeated characters have come to.
    repeated: Size,
}

impl<'a> Lexer<'a> {
    fn rest(&self) -> &str {
        &self.text[self.at..]
    }

    fn next(&mut self) -> Result<Kind, Mistake> {
        match self.rest().chars().next() {
            None => Ok(Kind::End),
            // What was too much has been told, and there may be as many mistakes behind it as repeated characters.
            Some(_) if self.repeated.over().is_some() => Ok(Kind::End),
            Some(c) if c.is_ascii_digit() => self.number(),
            Some('"') => self.in_quotes('"').map(Kind::Text),
            Some('\'') => self.in_quotes('\'').map(|text| Kind::Name(text, true)),
            Some(c @ ('?' | '$')) => self.sigil(c),
            Some(_) => self.name_or_symbol(),
        }
    }

    /// Blanks, line ends, and comments from `//` to the end of a line.
    fn skip_blanks(&mut self) -> &'a str {
        let (text, start) = (self.text, self.at);
        loop {
            self.at += names::prefix(self.rest(), char::is_whitespace);
            if !self.rest().starts_with("//") {
                return &text[start..self.at];
            }
            self.at += names::prefix(self.rest(), |c| c != '\n');
        }
    }

    fn name_or_symbol(&mut self) -> Result<Kind, Mistake> {
        let length = names::identifier(self.rest());
        if length > 0 {
            let text = self.rest().as_bytes()[..length].to_vec();
            self.at += length;
            return Ok(Kind::Name(text, false));
        }
        let found = SYMBOLS.into_iter().find(|symbol| self.rest().starts_with(symbol));
        let symbol = found.ok_or_else(|| {
            let c = self.rest().chars().next().expect("not at the end");
            Mistake::new(self.at, self.at + c.len_utf8(), format!("`{c}` begins nothing; a name like it is put in '…'"))
        })?;
        self.at += symbol.len();
        Ok(Kind::Symbol(symbol))
    }

    /// `?` or `$` and a name right behind it.
    fn sigil(&mut self, sigil: char) -> Result<Kind, Mistake> {
        let start = self.at;
        self.at += 1;
        let name = if self.rest().starts_with('\'') {
            self.in_quotes('\'')?
        } else {
            let length = names::identifier(self.rest());
            let name = self.rest().as_bytes()[..length].to_vec();
            self.at += length;
            if length == 0 {
                return Err(Mistake::new(start, self.at, format!("expected a name right behind `{sigil}`")));
            }
            name
        };
        Ok(if sigil == '?' { Kind::Parameter(name) } else { Kind::Binder(name) })
    }

    /// Digits, and for an interval a unit right behind them.
    fn number(&mut self) -> Result<Kind, Mistake> {
        let start = self.at;
        let digits = names::prefix(self.rest(), |c| c.is_ascii_digit());
        let amount: u64 = self.rest()[..digits]
            .parse()
            .map_err(|_| Mistake::new(start, start + digits, "expected a number of at most 64 bits"))?;
        self.at += digits;
        let letters = names::identifier(self.rest());
        if letters == 0 {
            return Ok(Kind::Number(amount));
        }
        let unit = &self.rest()[..letters];
        let code = UNITS.into_iter().find(|(letter, _)| *letter == unit).map(|(_, code)| code);
        let what = "expected a number, or one with a unit: s, m, h, d or w";
        let code = code.ok_or_else(|| Mistake::new(start, self.at + letters, what))?;
        self.at += letters;
        Ok(Kind::Interval(amount, code))
    }

    /// What stands in quotes, its escapes resolved. It ends where its line ends, since no text on a tape may have a line's
    /// end as it is, and what stands on the next line is seldom meant to belong to it.
    fn in_quotes(&mut self, quote: char) -> Result<Vec<u8>, Mistake> {
        let start = self.at;
        self.at += 1;
        let (mut text, mut last) = (Vec::new(), Vec::new());
        // A bad escape is told when the end is found, so that what stands behind it is not taken for something else.
        let mut wrong = None;
        loop {
            let Some(c) = self.rest().chars().next().filter(|_| !is_line_end(self.rest())) else {
                return Err(Mistake::new(start, self.at, format!("expected `{quote}` at the end of this text")));
            };
            self.at += c.len_utf8();
            let piece = match c {
                _ if c == quote => return wrong.map_or(Ok(text), Err),
                '\\' if self.rest().starts_with('{') => self.repeat(&last),
                '\\' => self.escape().inspect(|piece| last.clone_from(piece)),
                _ => {
                    last = c.to_string().into_bytes();
                    Ok(last.clone())
                }
            };
            match piece {
                Ok(piece) => text.extend(piece),
                Err(mistake) => wrong = wrong.or(Some(mistake)),
            }
        }
    }

    /// Behind a `\`: a quote, a `\`, or `x` and two digits.
    fn escape(&mut self) -> Result<Vec<u8>, Mistake> {
        let start = self.at - 1;
        let bytes = self.rest().as_bytes();
        if let Some(c @ (b'\'' | b'"' | b'\\')) = bytes.first().copied() {
            self.at += 1;
            return Ok(vec![c]);
        }
        let byte =
            bytes.strip_prefix(b"x").and_then(|rest| rest.get(..2)).and_then(|two| std::str::from_utf8(two).ok());
        match byte.and_then(|two| u8::from_str_radix(two, 16).ok()) {
            Some(byte) => {
                self.at += 3;
                Ok(vec![byte])
            }
            None => Err(Mistake::new(start, self.at, r#"expected \", \', \\, \xC3 or \{20} behind a `\`"#)),
        }
    }

    /// `{20}`: how often the character before it stands there. What it comes to beside that character.
    fn repeat(&mut self, character: &[u8]) -> Result<Vec<u8>, Mistake> {
        let start = self.at - 1;
        let rest = &self.rest()[1..];
        // No more is looked at than a number has that may stand there: each `\{` may be one of many that lack their end.
        let digits = rest.bytes().take(DIGITS).take_while(u8::is_ascii_digit).count();
        let is_closed = rest[digits..].starts_with('}');
        let count = rest[..digits].parse().ok().filter(|n| (1..=MOST_REPEATS).contains(n));
        let Some(count) = count.filter(|_| is_closed) else {
            let what = format!("expected a number from 1 to {MOST_REPEATS} and `}}` behind `\\{{`");
            return Err(Mistake::new(start, self.at, what));
        };
        self.at += digits + 2;
        self.repeated.text += character.len() * (count - 1);
        if let Some(what) = self.repeated.over() {
            return Err(Mistake::new(start, self.at, what));
        }
        Ok(character.repeat(count - 1))
    }
}

#[cfg(test)]
mod tests {
    use super::*;

    fn kinds(text: &str) -> Vec<Kind> {
        let (tokens, mistakes) = tokens(text);
        assert_eq!(mistakes, []);
        tokens.into_iter().map(|token| token.kind).collect()
    }

    #[test]
    fn names_numbers_and_symbols() {
        use Kind::*;
        let name = |text: &str| Name(text.as_bytes().to_vec(), false);
        assert_eq!(
            kinds("t$7#3 == ?x // why\n 24h 7..9"),
            [name("t$7#3"), Symbol("=="), Parameter(b"x".to_vec()), Interval(24, 50)]
                .into_iter()
                .chain([Number(7), Symbol(".."), Number(9), End])
                .collect::<Vec<_>>()
        );
        assert_eq!(kinds(r#"$'' 'it\'s' "\xC3a\{3}""#)[..2], [Binder(vec![]), Name(b"it's".to_vec(), true)]);
        assert_eq!(kinds(r#""\xC3a\{3}""#)[0], Text(b"\xC3aaa".to_vec()));
    }

    #[test]
    fn mistakes_have_a_place() {
        let place = |text: &str| tokens(text).1.first().map(|m| (m.start, m.end)).expect("a mistake");
        assert_eq!(place("a 5y"), (2, 4));
        assert_eq!(place("a ? b"), (2, 3));
        assert_eq!(place("a \"b"), (2, 4));
        assert_eq!(place("99999999999999999999"), (0, 20));
        assert_eq!(place("a ~"), (2, 3));
        assert_eq!(place("'a\nb'"), (0, 2));
        assert_eq!(place("a 'b\\q\\z' c"), (4, 5));
        assert_eq!(place("a \"b\r\nc"), (2, 4));
        assert_eq!(place("a \"b\r"), (2, 4));
        for count in ["", "0", "4097", "00020", "20", "20 }"] {
            let end = if count == "20" { "" } else { "}" };
            assert_eq!(place(&format!("'b\\{{{count}{end}'")), (2, 3), "{count}");
        }
        // Many of them take no time.
        assert_eq!(tokens(&"'\\{'\n".repeat(200_000)).1.len(), 200_000);
    }

    #[test]
    fn behind_a_mistake_the_next_token_follows() {
        let (tokens, mistakes) = tokens("a 5y 'b\\qc' ~\n  \"d\ne");
        let kinds: Vec<Kind> = tokens.iter().map(|token| token.kind.clone()).collect();
        let name = |text: &[u8]| Kind::Name(text.to_vec(), false);
        assert_eq!(kinds, [name(b"a"), Kind::Bad, Kind::Bad, Kind::Bad, Kind::Bad, name(b"e"), Kind::End]);
        assert_eq!(mistakes.len(), 4);
        let indents: Vec<Option<usize>> = tokens.iter().map(|token| token.indent).collect();
        assert_eq!(indents, [Some(0), None, None, None, Some(2), Some(0), None]);
    }

    #[test]
    fn an_indent_is_of_blanks_alone() {
        let indents = |text: &str| tokens(text).0.iter().map(|token| token.indent).collect::<Vec<Option<usize>>>();
        assert_eq!(indents("\u{FEFF}a\n// b\n\tc d // e"), [Some(0), Some(1), None, None]);
        assert_eq!(indents("  a\r\n\r\n b\n"), [Some(2), Some(1), Some(0)]);
        assert_eq!(indents("// a"), [None]);
    }
}
