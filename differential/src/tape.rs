//! Document 01's tape: its codes, its trees, reading with every refusal, writing.
//!
//! Written from document 01 alone. Neither upstream nor the archive is asked here.

/// What may stand at a place of a tree.
#[derive(Clone, Copy, Debug, PartialEq, Eq, PartialOrd, Ord)]
pub enum Sort {
    Condition,
    Term,
    Aggregate,
    Slot,
    Type,
    Within,
    Interval,
    Argument,
    Body,
    Call,
    Definition,
    /// 40
    Text,
    /// 42
    Span,
    Operator,
    Sigil,
    // lists (41)
    Texts,
    Fields,
    Binders,
    Arguments,
    Parameters,
    Definitions,
    /// A root: a condition, a term, a call, a definition or a list of definitions.
    Any,
    /// A root: a provider call, or a provider's argument alone.
    Provider,
    ProviderArgument,
    ProviderArguments,
}

/// What an entry's value says.
#[derive(Clone, Copy, Debug, PartialEq, Eq)]
pub enum Value {
    Span,
    TextLength,
    Count,
    Zero,
    Any,
    Below(u64),
}

/// The codes that may stand at a place of this sort.
pub fn codes(sort: Sort) -> &'static [u8] {
    match sort {
        Sort::Condition => &[1, 2, 3, 4, 5, 6, 7, 8, 9, 10, 11, 12, 13],
        Sort::Term => &[20, 21, 22, 23, 24, 25, 26, 27, 28, 29, 30, 31, 32, 33],
        Sort::Aggregate => &[34, 35, 36],
        Sort::Slot => &[43, 44, 45],
        Sort::Type => &[46, 47],
        Sort::Within => &[48, 49, 50, 51, 52, 64],
        Sort::Interval => &[48, 49, 50, 51, 64],
        Sort::Argument => &[55, 56, 57],
        Sort::Body => &[61, 62, 63],
        Sort::Call => &[54],
        Sort::Definition => &[60],
        Sort::Text => &[40],
        Sort::Span => &[42],
        Sort::Operator => &[53],
        Sort::Sigil => &[58, 59],
        Sort::Any => &[
            1, 2, 3, 4, 5, 6, 7, 8, 9, 10, 11, 12, 13, 20, 21, 22, 23, 24, 25, 26, 27, 28, 29, 30, 31, 32, 33, 41, 54,
            60,
        ],
        Sort::Provider => &[70, 71, 72, 73, 74, 75, 76],
        Sort::ProviderArgument => &[71, 72, 73, 74, 75, 76],
        Sort::Texts | Sort::Fields | Sort::Binders | Sort::Arguments | Sort::Parameters | Sort::Definitions => &[41],
        Sort::ProviderArguments => &[41],
    }
}

/// What the value of a code says.
pub fn value(code: u8) -> Value {
    match code {
        1..=13 | 34..=36 | 42 | 54 | 60 | 70 => Value::Span,
        22 | 23 | 27 | 32 | 33 | 40 | 43..=45 | 52 | 58 | 59 | 72 | 74 => Value::TextLength,
        25 | 26 | 29 | 41 | 47 | 71 | 76 => Value::Count,
        21 | 48..=51 | 64 | 73 => Value::Any,
        24 | 75 => Value::Below(2),
        31 => Value::Below(3),
        53 => Value::Below(6),
        _ => Value::Zero,
    }
}

/// What follows an entry, each once. For an entry with a count see [`item`].
pub fn parts(code: u8) -> &'static [Sort] {
    match code {
        1 | 2 => &[Sort::Condition, Sort::Condition],
        3 | 55 | 62 => &[Sort::Condition],
        4 | 5 => &[Sort::Within, Sort::Condition],
        6 => &[Sort::Condition, Sort::Within, Sort::Condition],
        7 => &[Sort::Span, Sort::Texts, Sort::Text, Sort::Text, Sort::Fields],
        8 => &[Sort::Operator, Sort::Term, Sort::Term],
        9 => &[Sort::Slot, Sort::Type, Sort::Condition],
        10 => &[Sort::Slot],
        11 | 36 => &[Sort::Call],
        12 => &[Sort::Sigil],
        13 => &[Sort::Span, Sort::Condition, Sort::Fields],
        20 => &[Sort::Text, Sort::Text],
        30 => &[Sort::Aggregate],
        31 => &[Sort::Term, Sort::Term],
        34 => &[Sort::Slot, Sort::Binders, Sort::Condition],
        35 => &[Sort::Binders, Sort::Condition],
        54 => &[Sort::Text, Sort::Arguments],
        56 | 63 => &[Sort::Term],
        57 => &[Sort::Interval],
        60 => &[Sort::Text, Sort::Parameters, Sort::Body],
        70 => &[Sort::Text, Sort::ProviderArguments],
        _ => &[],
    }
}

/// What one item of an entry with a count is: what follows it, as often as the count says.
pub fn item(sort: Sort, code: u8) -> &'static [Sort] {
    match (code, sort) {
        (25 | 26 | 47 | 71, _) | (41, Sort::Texts) => &[Sort::Text],
        (76, _) | (41, Sort::ProviderArguments) => &[Sort::ProviderArgument],
        (29, _) => &[Sort::Term],
        (41, Sort::Fields) => &[Sort::Text, Sort::Term],
        (41, Sort::Binders) => &[Sort::Slot, Sort::Type],
        (41, Sort::Arguments) => &[Sort::Argument],
        (41, Sort::Parameters) => &[Sort::Span, Sort::Text],
        (41, Sort::Definitions | Sort::Any) => &[Sort::Definition],
        _ => &[],
    }
}

/// Conditions, terms and aggregates, which nesting and size count, and a provider's arguments.
pub fn is_node(code: u8) -> bool {
    matches!(code, 1..=13 | 20..=36 | 71..=76)
}

/// An entry with what follows it. `value` is as on the tape; the items of a list stand flat among `children`.
#[derive(Clone, Debug, PartialEq, Eq)]
pub struct Node {
    pub code: u8,
    pub value: u64,
    pub text: Vec<u8>,
    pub children: Vec<Node>,
}

impl Node {
    pub fn new(code: u8, value: u64, children: Vec<Node>) -> Node {
        Node { code, value, text: Vec::new(), children }
    }

    pub fn with_text(code: u8, text: &[u8]) -> Node {
        Node { code, value: text.len() as u64, text: text.to_vec(), children: Vec::new() }
    }

    /// An entry with a count, whose items have `width` entries' trees each.
    pub fn counted(code: u8, width: usize, children: Vec<Node>) -> Node {
        Node::new(code, (children.len() / width) as u64, children)
    }

    /// This node and all below it, in entry order.
    pub fn visit<'a>(&'a self, f: &mut impl FnMut(&'a Node)) {
        f(self);
        self.children.iter().for_each(|child| child.visit(f));
    }
}

pub const fn span(start: u32, end: u32) -> u64 {
    start as u64 | (end as u64) << 32
}

pub fn span_start(span: u64) -> u64 {
    span & 0xFFFF_FFFF
}

pub fn span_end(span: u64) -> u64 {
    span >> 32
}

// ------------------------------------------------------------------ the largest figures

pub const LARGEST_PARAMETERS: usize = 16;
/// At most so many 54s on one path: one inside the arguments of 3 others.
pub const LARGEST_CALLS: usize = 4;
pub const LARGEST_TEXT: usize = 64;
pub const LARGEST_LITERAL: usize = 255;

/// The figures that hold for a tree that is made as well as for one that is read.
#[derive(Clone, Copy, Debug)]
pub struct Largest {
    pub entries: usize,
    pub text: usize,
    pub nesting: usize,
}

pub const LARGEST: Largest = Largest { entries: 1024, text: 3072, nesting: 64 };

/// No limit: to find out how large a result would be.
pub const UNBOUNDED: Largest = Largest { entries: usize::MAX, text: usize::MAX, nesting: usize::MAX };

/// A figure that something is over, and by how much.
#[derive(Clone, Copy, Debug, PartialEq, Eq)]
pub struct Over {
    pub figure: &'static str,
    pub by: usize,
}

fn exceeds(figure: &'static str, is: usize, largest: usize) -> Option<Over> {
    (is > largest).then(|| Over { figure, by: is - largest })
}

#[derive(Clone, Copy, Debug, Default, PartialEq, Eq)]
pub struct Measure {
    pub entries: usize,
    pub text: usize,
    /// Conditions, terms and aggregates on one path.
    pub nesting: usize,
    /// 54s on one path.
    pub calls: usize,
}

impl Measure {
    /// The figure that this is over.
    pub fn over(&self, largest: &Largest) -> Option<Over> {
        exceeds("entries", self.entries, largest.entries).or(exceeds("text", self.text, largest.text)).or(exceeds(
            "nesting",
            self.nesting,
            largest.nesting,
        ))
    }
}

pub fn measure(node: &Node) -> Measure {
    let mut sum = Measure { entries: 1, text: node.text.len(), ..Measure::default() };
    for child in &node.children {
        let m = measure(child);
        sum.entries += m.entries;
        sum.text += m.text;
        sum.nesting = sum.nesting.max(m.nesting);
        sum.calls = sum.calls.max(m.calls);
    }
    sum.nesting += usize::from(is_node(node.code));
    sum.calls += usize::from(node.code == 54);
    sum
}

/// Document 01's size: one for each code 1 to 13 and 20 to 36. (A provider's arguments count here too; nothing charges for them.)
pub fn size(node: &Node) -> u64 {
    u64::from(is_node(node.code)) + node.children.iter().map(size).sum::<u64>()
}

// ------------------------------------------------------------------ writing

pub fn encode(root: &Node) -> Vec<u8> {
    let mut codes = Vec::new();
    let mut values = Vec::new();
    let mut text = Vec::new();
    root.visit(&mut |node| {
        codes.push(node.code);
        values.extend_from_slice(&node.value.to_le_bytes());
        text.extend_from_slice(&node.text);
    });
    let mut tape = Vec::with_capacity(8 + 9 * codes.len() + text.len());
    tape.extend_from_slice(&(codes.len() as u32).to_le_bytes());
    tape.extend_from_slice(&(text.len() as u32).to_le_bytes());
    tape.extend_from_slice(&codes);
    tape.extend_from_slice(&values);
    tape.extend_from_slice(&text);
    tape
}

// ------------------------------------------------------------------ reading

/// Why a slice is not accepted: 2 and 3 of document 01, with the reason that was found first.
#[derive(Clone, Copy, Debug, PartialEq, Eq)]
pub enum Unread {
    Malformed(&'static str),
    TooLarge(Over),
}

/// The tree on a slice, or why it is none. The order is document 01's: a slice under 8 bytes, N or T over, any other
/// malformation, any other figure over. `longest_name` is for the texts of 27 and 43.
pub fn accept(bytes: &[u8], root: Sort, longest_name: usize) -> Result<Node, Unread> {
    if bytes.len() < 8 {
        return Err(Unread::Malformed("under 8 bytes"));
    }
    let entries = number(&bytes[0..4]) as usize;
    let text = number(&bytes[4..8]) as usize;
    let sizes = Measure { entries, text, ..Measure::default() };
    if let Some(over) = sizes.over(&LARGEST) {
        return Err(Unread::TooLarge(over));
    }
    if bytes.len() != 8 + 9 * entries + text {
        return Err(Unread::Malformed("length of the slice"));
    }
    let (codes, rest) = bytes[8..].split_at(entries);
    let (values, text) = rest.split_at(8 * entries);
    let mut reader = Reader { codes, values, text };
    let tree = reader.read(root).map_err(Unread::Malformed)?;
    match (reader.codes.is_empty() && reader.text.is_empty(), over(&tree, longest_name)) {
        (false, Some(_)) => Err(Unread::Malformed("something left over, and too large")),
        (false, None) if reader.codes.is_empty() => Err(Unread::Malformed("text left over")),
        (false, None) => Err(Unread::Malformed("entries left over")),
        (true, Some(over)) => Err(Unread::TooLarge(over)),
        (true, None) => Ok(tree),
    }
}

fn number(bytes: &[u8]) -> u64 {
    bytes.iter().rev().fold(0, |sum, b| sum << 8 | u64::from(*b))
}

/// What is left of a tape's three sections.
struct Reader<'a> {
    codes: &'a [u8],
    values: &'a [u8],
    text: &'a [u8],
}

impl Reader<'_> {
    /// The tree of this sort that comes next.
    fn read(&mut self, sort: Sort) -> Result<Node, &'static str> {
        let (&code, codes) = self.codes.split_first().ok_or("entries run out")?;
        if !self::codes(sort).contains(&code) {
            return Err("code that may not stand there");
        }
        let (value, values) = self.values.split_at(8);
        let value = number(value);
        self.codes = codes;
        self.values = values;
        let mut node = Node::new(code, value, Vec::new());
        match self::value(code) {
            Value::Span | Value::Any => {}
            Value::Zero if value == 0 => {}
            Value::Below(end) if value < end => {}
            Value::Zero => return Err("value that should be 0"),
            Value::Below(_) => return Err("value over its last one"),
            Value::TextLength => node.text = self.take_text(value)?,
            Value::Count => {
                for _ in 0..value {
                    self.read_all(item(sort, code), &mut node.children)?;
                }
            }
        }
        self.read_all(parts(code), &mut node.children)?;
        Ok(node)
    }

    fn read_all(&mut self, sorts: &[Sort], into: &mut Vec<Node>) -> Result<(), &'static str> {
        for &sort in sorts {
            into.push(self.read(sort)?);
        }
        Ok(())
    }

    fn take_text(&mut self, length: u64) -> Result<Vec<u8>, &'static str> {
        let length = usize::try_from(length).map_err(|_| "text runs out")?;
        let (text, rest) = self.text.split_at_checked(length).ok_or("text runs out")?;
        self.text = rest;
        match ill_formed(text, rest) {
            Some(why) => Err(why),
            None => Ok(text.to_vec()),
        }
    }
}

/// RFC 3629's table: for each row of it the bytes that a character may have, first to last. Of the characters of one byte
/// the controls are left out.
const CHARACTERS: [&[(u8, u8)]; 9] = [
    &[(0x20, 0x7E)],
    &[(0xC2, 0xDF), TAIL],
    &[(0xE0, 0xE0), (0xA0, 0xBF), TAIL],
    &[(0xE1, 0xEC), TAIL, TAIL],
    &[(0xED, 0xED), (0x80, 0x9F), TAIL],
    &[(0xEE, 0xEF), TAIL, TAIL],
    &[(0xF0, 0xF0), (0x90, 0xBF), TAIL, TAIL],
    &[(0xF1, 0xF3), TAIL, TAIL, TAIL],
    &[(0xF4, 0xF4), (0x80, 0x8F), TAIL, TAIL],
];

const TAIL: (u8, u8) = (0x80, 0xBF);

/// The length of the character that a text begins with, if it begins with one.
fn character(text: &[u8]) -> Option<usize> {
    let fits = |row: &&&[(u8, u8)]| {
        text.len() >= row.len() && row.iter().zip(text).all(|((first, last), b)| (first..=last).contains(&b))
    };
    CHARACTERS.iter().find(fits).map(|row| row.len())
}

/// Why a text is not well-formed, if it is not. `behind` is what the tape has behind it.
pub fn ill_formed(text: &[u8], behind: &[u8]) -> Option<&'static str> {
    let mut rest = text;
    while !rest.is_empty() {
        match character(rest) {
            Some(length) => rest = &rest[length..],
            None if character(&[rest, behind].concat()).is_some() => return Some("character cut by a text's border"),
            None => return Some(no_character(rest, text.len())),
        }
    }
    None
}

/// What is wrong where no character begins, at the end of a text of this length.
fn no_character(end: &[u8], length: usize) -> &'static str {
    match end {
        [0x00..=0x1F | 0x7F, ..] => "control character",
        [0x80..=0xBF, ..] => "stray continuation byte",
        [0xC0 | 0xC1, ..] | [0xE0, 0x80..=0x9F, ..] | [0xF0, 0x80..=0x8F, ..] => "overlong character",
        [0xED, 0xA0..=0xBF, ..] => "surrogate",
        [0xF4, 0x90..=0xBF, ..] | [0xF5..=0xFF, ..] => "character above 10FFFF",
        [_, tail @ ..] if tail.len() < 3 && tail.iter().all(|b| (TAIL.0..=TAIL.1).contains(b)) => match length {
            63 => "character cut at the end of 63 bytes",
            64 => "character cut at the end of 64 bytes",
            65 => "character cut at the end of 65 bytes",
            _ => "character cut at a text's end",
        },
        _ => "character broken off",
    }
}

/// The tree without Or: each is the negation of the conjunction of the two negations, with its span at all four entries.
pub fn withdrawn(node: &Node) -> Node {
    let children: Vec<Node> = node.children.iter().map(withdrawn).collect();
    if node.code == 2 {
        let not = |c: Node| Node::new(3, node.value, vec![c]);
        let negations = children.into_iter().map(not).collect();
        return not(Node::new(1, node.value, negations));
    }
    Node { text: node.text.clone(), ..Node::new(node.code, node.value, children) }
}

/// How long an interval is.
pub fn seconds(interval: &Node) -> Option<i128> {
    let unit = match interval.code {
        48 => 1,
        49 => 60,
        50 => 60 * 60,
        51 => 24 * 60 * 60,
        64 => 7 * 24 * 60 * 60,
        _ => return None,
    };
    Some(i128::from(interval.value as i64) * unit)
}

/// The tree with weeks as days, so many as there were weeks: what upstream is shown.
pub fn weeks_as_days(node: &Node) -> Node {
    let code = if node.code == 64 { 51 } else { node.code };
    let children = node.children.iter().map(weeks_as_days).collect();
    Node { text: node.text.clone(), ..Node::new(code, node.value, children) }
}

/// The tree with weeks as days of equal length, if their number is a signed one of 64 bits.
pub fn older(node: &Node) -> Option<Node> {
    let children = node.children.iter().map(older).collect::<Option<_>>()?;
    let (code, value) = match node.code {
        64 => (51, (node.value as i64).checked_mul(7)? as u64),
        code => (code, node.value),
    };
    Some(Node { text: node.text.clone(), ..Node::new(code, value, children) })
}

/// The figure that an accepted tree is over when it is rewritten without Or.
pub fn over_rewritten(rewritten: &Node) -> Option<Over> {
    let figure = |figure| match figure {
        "entries" => "entries when Or is rewritten",
        "nesting" => "nesting when Or is rewritten",
        other => unreachable!("rewriting adds no {other}"),
    };
    measure(rewritten).over(&LARGEST).map(|over| Over { figure: figure(over.figure), ..over })
}

/// The figure other than N and T that a tree that was read is over.
fn over(tree: &Node, longest_name: usize) -> Option<Over> {
    let m = measure(tree);
    let mut found = exceeds("nesting", m.nesting, LARGEST.nesting).or(exceeds("calls", m.calls, LARGEST_CALLS));
    tree.visit(&mut |node| {
        let length = node.text.len();
        found = found.or(match node.code {
            22 | 23 | 72 | 74 => exceeds("literal", length, LARGEST_LITERAL),
            60 => exceeds("parameters", node.children[1].value as usize, LARGEST_PARAMETERS),
            27 | 43 => exceeds("name", length, longest_name),
            _ => exceeds("text of an entry", length, LARGEST_TEXT),
        });
    });
    found
}
