//! Files that are tapes or texts in the notation; which of the two is seen from their bytes.

use super::args::Args;
use crate::nearest::nearest;
use crate::notation::{self, Mistake, Once, Place, Placed, Reading, Rule};
use crate::pair::counted;
use crate::reading;
use crate::source::Source;
use differential::tape::{self, Node, Sort};
use std::collections::BTreeMap;
use std::fs;
use std::io::{self, Read};
use std::sync::Mutex;

pub enum Input {
    Tape(Vec<u8>),
    Text(Source, Box<Reading>),
}

/// So many bytes of a file are read, in MiB: more than any tape has, and any rules that somebody writes. Some files have no end.
const MOST_MIB: u64 = 16;

/// What stands in a file, or `-` for standard input.
pub fn bytes(path: &str) -> Result<Vec<u8>, String> {
    let bytes = kept(path).map_err(|e| format!("{path}: {e}"))?;
    let is_long = bytes.len() as u64 > MOST_MIB << 20;
    if is_long { Err(format!("{path}: more than {MOST_MIB} MiB, which are read at the most")) } else { Ok(bytes) }
}

/// All bytes, or one more than are read at the most.
fn all(from: impl Read) -> io::Result<Vec<u8>> {
    let mut bytes = Vec::new();
    from.take((MOST_MIB << 20) + 1).read_to_end(&mut bytes).map(|_| bytes)
}

/// What can be read only once, such as standard input or a pipe, is kept for the place of a refusal.
fn kept(path: &str) -> io::Result<Vec<u8>> {
    static KEPT: Mutex<BTreeMap<String, Vec<u8>>> = Mutex::new(BTreeMap::new());
    let read = || if path == "-" { all(io::stdin()) } else { fs::File::open(path).and_then(all) };
    if path != "-" && fs::metadata(path).is_ok_and(|of| of.is_file()) {
        return read();
    }
    let mut kept = KEPT.lock().expect("nobody panics with it");
    if let Some(bytes) = kept.get(path) {
        return Ok(bytes.clone());
    }
    let bytes = read()?;
    kept.insert(path.to_string(), bytes.clone());
    Ok(bytes)
}

/// A tape, or as much of a text as can be read.
pub fn read(path: &str) -> Result<Input, String> {
    let bytes = bytes(path)?;
    if bytes.iter().all(u8::is_ascii_whitespace) {
        return Err(format!("{path}: nothing in it"));
    }
    if reading::is_tape(&bytes) {
        return Ok(Input::Tape(bytes));
    }
    let text = text(path, bytes)?;
    let reading = notation::read(&text);
    Ok(Input::Text(Source::new(path, text), Box::new(reading)))
}

/// A tape, or a text without mistakes.
pub fn load(path: &str) -> Result<Input, String> {
    match read(path)? {
        Input::Text(source, reading) if !reading.mistakes.is_empty() => Err(unreadable(&source, &reading.mistakes)),
        input => Ok(input),
    }
}

/// The first mistake of a text, and how many more there are.
fn unreadable(source: &Source, mistakes: &[Mistake]) -> String {
    let Mistake { start, end, what, meant } = &mistakes[0];
    let meant = meant.as_ref().map_or(String::new(), |meant| format!("\n    did you mean `{meant}`?"));
    let more = match mistakes.len() - 1 {
        0 => String::new(),
        more => format!("\n({more} more; `neukolja check {}` has them all)", source.name),
    };
    source.pointed(*start, *end, what) + &meant + &more
}

/// The bytes as a text, or the first of them that no text has.
fn text(path: &str, bytes: Vec<u8>) -> Result<String, String> {
    let (text, has_all) = match String::from_utf8(bytes.clone()) {
        Ok(text) => (text, true),
        Err(e) => (String::from_utf8_lossy(&bytes[..e.utf8_error().valid_up_to()]).to_string(), false),
    };
    let (at, what) = match text.bytes().position(is_control) {
        Some(at) => (at, "a control, which no text of rules has"),
        None if has_all => return Ok(text),
        None => (text.len(), "no UTF-8, as a text of rules has to be"),
    };
    let (line, column) = Source::new(path, text).place(at);
    Err(format!("{path}:{line}:{column}: byte {:02X} is {what}", bytes[at]))
}

/// A control that is neither a tab nor of a line's end.
fn is_control(byte: u8) -> bool {
    byte.is_ascii_control() && !matches!(byte, b'\t' | b'\n' | b'\r')
}

/// A tape of any root: as it is, or of the one tree that the text stands for.
pub fn tape(path: &str) -> Result<Vec<u8>, String> {
    match load(path)? {
        Input::Tape(bytes) => Ok(bytes),
        Input::Text(_, reading) => {
            let document = reading.document;
            let several = || {
                let name = |(i, rule)| format!("`{}`", notation::visible(&rule_name(i, rule)));
                let names: Vec<String> = document.rules.iter().enumerate().map(name).collect();
                let macros = counted(document.definitions.len() as u64, "macro");
                format!("{path}: {macros} and the rules {}, which are several tapes", names.join(", "))
            };
            document.tree().map(|tree| tape::encode(&tree)).ok_or_else(several)
        }
    }
}

/// The tape that `--macros` or `--rule NAME` chooses, or the only one.
pub fn chosen(args: &Args, path: &str) -> Result<Vec<u8>, String> {
    if args.has("--macros") {
        return Ok(Rules::load(&[path.to_string()])?.registry);
    }
    let Some(wanted) = args.value("--rule") else {
        let is_several = |why: &String| why.ends_with("several tapes");
        return tape(path).map_err(|why| if is_several(&why) { why + ": --macros or --rule NAME" } else { why });
    };
    let rules = Rules::load(&[path.to_string()])?;
    rules.named(wanted).map(|i| rules.conditions[i].tape.clone())
}

/// What places stand in: a text, or a tape, whose places are its entries.
pub enum File {
    Text(Source),
    Tape(String),
}

/// Macros and conditions, from one file or from two.
pub struct Rules {
    /// That of the macros, and behind it that of conditions alone if there is one.
    pub files: Vec<File>,
    pub registry: Vec<u8>,
    /// Those of the registry, as far as it can be read.
    pub definitions: Vec<Node>,
    /// The same with their places in the first file.
    pub macros: Vec<Placed>,
    pub conditions: Vec<Condition>,
    pub limit: Option<u32>,
    pub file: Option<u16>,
    /// Whether spans are places in the first file, which is a text.
    pub spans_counted: bool,
    /// What of each file could not be read: its number among the files, and the mistake.
    pub mistakes: Vec<(usize, Mistake)>,
    /// The names of macros that could not be read.
    pub unread: Vec<Vec<u8>>,
    /// What is to stand once in each file, with the number of the file.
    pub once: Vec<(usize, Once, Place)>,
}

pub struct Condition {
    pub name: String,
    pub tape: Vec<u8>,
    /// Its tree with places, if it is one, of whatever root.
    pub tree: Option<Placed>,
    /// The number of its file.
    pub file: usize,
    /// Whether it is a rule of a text, and no tape of its own.
    is_text: bool,
}

impl Rules {
    /// The tape for an operation that wants macros. What was given as a tape of something else is refused as it is.
    pub fn for_macros(&self) -> Vec<u8> {
        match &self.conditions[..] {
            [Condition { tape, is_text: false, .. }] if self.definitions.is_empty() => tape.clone(),
            _ => self.registry.clone(),
        }
    }

    /// Macros and conditions of files without mistakes.
    pub fn load(paths: &[String]) -> Result<Rules, String> {
        let rules = Rules::read(paths)?;
        match &rules.mistakes[..] {
            [] => Ok(rules),
            [(file, _), ..] => {
                let of_it = rules.mistakes.iter().filter(|(other, _)| other == file);
                let mistakes: Vec<Mistake> = of_it.map(|(_, mistake)| mistake.clone()).collect();
                Err(unreadable(rules.source(*file).expect("tapes have no such mistakes"), &mistakes))
            }
        }
    }

    /// Macros and conditions as far as they can be read.
    pub fn read(paths: &[String]) -> Result<Rules, String> {
        let [first, rest @ ..] = paths else { return Err("no file".to_string()) };
        let mut rules = Rules::of_one(read(first)?, first);
        if let [second] = rest {
            // Without the macros that it was to have, what the second file has would be judged wrongly.
            let unread = rules.conditions.iter().find(|condition| condition.tree.is_none());
            if let Some(why) = unread.and_then(|unread| reading::tree(&unread.tape, Sort::Any).err()) {
                return Err(format!("{first}: no tree: {why}"));
            }
            let more = Rules::of_one(read(second)?, second);
            if !more.definitions.is_empty() {
                return Err(format!("{second}: the second file is for conditions alone"));
            }
            rules.files.extend(more.files);
            rules.mistakes.extend(more.mistakes.into_iter().map(|(_, mistake)| (1, mistake)));
            rules.once.extend(more.once.into_iter().map(|(_, once, place)| (1, once, place)));
            rules.conditions.extend(more.conditions.into_iter().map(|condition| Condition { file: 1, ..condition }));
            (rules.limit, rules.file) = (more.limit.or(rules.limit), more.file.or(rules.file));
        }
        Ok(rules)
    }

    /// The text of a file.
    pub fn source(&self, file: usize) -> Option<&Source> {
        match &self.files[file] {
            File::Text(source) => Some(source),
            File::Tape(_) => None,
        }
    }

    /// The text that spans of answers point into, if there is one for all.
    pub fn only_source(&self) -> Option<&Source> {
        if self.files.len() == 1 && self.spans_counted { self.source(0) } else { None }
    }

    /// The place of the one rule of this name.
    pub fn named(&self, wanted: &str) -> Result<usize, String> {
        let path = match &self.files[self.files.len() - 1] {
            File::Text(source) => &source.name,
            File::Tape(name) => name,
        };
        let mut found = (0..self.conditions.len()).filter(|i| self.conditions[*i].name == wanted);
        match (found.next(), found.next()) {
            (Some(i), None) => Ok(i),
            (None, _) => {
                let near = nearest(wanted, self.conditions.iter().map(|condition| condition.name.as_str()));
                let meant = near.map_or(String::new(), |near| format!("; did you mean `{near}`?"));
                Err(format!("{path}: no rule `{wanted}`{meant}"))
            }
            _ => Err(format!("{path}: several rules `{wanted}`")),
        }
    }

    fn empty(file: File) -> Rules {
        Rules {
            files: vec![file],
            registry: tape::encode(&Node::counted(41, 1, vec![])),
            definitions: vec![],
            macros: vec![],
            conditions: vec![],
            limit: None,
            file: None,
            spans_counted: false,
            mistakes: vec![],
            unread: vec![],
            once: vec![],
        }
    }

    /// Macros and conditions of a text.
    #[cfg(test)]
    pub fn of_text(name: &str, text: &str) -> Rules {
        let source = Source::new(name, text.to_string());
        Rules::of_one(Input::Text(source, Box::new(notation::read(text))), name)
    }

    fn of_one(input: Input, path: &str) -> Rules {
        let (source, reading) = match input {
            Input::Tape(bytes) => return Rules::of_tape(bytes, path),
            Input::Text(source, reading) => (source, reading),
        };
        let Reading { document, mistakes, unread } = *reading;
        let none = Rules {
            limit: document.limit,
            file: document.file,
            spans_counted: document.spans_counted,
            mistakes: mistakes.into_iter().map(|mistake| (0, mistake)).collect(),
            unread,
            once: document.placed.once.into_iter().map(|(once, place)| (0, once, place)).collect(),
            ..Rules::empty(File::Text(source))
        };
        if let Some(root) = document.placed.root {
            return none.with_root(root, path);
        }
        let condition = |((i, rule), tree): ((usize, &Rule), Placed)| Condition {
            name: rule_name(i, rule),
            tape: tape::encode(&rule.condition),
            tree: Some(tree),
            file: 0,
            is_text: true,
        };
        let conditions = document.rules.iter().enumerate().zip(document.placed.rules).map(condition).collect();
        Rules { conditions, ..none }.with_macros(document.placed.definitions)
    }

    /// A registry's tape, a definition's, or a condition's. One that is none is taken as a condition's, and refused as
    /// such.
    fn of_tape(bytes: Vec<u8>, path: &str) -> Rules {
        let none = Rules::empty(File::Tape(path.to_string()));
        match reading::tree(&bytes, Sort::Any) {
            Ok(tree) => none.with_root(Placed::of_tape(&tree), path),
            Err(_) => none.with_condition(bytes, None, path),
        }
    }

    /// The tree of a tape, or of a text that says `root`.
    fn with_root(self, root: Placed, path: &str) -> Rules {
        match root.code {
            41 => self.with_macros(root.children),
            60 => self.with_macros(vec![root]),
            _ => self.with_condition(tape::encode(&root.node()), Some(root), path),
        }
    }

    fn with_macros(self, macros: Vec<Placed>) -> Rules {
        let registry = Node::counted(41, 1, macros.iter().map(Placed::node).collect());
        Rules { registry: tape::encode(&registry), definitions: registry.children, macros, ..self }
    }

    fn with_condition(self, tape: Vec<u8>, tree: Option<Placed>, path: &str) -> Rules {
        let name = path.to_string();
        Rules { conditions: vec![Condition { name, tape, tree, file: 0, is_text: false }], ..self }
    }
}

fn rule_name(i: usize, rule: &Rule) -> String {
    rule.name.clone().unwrap_or_else(|| format!("rule {}", i + 1))
}
