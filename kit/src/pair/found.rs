//! The file of found cases: what differed once is asked first the next time.
//!
//! Each case is a block of lines, a word and what belongs to it. The rule stands before them behind `#`, for readers.

use super::run::Found;
use crate::hex;
use crate::protocol;
use differential::case::{self, COUNTS, Case, Operation};
use std::fmt::Write as _;
use std::fs::{self, OpenOptions};
use std::io::{self, Write as _};

const HEAD: &str =
    "# Cases on which two expanders differed, as `pair --found` writes and reads them (docs/SUPPLIER.md).\n";

/// A file that is larger holds something else: it has room for tens of thousands of small cases.
const LARGEST: u64 = 1 << 26;

/// A case of the file, and where it was found.
#[derive(Clone, Debug, PartialEq, Eq)]
pub struct Old {
    pub case: Case,
    pub from: String,
}

/// A file that is open for more cases.
pub struct Book {
    path: String,
    pub old: Vec<Old>,
    /// The line in which a last case begins of which only a part is there: a write that was cut off. It counts as absent.
    pub part: Option<usize>,
    /// How long the file is without what was cut off, if something was. That goes when a case is added.
    whole: Option<usize>,
}

impl Book {
    /// The cases of the file, which is made if it is not there.
    pub fn open(path: &str) -> Result<Book, String> {
        let found = text(path).map_err(|e| format!("{path}: {e}"))?;
        let is_new = found.is_none();
        let Text { text, is_cut } = found.unwrap_or_default();
        let named = |(line, what)| format!("{path}:{line}: {what}");
        let Read { old, part, whole } = read(&text).map_err(named)?;
        let whole = part.map(|_| whole).or(is_cut.then_some(text.len()));
        let mut book = Book { path: path.to_string(), old, part, whole };
        // It has to be known before the night that it can be written.
        if is_new {
            book.append(HEAD)?;
        } else {
            OpenOptions::new().append(true).open(path).map_err(|e| format!("{path}: {e}"))?;
        }
        Ok(book)
    }

    /// What is to be said of what it holds.
    pub fn note(&self) -> Option<String> {
        let (path, line) = (&self.path, self.part?);
        Some(format!(
            "{path}:{line}: of the last case only a part is there: it is left out, and goes when one is added"
        ))
    }

    /// Writes a case behind the others, if it is not among them.
    pub fn add(&mut self, found: &Found) -> Result<(), String> {
        let (case, from) = (found.smallest.shape.case(), found.origin.to_string());
        if self.old.iter().any(|old| old.case == case) {
            return Ok(());
        }
        self.append(&block(found, &case, &from))?;
        self.old.push(Old { case, from });
        Ok(())
    }

    fn append(&mut self, text: &str) -> Result<(), String> {
        let written = append(&self.path, self.whole.take(), text);
        written.map_err(|e| format!("{}: {e}", self.path))
    }
}

#[derive(Default)]
struct Text {
    text: String,
    /// Whether its last letter is there in part.
    is_cut: bool,
}

/// The text of a regular file, or nothing if there is none. Others have no end, or none that can be written behind.
fn text(path: &str) -> io::Result<Option<Text>> {
    match fs::metadata(path) {
        Ok(found) if !found.is_file() => Err(io::Error::other("no regular file")),
        Ok(found) if found.len() > LARGEST => {
            Err(io::Error::other(format!("{} bytes, where {LARGEST} are the most", found.len())))
        }
        Ok(_) => whole_letters(fs::read(path)?).map(Some),
        Err(e) if e.kind() == io::ErrorKind::NotFound => Ok(None),
        Err(e) => Err(e),
    }
}

fn whole_letters(mut bytes: Vec<u8>) -> io::Result<Text> {
    let cut = std::str::from_utf8(&bytes).err().filter(|e| e.error_len().is_none());
    bytes.truncate(cut.map_or(bytes.len(), |e| e.valid_up_to()));
    let text = String::from_utf8(bytes).map_err(io::Error::other)?;
    Ok(Text { text, is_cut: cut.is_some() })
}

/// Writes a text at the end, or behind so many bytes. If it cannot be written whole, no part of it stays.
fn append(path: &str, behind: Option<usize>, text: &str) -> io::Result<()> {
    let mut file = OpenOptions::new().append(true).create(true).open(path)?;
    behind.map_or(Ok(()), |length| file.set_len(length as u64))?;
    let length = file.metadata()?.len();
    let written = file.write_all(text.as_bytes()).and_then(|()| file.sync_data());
    written.inspect_err(|_| drop(file.set_len(length)))
}

fn block(found: &Found, case: &Case, from: &str) -> String {
    let comment: String = found.smallest.shape.readable().lines().map(|line| format!("#     {line}\n")).collect();
    format!("\n# {}\n{comment}{}", found.cause, written(case, from))
}

/// The lines of a case.
fn written(case: &Case, from: &str) -> String {
    let list = |numbers: &[u64]| numbers.iter().map(|n| format!(" {n}")).collect::<String>();
    let counts = list(&case::used(&case.counts).iter().map(|n| u64::from(*n)).collect::<Vec<_>>());
    let buffers = list(&case.sizes.map(|size| size as u64));
    let mut text = format!("case {}\nfrom {from}\n", case.operation.name());
    let _ = write!(text, "limit {}\nfile {}\nindex {}\n", case.limit, case.file, case.index);
    let _ = write!(text, "buffers{buffers}\ncounts{counts}\n");
    for tape in &case.tapes {
        let _ = writeln!(text, "tape {}", hex::of(tape));
    }
    text + "end\n"
}

/// What a text holds: its cases, the line of a last one that is there in part, and how long it is without that.
#[derive(Debug, Default)]
struct Read {
    old: Vec<Old>,
    part: Option<usize>,
    whole: usize,
}

/// The cases of a text, or the line in which something else stands, and what is wrong with it.
fn read(text: &str) -> Result<Read, (usize, String)> {
    let mut read = Read::default();
    let mut open: Option<Old> = None;
    for (i, whole_line) in text.split_inclusive('\n').enumerate() {
        let line = whole_line.trim();
        if line.is_empty() || line.starts_with('#') {
            continue;
        }
        // Of a line that is cut off it does not matter what is wrong with it: the case that it belongs to has no end.
        let is_cut =
            !whole_line.ends_with('\n') && (open.is_some() || "case".starts_with(line) || line.starts_with("case "));
        if is_cut && line != "end" {
            read.part = read.part.or(Some(i + 1));
            break;
        }
        let wrong = |what: String| (i + 1, what);
        let (word, rest) = line.split_once(' ').unwrap_or((line, ""));
        match (word, &mut open) {
            ("case", None) => (open, read.part) = (Some(begun(rest).map_err(wrong)?), Some(i + 1)),
            ("end", Some(_)) => {
                read.old.extend(open.take().map(whole).transpose().map_err(wrong)?);
                (read.part, read.whole) = (None, offset(text, whole_line) + whole_line.len());
            }
            ("case", Some(_)) | (_, None) => return Err(wrong(format!("`{word}` where no such line can stand"))),
            (_, Some(old)) => take(old, word, rest).map_err(wrong)?,
        }
    }
    Ok(read)
}

/// Where in a text a part of it begins.
fn offset(text: &str, part: &str) -> usize {
    part.as_ptr() as usize - text.as_ptr() as usize
}

fn begun(name: &str) -> Result<Old, String> {
    let operation = Operation::named(name).ok_or_else(|| format!("no operation `{name}`"))?;
    Ok(Old { case: Case::new(operation, 0, vec![]), from: String::new() })
}

fn whole(old: Old) -> Result<Old, String> {
    let (operation, tapes) = (old.case.operation, old.case.tapes.len());
    let wanted = operation.roots().len().max(1);
    if tapes == wanted { Ok(old) } else { Err(format!("{tapes} tapes, where {} has {wanted}", operation.name())) }
}

/// One line of a case.
fn take(old: &mut Old, word: &str, rest: &str) -> Result<(), String> {
    let case = &mut old.case;
    match word {
        "from" => old.from = rest.to_string(),
        "limit" => case.limit = number(rest)?,
        "file" => case.file = number(rest)?,
        "index" => case.index = number(rest)?,
        "buffers" => {
            case.sizes = numbers(rest)?.try_into().map_err(|_| "three sizes belong behind `buffers`".to_string())?;
            protocol::check_sizes(&case.sizes)?;
        }
        "counts" => {
            let counts: Vec<u32> = numbers(rest)?;
            let places = case.counts.get_mut(..counts.len()).ok_or(format!("more than {COUNTS} counts"))?;
            places.copy_from_slice(&counts);
        }
        "tape" => case.tapes.push(bytes(rest)?),
        _ => return Err(format!("no line begins with `{word}`")),
    }
    Ok(())
}

fn number<N: std::str::FromStr>(text: &str) -> Result<N, String> {
    text.parse().map_err(|_| format!("`{text}` is no number that can stand there"))
}

fn numbers<N: std::str::FromStr>(text: &str) -> Result<Vec<N>, String> {
    text.split_whitespace().map(number).collect()
}

fn bytes(hex: &str) -> Result<Vec<u8>, String> {
    let byte = |two: &[u8]| {
        let two = std::str::from_utf8(two).ok().filter(|two| two.len() == 2 && !two.contains('+'));
        two.and_then(|two| u8::from_str_radix(two, 16).ok()).ok_or("a tape is written as two hex digits for each byte")
    };
    Ok(hex.as_bytes().chunks(2).map(byte).collect::<Result<_, _>>()?)
}

#[cfg(test)]
mod tests {
    use super::*;
    use differential::generate;

    #[test]
    fn what_is_written_is_read() {
        let cases: Vec<Case> = (0..300).map(|index| generate::case(5, index)).collect();
        let from = |i: usize| format!("case {i} of seed 5");
        let text: String = cases.iter().enumerate().map(|(i, case)| format!("\n{}", written(case, &from(i)))).collect();
        let text = format!("{HEAD}{text}");
        let Read { old, part, whole } = read(&text).expect("cases");
        assert!(old.iter().enumerate().all(|(i, old)| old.from == from(i) && old.case == cases[i]));
        assert_eq!((old.len(), part, whole), (300, None, text.len()));
    }

    /// Wherever a write was cut off, the cases before it are read, and no others.
    #[test]
    fn a_part_of_a_case_counts_as_absent() {
        let [one, other] = [0, 1].map(|index| format!("\n# a rule\n{}", written(&generate::case(5, index), "a seed")));
        let line = one.lines().count() + 3;
        for cut in 1..other.len() {
            let text = format!("{one}{}", &other[..cut]);
            let Read { old, part, whole } = read(&text).unwrap_or_else(|e| panic!("{e:?}: {text}"));
            let is_whole = other[..cut].ends_with("\nend");
            let is_begun = other[..cut].contains("\nc") && !is_whole;
            assert_eq!((old.len(), part), (1 + usize::from(is_whole), is_begun.then_some(line)), "{text}");
            assert!(whole == one.len() || is_whole, "{text}");
        }
    }

    #[test]
    fn a_letter_that_is_cut_off_goes() {
        let cut = whole_letters("# é".as_bytes()[..3].to_vec()).expect("a text");
        assert!(cut.text == "# " && cut.is_cut);
        let whole = whole_letters("# é".as_bytes().to_vec()).expect("a text");
        assert!(whole.text == "# é" && !whole.is_cut);
        assert!(whole_letters(vec![0xFF, b'a']).is_err());
    }

    #[test]
    fn mistakes_have_a_line() {
        let wrong = [
            ("case nothing\n", 1, "no operation `nothing`"),
            ("# x\n\nlimit 3\n", 3, "`limit` where no such line can stand"),
            ("case check\ncase check\n", 2, "`case` where no such line can stand"),
            ("case check\ntape 0\nend\n", 2, "two hex digits"),
            ("case check\ntape +1\nend\n", 2, "two hex digits"),
            ("case check\ntape é\nend\n", 2, "two hex digits"),
            ("case check\nend\n", 2, "0 tapes, where check has 1"),
            ("case check\nlimit x\n", 2, "`x` is no number"),
            ("case check\nbuffers 1 2\n", 2, "three sizes"),
            ("case check\nbuffers 2000000 0 0\n", 2, "a buffer of 2000000 bytes, where 1048576 are the most"),
            ("case check\nwhat 1\n", 2, "no line begins with `what`"),
            ("what 1", 1, "`what` where no such line can stand"),
        ];
        for (text, line, what) in wrong {
            let (at, said) = read(text).expect_err(text);
            assert!(at == line && said.contains(what), "{text}: {at}: {said}");
        }
    }
}
