//! docs/TRANSCRIPT.md, typed again: every command of the page, one after another in a checkout, and each line that it prints
//! against the line that stands there. And that the tests are there of which README.md says what they show.

mod common;

use common::outside;
use kit::archive::LINKED;
use std::path::{Path, PathBuf};
use std::process::{Command, Output, Stdio};
use std::{env, fs};

const KIT: &str = env!("CARGO_MANIFEST_DIR");

/// A command of the page, and what the page says of it.
#[derive(Debug, PartialEq)]
struct Step {
    /// Its line, from 1.
    line: usize,
    command: String,
    output: Vec<String>,
    status: i32,
}

/// The commands of a page. What is set in by four spaces is a command behind `$`, its further lines behind `>`, and what it
/// prints. Empty lines at the end of that are not told apart.
fn steps(page: &str) -> Vec<Step> {
    let mut steps: Vec<Step> = vec![];
    let mut is_set_in = false;
    for (at, line) in page.lines().enumerate() {
        let text = line.strip_prefix("    ").or(Some("").filter(|_| line.is_empty() && is_set_in));
        is_set_in = text.is_some();
        let Some(text) = text else { continue };
        if let Some(command) = text.strip_prefix("$ ") {
            steps.push(Step { line: at + 1, command: command.to_string(), output: vec![], status: 0 });
            continue;
        }
        let step = steps.last_mut().unwrap_or_else(|| panic!("line {}: no command stands before it", at + 1));
        match text.strip_prefix("> ").filter(|_| step.output.is_empty()) {
            Some(more) => step.command += &format!("\n{more}"),
            None => step.output.push(text.to_string()),
        }
    }
    steps.iter_mut().for_each(Step::end);
    steps
}

impl Step {
    /// Takes from the output what belongs to the page: empty lines behind it, and the exit status.
    fn end(&mut self) {
        without_empty_end(&mut self.output);
        let status = |line: &String| line.strip_prefix("(exit status ")?.strip_suffix(')')?.parse().ok();
        if let Some(status) = self.output.last().and_then(status) {
            self.output.pop();
            self.status = status;
        }
    }

    /// How often the kit is run, and so what answers is said. Help needs no kit.
    fn runs(&self) -> usize {
        let words: Vec<&str> = self.command.split_whitespace().collect();
        let is_command = |word: &str| Path::new(KIT).join(format!("help/{word}.txt")).is_file();
        let runs = words.windows(2).filter(|pair| pair[0] == "./neukolja" && is_command(pair[1]));
        if words.contains(&"--help") { 0 } else { runs.count() }
    }

    /// Types the command. What is not as the page has it, with the page's line.
    fn typed(&self, top: &Path) -> Result<(), String> {
        let (text, status) = typed(&self.command, top);
        let wrong = |what: String| {
            let place = format!("docs/TRANSCRIPT.md:{}: `{}`", self.line, self.command);
            Err(format!("{place}\n{what}\nIt ends with {status}, and all that it prints is\n{text}"))
        };
        let (said, mut lines): (Vec<&str>, Vec<&str>) = text.lines().partition(|line| *line == what_answers());
        if said.len() != self.runs() {
            return wrong(format!("what answers is said {} times, not {}", said.len(), self.runs()));
        }
        // It stands on the page once.
        let is_shown = self.output.first().is_some_and(|line| line.starts_with("neukolja: the "));
        lines.splice(0..0, said.first().copied().filter(|_| is_shown));
        let mut lines: Vec<String> = lines.into_iter().map(str::to_string).collect();
        without_empty_end(&mut lines);
        match self.output.iter().zip(&lines).find(|(written, seen)| !is_as(written, seen)) {
            Some((written, seen)) => wrong(format!("on the page: {written}\nprinted:     {seen}")),
            None if lines.len() != self.output.len() => {
                wrong(format!("{} lines on the page, {} are printed", self.output.len(), lines.len()))
            }
            None if status != self.status => wrong(format!("the page has the exit status {}", self.status)),
            None => Ok(()),
        }
    }
}

fn without_empty_end(lines: &mut Vec<String>) {
    while lines.last().is_some_and(String::is_empty) {
        lines.pop();
    }
}

/// Whether a line is as it is written, where `…` stands for anything but nothing.
fn is_as(written: &str, seen: &str) -> bool {
    let Some((before, behind)) = written.split_once('…') else { return written == seen };
    let Some(rest) = seen.strip_prefix(before) else { return false };
    (1..=rest.len()).filter(|at| rest.is_char_boundary(*at)).any(|at| is_as(behind, &rest[at..]))
}

/// The line in which `./neukolja` says what answers here.
fn what_answers() -> String {
    match LINKED {
        Some(archive) => format!("neukolja: the archive answers, {archive}: NEUKOLJA_ARCHIVE names it"),
        None => "neukolja: the model in differential/ answers: NEUKOLJA_ARCHIVE is none".to_string(),
    }
}

/// What a command prints, standard output and standard error as they come, and its exit status.
fn typed(command: &str, top: &Path) -> (String, i32) {
    let path = format!("{}:{}", top.join("bin").display(), env::var("PATH").expect("a path"));
    let mut bash = Command::new("bash");
    bash.args(["-c", &format!("exec 2>&1\n{command}")]).current_dir(top).stdin(Stdio::null());
    bash.env("PATH", path).env("LC_ALL", "C").env("NEUKOLJA_ARCHIVE", LINKED.unwrap_or("none"));
    let Output { status, stdout, .. } = bash.env_remove("NEUKOLJA_SAID").output().expect("bash runs");
    (String::from_utf8(stdout).expect("UTF-8"), status.code().expect("an exit status"))
}

/// A checkout in which the kit is built: this one, as it is linked. So its cargo has nothing to do.
fn checkout() -> PathBuf {
    let (top, real) = (outside("transcript"), Path::new(KIT).join(".."));
    for folder in ["bin", "examples", "kit/target/release"] {
        fs::create_dir_all(top.join(folder)).expect("a folder");
    }
    for example in fs::read_dir(real.join("examples")).expect("a folder") {
        let example = example.expect("a file");
        fs::copy(example.path(), top.join("examples").join(example.file_name())).expect("a file");
    }
    let link = |to: &Path, at: &str| std::os::unix::fs::symlink(to, top.join(at)).expect("a link");
    // A script that is linked takes the checkout that it is in for its own.
    fs::copy(real.join("neukolja"), top.join("neukolja")).expect("a file");
    for file in ["kit/help", "kit/help.txt", "kit/format.txt"] {
        link(&real.join(file), file);
    }
    link(Path::new(env!("CARGO_BIN_EXE_kit")), "kit/target/release/kit");
    let cargo = top.join("bin/cargo");
    fs::write(&cargo, "#!/bin/sh\n").expect("a file");
    fs::set_permissions(&cargo, std::os::unix::fs::PermissionsExt::from_mode(0o755)).expect("a program");
    top
}

/// One test for both: a program that was just written cannot be started while a test beside this one starts another.
#[test]
fn the_page_is_true() {
    what_is_not_so_is_told();
    let page = fs::read_to_string(Path::new(KIT).join("../docs/TRANSCRIPT.md")).expect("docs/TRANSCRIPT.md");
    let (steps, top) = (steps(&page), checkout());
    for help in fs::read_dir(Path::new(KIT).join("help")).expect("a folder") {
        let name = help.expect("a file").file_name().to_str().expect("UTF-8").replace(".txt", "");
        let run = format!("./neukolja {name} ");
        assert!(steps.iter().any(|step| step.command.contains(&run) && step.runs() > 0), "{name} is not on the page");
    }
    let wrong: Vec<String> = steps.iter().filter_map(|step| step.typed(&top).err()).collect();
    assert!(wrong.is_empty(), "{}", wrong.join("\n"));
    fs::remove_dir_all(&top).expect("a folder");
}

/// Whatever is otherwise than the page has it.
fn what_is_not_so_is_told() {
    let top = Path::new(KIT);
    let told = |page: &str| {
        let steps = steps(page);
        assert!(!steps.is_empty(), "{page}");
        steps.iter().filter_map(|step| step.typed(top).err()).collect::<Vec<_>>().join("\n")
    };
    for page in [
        "    $ printf 'a\\n\\nb\\n'\n    a\n\n    b\n",
        "    $ echo a; (exit 3)\n    a\n    (exit status 3)\n",
        "    $ echo a >&2; echo b\n    a\n    b\n\n    $ cat <<'END'\n    > a\n    > END\n    a\n\nWords.\n",
        "    $ echo a 17 b\n    a … b\n",
    ] {
        assert_eq!(told(page), "", "{page}");
    }
    for (page, why) in [
        ("    $ echo a\n    b\n", "1: `echo a`\non the page: b\nprinted:     a\n"),
        ("    $ echo a\n    a\n    a\n", "2 lines on the page, 1 are printed"),
        ("    $ echo a; echo a >&2\n    a\n", "1 lines on the page, 2 are printed"),
        ("    $ echo a\n    a\n    (exit status 1)\n", "the page has the exit status 1\nIt ends with 0"),
        ("Words.\n\n    $ echo; (exit 2)\n", "TRANSCRIPT.md:3: `echo; (exit 2)`\nthe page has the exit status 0"),
        ("    $ echo a 17 b c\n    a … b\n", "printed:     a 17 b c\n"),
        ("    $ echo 'a  b'\n    a … b\n", "printed:     a  b\n"),
        ("    $ : ./neukolja show x\n", "what answers is said 0 times, not 1"),
        ("    $ echo a\n    neukolja: the …\n", "printed:     a\n"),
    ] {
        assert!(told(page).contains(why), "{page}{}", told(page));
    }
}

/// The tests that README.md names in the table of what users tried, each as `file::name`.
#[test]
fn each_row_has_its_tests() {
    let page = fs::read_to_string(Path::new(KIT).join("README.md")).expect("README.md");
    let table = page.lines().skip_while(|line| !line.starts_with("| tried |")).skip(2);
    let rows: Vec<&str> = table.take_while(|line| line.starts_with('|')).collect();
    assert_eq!(rows.len(), 30, "{rows:#?}");
    for row in rows {
        let cell = row.trim_end_matches([' ', '|']).rsplit(" | ").next().expect("a cell");
        let named: Vec<(&str, &str)> = cell.split('`').filter_map(|word| word.split_once("::")).collect();
        assert!(!named.is_empty(), "{row}");
        for (file, name) in named {
            let path = [format!("tests/{file}.rs"), format!("src/{file}.rs")].map(|path| Path::new(KIT).join(path));
            let source = path.iter().find_map(|path| fs::read_to_string(path).ok()).expect(file);
            // A part of a larger test is called by it.
            let forms =
                [format!("#[test]\nfn {name}() {{"), format!("#[test]\n    fn {name}() {{"), format!(" {name}();")];
            assert!(source.contains(&format!("fn {name}(")), "{file} has no {name}");
            assert!(forms.iter().any(|form| source.contains(form)), "{name} in {file} is no test");
        }
    }
}
