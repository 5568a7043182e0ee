//! What a user types first: help and options; and where what is printed goes: answers to standard output, what is said of them to
//! standard error, and what cannot be written to the exit status.

mod common;

use common::outside;
use std::collections::BTreeMap;
use std::ffi::OsStr;
use std::fs::{self, File, Permissions};
use std::io::Write;
use std::os::unix::ffi::OsStrExt;
use std::os::unix::fs::PermissionsExt;
use std::path::Path;
use std::process::{Command, Output, Stdio};

const HELP: &str = concat!(env!("CARGO_MANIFEST_DIR"), "/help");
const LOCKOUT: &str = concat!(env!("CARGO_MANIFEST_DIR"), "/../examples/lockout.rules");

/// Runs the kit: its exit status, and what it wrote to standard output and to standard error.
fn kit(words: &[&str]) -> (i32, String, String) {
    let Output { status, stdout, stderr } =
        Command::new(env!("CARGO_BIN_EXE_kit")).args(words).output().expect("the kit runs");
    let [out, err] = [stdout, stderr].map(|bytes| String::from_utf8(bytes).expect("UTF-8"));
    (status.code().expect("an exit status"), out, err)
}

/// Each command with its help.
fn helps() -> BTreeMap<String, String> {
    let files = fs::read_dir(HELP).expect("a folder").map(|entry| entry.expect("a file").path());
    let named = files.map(|path| {
        let name = path.file_stem().expect("a name").to_str().expect("UTF-8").to_string();
        (name, fs::read_to_string(&path).expect("a text"))
    });
    named.collect()
}

#[test]
fn each_command_says_its_help() {
    let helps = helps();
    assert!(helps.len() > 12, "{helps:?}");
    let (_, all, _) = kit(&[]);
    for (name, help) in &helps {
        let said = (0, help.clone(), String::new());
        assert_eq!(kit(&[name, "--help"]), said);
        assert_eq!(kit(&[name, "--nonsense", "-h", "--", "x"]), said);
        assert_eq!(kit(&["help", name]), said);
        assert!(help.starts_with(&format!("neukolja {name} ")), "{help}");
        assert!(all.contains(&format!("\n  {name} ")), "{name} is not in {all}");
        let usage = help.split("\n\n").next().expect("a paragraph");
        let (status, out, err) = kit(&[name, "1", "2", "3", "4"]);
        assert!(status == 2 && out.is_empty() && err == format!("usage: {usage}\n"), "{name}: {err}");
    }
    let listed = all.lines().filter(|line| line.starts_with("  ")).count();
    assert_eq!(listed, helps.len(), "{all}");
    for words in [&["help"][..], &["--help"], &["-h"]] {
        assert_eq!(kit(words), (0, all.clone(), String::new()));
    }
    let (status, out, err) = kit(&["nonsense", "--help"]);
    assert!(status == 2 && out.is_empty() && err.starts_with("no command `nonsense`\n"), "{err}");
}

/// The options that a help describes, each with VALUE behind it if it has a value. A line that describes one begins with two
/// spaces, and two are behind the option or nothing is.
fn described(help: &str) -> Vec<String> {
    let named = |option: &str| match option.split_once(' ') {
        Some((name, _)) => format!("{name} VALUE"),
        None => option.to_string(),
    };
    let lines = help.lines().filter_map(|line| line.strip_prefix("  ").filter(|line| line.starts_with('-')));
    sorted(lines.map(|line| named(line.split("  ").next().expect("an option"))).collect())
}

/// The options in its first paragraph.
fn used(help: &str) -> Vec<String> {
    let usage = help.split("\n\n").next().expect("a paragraph");
    let words = usage.split(|c: char| c.is_whitespace() || "[]".contains(c));
    sorted(words.filter(|word| word.starts_with('-')).map(str::to_string).collect())
}

fn sorted(mut options: Vec<String>) -> Vec<String> {
    options.sort();
    options
}

/// The options that a command has, as it says where it is given one that it has not.
fn taken(name: &str) -> Vec<String> {
    let (status, out, err) = kit(&[name, "--no-such-option"]);
    assert!(status == 2 && out.is_empty(), "{name}: {out}");
    let said = err.strip_prefix("no option --no-such-option here").expect("a refusal").trim_end();
    let options: Vec<String> = match said.strip_prefix("; there are ") {
        Some(listed) => listed.split(", ").map(str::to_string).collect(),
        None => vec![],
    };
    assert!(!options.is_empty() || said == ", nor any other but --help", "{name}: {said}");
    sorted(options)
}

#[test]
fn each_option_stands_in_its_help() {
    for (name, help) in helps() {
        let options = described(&help);
        assert_eq!(options, taken(&name), "{name}");
        let names: Vec<&str> = options.iter().map(|option| option.trim_end_matches(" VALUE")).collect();
        assert_eq!(names, used(&help), "{name}");
    }
}

#[test]
fn values_and_words_are_told_apart() {
    let (status, refused, _) = kit(&["expand", LOCKOUT, "--limit=5"]);
    assert!(status == 1 && refused.contains("exceeds the node budget of 5"), "{refused}");
    assert_eq!(kit(&["expand", "--limit", "5", "--", LOCKOUT]).1, refused);
    let (status, _, err) = kit(&["check", "--", "--limit"]);
    assert!(status == 2 && err.starts_with("--limit: "), "{err}");
    let (status, _, err) = kit(&["expand", LOCKOUT, "--limit=five"]);
    assert!(status == 2 && err == "--limit: `five` is no number that can stand there\n", "{err}");
}

#[test]
fn a_head_that_is_not_there_is_named() {
    for (heads, said) in
        [(["model", "nothere --fast"], "B, `nothere --fast`, "), (["nothere", "model"], "A, `nothere`, ")]
    {
        let (status, out, err) = kit(&["pair", heads[0], heads[1], "--quiet"]);
        assert!(status == 2 && out.is_empty() && err.starts_with(&format!("{said}cannot be started: ")), "{err}");
    }
}

/// Each with something to write.
const PRINTING: [&[&str]; 14] = [
    &[],
    &["--version"],
    &["pair", "--help"],
    &["expand", LOCKOUT],
    &["expand", LOCKOUT, "--limit", "1"],
    &["preview", LOCKOUT],
    &["profile", LOCKOUT],
    &["check", LOCKOUT],
    &["show", LOCKOUT, "--macros"],
    &["tape", LOCKOUT, "--macros"],
    &["older", LOCKOUT, "--macros"],
    &["merge", LOCKOUT, LOCKOUT],
    &["wrong", "--list"],
    &["pair", "model", "second", "--cases", "30", "--quiet"],
];

#[test]
fn what_cannot_be_written_ends_with_2() {
    let full = || File::options().write(true).open("/dev/full").expect("a full disk");
    let run = |words: &[&str], to: Stdio| {
        let command = Command::new(env!("CARGO_BIN_EXE_kit")).args(words).stdout(to).stderr(Stdio::piped()).spawn();
        let output = command.and_then(|child| child.wait_with_output()).expect("the kit runs");
        (output.status.code(), String::from_utf8(output.stderr).expect("UTF-8"))
    };
    for words in PRINTING {
        let (status, err) = run(words, full().into());
        assert_eq!(status, Some(2), "{words:?}: {err}");
        assert!(err.ends_with("standard output: No space left on device (os error 28)\n"), "{words:?}: {err}");
        // A reader that has gone is told by the status alone.
        let (reader, writer) = std::io::pipe().expect("a pipe");
        drop(reader);
        let (status, err) = run(words, writer.into());
        assert!(status == Some(2) && !err.contains("standard output"), "{words:?}: {err}");
    }
    for command in ["tape", "older"] {
        let (status, _, err) = kit(&[command, LOCKOUT, "--macros", "-o", "/dev/full"]);
        assert!(status == 2 && err.contains("/dev/full: No space left on device"), "{command}: {err}");
    }
    // What is said of an answer is written too, or the status says that it is not.
    let expand = Command::new(env!("CARGO_BIN_EXE_kit")).args(["check", "/no/such/file"]).stderr(full()).status();
    assert_eq!(expand.expect("the kit runs").code(), Some(2));
}

#[test]
fn a_head_whose_answers_cannot_be_written_ends_with_2() {
    for words in [&["serve", "--model"][..], &["wrong", "none"]] {
        let full = File::options().write(true).open("/dev/full").expect("a full disk");
        let mut command = Command::new(env!("CARGO_BIN_EXE_kit"));
        command.args(words).stdin(Stdio::piped()).stdout(full).stderr(Stdio::null());
        let mut head = command.spawn().expect("the kit runs");
        // A hello: its length, its id, and operation 0.
        let hello = [5, 0, 0, 0, 1, 0, 0, 0, 0];
        head.stdin.take().expect("piped").write_all(&hello).expect("the head reads it");
        assert_eq!(head.wait().expect("it ends").code(), Some(2), "{words:?}");
    }
}

/// With no archive linked, what answers is said beside the answer, and not where `../neukolja` has said it.
#[test]
fn what_one_command_prints_another_reads() {
    let (status, merged, said) = kit(&["merge", LOCKOUT, LOCKOUT]);
    assert_eq!(status, 0, "{said}");
    let check = |said_before: bool| {
        let mut command = Command::new(env!("CARGO_BIN_EXE_kit"));
        command.args(["check", "-"]).stdin(Stdio::piped()).stdout(Stdio::piped()).stderr(Stdio::piped());
        command.env_remove("NEUKOLJA_SAID").envs(said_before.then_some(("NEUKOLJA_SAID", "yes")));
        let mut child = command.spawn().expect("the kit runs");
        child.stdin.take().expect("piped").write_all(merged.as_bytes()).expect("it reads");
        let Output { status, stdout, stderr } = child.wait_with_output().expect("it ends");
        assert!(status.success(), "{merged}");
        [stdout, stderr].map(|bytes| String::from_utf8(bytes).expect("UTF-8"))
    };
    let note = "(check: no archive is linked; answered by the model in differential/)\n";
    let note = if kit::archive::LINKED.is_some() { "" } else { note };
    assert_eq!(check(false), ["5 macros, 0 rules, 0 mistakes\n", note]);
    assert_eq!(check(true), ["5 macros, 0 rules, 0 mistakes\n", ""]);
}

/// The kit run by bash behind these commands, for what is set for a process.
fn behind(commands: &str, words: &[&str]) -> (i32, String, String) {
    let script = format!("{commands}; exec \"$0\" \"$@\"");
    let kit = ["-c", &script, env!("CARGO_BIN_EXE_kit")];
    let Output { status, stdout, stderr } = Command::new("bash").args(kit).args(words).output().expect("bash runs");
    let [out, err] = [stdout, stderr].map(|bytes| String::from_utf8_lossy(&bytes).to_string());
    (status.code().expect("an exit status"), out, err)
}

#[test]
fn a_command_that_cannot_begin_ends_with_2() {
    let word = OsStr::from_bytes(b"x\xFF.rules");
    let output = Command::new(env!("CARGO_BIN_EXE_kit")).arg("check").arg(word).output().expect("the kit runs");
    let said = "`x\u{FFFD}.rules` is no UTF-8, as each word of a command has to be\n";
    assert_eq!((output.status.code(), String::from_utf8(output.stderr).as_deref()), (Some(2), Ok(said)));
    // Too little memory for the stack of its thread.
    let (status, out, err) = behind("ulimit -v 50000", &["--version"]);
    assert!(status == 2 && out.is_empty() && err.starts_with("no thread for the command: "), "{err}");
}

/// A folder of this name with nothing in it.
fn folder(name: &str) -> String {
    let path = format!("{}/{name}", env!("CARGO_TARGET_TMPDIR"));
    let _ = fs::remove_dir_all(&path);
    fs::create_dir(&path).expect("a folder");
    path
}

#[test]
fn a_tape_goes_to_standard_output_where_that_is_named() {
    let bytes = |words: &[&str]| {
        let output = Command::new(env!("CARGO_BIN_EXE_kit")).args(words).current_dir(folder("piped")).output();
        let Output { status, stdout, .. } = output.expect("the kit runs");
        assert!(status.success(), "{words:?}");
        stdout
    };
    let tape = bytes(&["tape", LOCKOUT, "--macros"]);
    for words in [&["tape", LOCKOUT, "--macros", "-o", "-"][..], &["merge", LOCKOUT, LOCKOUT, "-o", "-"]] {
        assert_eq!(bytes(words), tape, "{words:?}");
    }
    // Nothing else goes there.
    let path = format!("{}/boost.tape", folder("tapes"));
    let expand = ["expand", LOCKOUT, "--rule", "three boosts a day", "-o"];
    assert_eq!(kit(&[&expand[..], &[&path]].concat()).0, 0);
    assert_eq!(bytes(&[&expand[..], &["-"]].concat()), fs::read(&path).expect("a tape"));
    assert_eq!(fs::read_dir(Path::new(&path).with_file_name("../piped")).expect("a folder").count(), 0);
}

/// Nothing is left of one that cannot be written, and what stood there before stays.
#[test]
fn a_tape_is_written_whole_or_not_at_all() {
    let folder = outside("whole-tape");
    let [rules, tape, link] =
        ["wide.rules", "wide.tape", "link.tape"].map(|name| format!("{}/{name}", folder.display()));
    fs::write(&rules, format!("rule: P{{f: [{}]}}", ["1"; 300].join(", "))).expect("a file");
    let write = |to: &str, limit: &str| behind(limit, &["tape", &rules, "-o", to]);
    let too_long = "ulimit -f 1; trap '' XFSZ";
    let (status, _, err) = write(&tape, too_long);
    assert!(status == 2 && err.starts_with(&format!("{tape}: File too large")), "{err}");
    assert!(!fs::exists(&tape).expect("a folder"));
    fs::write(&tape, "before").expect("a file");
    fs::set_permissions(&tape, Permissions::from_mode(0o640)).expect("a file");
    std::os::unix::fs::symlink(&tape, &link).expect("a link");
    assert_eq!(write(&tape, too_long).0, 2);
    assert_eq!(fs::read(&tape).expect("a file"), b"before");
    assert_eq!(write(&link, "true").0, 0);
    assert!(fs::symlink_metadata(&link).expect("a link").is_symlink());
    assert_eq!(fs::metadata(&tape).expect("a file").permissions().mode() & 0o777, 0o640);
    assert!(fs::read(&tape).expect("a tape").len() > 1024);
    assert_eq!(fs::read_dir(&folder).expect("a folder").count(), 3);
    fs::remove_dir_all(&folder).expect("a folder");
}

/// Some files have no end.
#[test]
fn so_much_is_read_and_no_more() {
    let said = |path: &str| format!("{path}: more than 16 MiB, which are read at the most\n");
    for command in ["check", "show", "expand", "profile"] {
        assert_eq!(kit(&[command, "/dev/zero"]), (2, String::new(), said("/dev/zero")));
    }
    let (status, _, err) = behind("exec </dev/full", &["check", "-"]);
    assert_eq!((status, err), (2, said("-")));
}

/// Long work says on a terminal how far it is, and in a pipe nothing.
#[test]
fn the_corpus_says_how_far_it_is() {
    let folder = concat!(env!("CARGO_TARGET_TMPDIR"), "/progress");
    let corpus = ["corpus", folder, "--cases", "5000"];
    let (status, out, err) = kit(&corpus);
    assert!(status == 0 && out.ends_with(&format!(" in {folder}\n")) && err.is_empty(), "{err}");
    let line = format!("{} {} >{folder}/out", env!("CARGO_BIN_EXE_kit"), corpus.join(" "));
    let terminal = Command::new("script").args(["-qec", &line, "/dev/null"]).output().expect("script runs");
    let shown = String::from_utf8(terminal.stdout).expect("UTF-8");
    assert!(shown.contains(" of 5,000 cases") && shown.ends_with("\r\x1B[K"), "{shown:?}");
    assert_eq!(fs::read_to_string(format!("{folder}/out")).expect("a file"), out);
}
