//! A pairing that goes on: a head that is wrong in three ways has three causes, in as many jobs as there may be; and what a
//! head wrote before it ended is in the report. The head is made of heads/model.rs.

use std::path::{Path, PathBuf};
use std::process::Command;
use std::sync::OnceLock;
use std::{env, fs};

const KIT: &str = env!("CARGO_MANIFEST_DIR");

/// What `kit/heads/model.rs` is made of another program by: it fails, or answers something else, where it has answered.
const EDITS: [(&str, &str); 2] = [
    (
        "    let (a, _) = model::answer(&case);\n",
        "    fail(&case);\n    let (a, _) = model::answer(&case);\n    let a = wrong(&case, a);\n",
    ),
    ("cfg!(feature = \"weeks\").then_some", "(std::env::args().nth(1).as_deref() != Some(\"no-weeks\")).then_some"),
];

/// Three ways to be wrong, two to end, one that what was asked before matters for, and one that knows no weeks, of which the first word of the command line chooses.
const WRONG: &str = r#"
fn wrong(case: &Case, mut a: differential::case::Answer) -> differential::case::Answer {
    if std::env::args().nth(1).as_deref() == Some("three-ways") {
        match case.operation {
            Operation::Check if a.number == 21 => a.number = 22,
            Operation::Expand if a.number == 0 && a.charged >= 3 => a.charged += 1,
            Operation::Substitute if a.number == 0 && a.result[8] == 3 => {
                let entries = u32::from_le_bytes(a.result[..4].try_into().expect("4 bytes")) as usize;
                a.result[8 + entries] ^= 1;
            }
            _ => {}
        }
    }
    if std::env::args().nth(1).as_deref() == Some("no-weeks") && a.number == 0 && !a.result.is_empty() {
        let entries = u32::from_le_bytes(a.result[..4].try_into().expect("4 bytes")) as usize;
        // Behind an interval in days something is wrong: of a substitution the last entry, of an expansion the charge.
        match case.operation {
            _ if !a.result[8..8 + entries].contains(&51) => {}
            Operation::Expand => a.charged += 1,
            Operation::Substitute => a.result[8 + entries + 8 * (entries - 1)] ^= 1,
            _ => {}
        }
    }
    if std::env::args().nth(1).as_deref() == Some("remembers") && case.operation == Operation::Expand && a.number == 0 {
        static ASKED: std::sync::atomic::AtomicU32 = std::sync::atomic::AtomicU32::new(0);
        let asked = ASKED.fetch_add(1, std::sync::atomic::Ordering::Relaxed);
        a.charged += u64::from((2..12).contains(&asked) || a.charged >= 60);
    }
    a
}

fn fail(case: &Case) {
    if case.operation != Operation::Merge {
        return;
    }
    match std::env::args().nth(1).as_deref() {
        Some("panics") => panic!("these two\nare not merged"),
        Some("talks") => {
            eprintln!("begins{}ends", "-".repeat(100_000));
            std::process::exit(3);
        }
        _ => {}
    }
}
"#;

/// The head as a program. The first test that wants it builds it.
fn head(how: &str) -> String {
    static BUILT: OnceLock<PathBuf> = OnceLock::new();
    format!("'{}' {how}", BUILT.get_or_init(build).display())
}

fn build() -> PathBuf {
    let target = Path::new(env!("CARGO_TARGET_TMPDIR")).parent().expect("a folder");
    let folder = target.join("tmp/three-ways");
    let mut source = fs::read_to_string(Path::new(KIT).join("heads/model.rs")).expect("the source");
    for (from, to) in EDITS {
        assert_eq!(source.matches(from).count(), 1, "{from}");
        source = source.replace(from, to);
    }
    let package = "[workspace]\n[package]\nname = \"three-ways\"\nversion = \"0.1.0\"\nedition = \"2024\"\n";
    let has = ["counts", "files", "index", "preview", "utf8", "weeks"];
    let features = has.map(|feature| format!("{feature} = []\n")).concat();
    let depends = format!("[dependencies]\ndifferential = {{ path = \"{KIT}/../differential\" }}\n");
    fs::create_dir_all(folder.join("src")).expect("a folder");
    fs::write(folder.join("src/main.rs"), source + WRONG).expect("a file");
    fs::write(folder.join("Cargo.toml"), format!("{package}[features]\n{features}{depends}")).expect("a file");
    // In the kit's own folder, where `differential` is built already.
    let words = ["build", "--offline", "--release", "--quiet", "--jobs", "2", "--all-features"];
    let mut cargo = Command::new(env!("CARGO"));
    let built = cargo.current_dir(&folder).args(words).arg("--target-dir").arg(target).status();
    assert!(built.expect("cargo runs").success());
    target.join("release/three-ways")
}

fn pair(head: &str, more: &[&str]) -> (i32, String) {
    let words = [&["pair", "model", head, "--quiet"][..], more].concat();
    let output = Command::new(env!("CARGO_BIN_EXE_kit")).args(words).output().expect("the kit runs");
    assert_eq!(String::from_utf8_lossy(&output.stderr), "", "{more:?}");
    (output.status.code().expect("an exit status"), String::from_utf8_lossy(&output.stdout).to_string())
}

#[test]
fn three_ways_to_be_wrong_are_three_causes() {
    let head = head("three-ways");
    let (status, text) = pair(&head, &["--keep-going", "--cases", "6000"]);
    assert!(status == 1 && text.contains(": 3 causes of difference in "), "{text}");
    for cause in [
        ": check, 21 in A and 22 in B, first the number\n",
        ": expand, 0 in A and 0 in B, first the charge\n",
        ": substitute, 0 in A and 0 in B, first an entry 3 in A, 3 in B\n",
    ] {
        assert_eq!(text.matches(cause).count(), 1, "{text}");
    }
    let (status, text) = pair(&head, &["--cases", "6000", "--only", "registry,merge,judge"]);
    assert!(status == 0 && text.ends_with(": no difference\n"), "{text}");
}

/// What is shown and judged is what is compared: with a head that knows no weeks, older tapes.
#[test]
fn with_a_head_without_weeks_older_tapes_are_shown() {
    let more = ["--keep-going", "--cases", "3000", "--only", "substitute,expand", "--as-found"];
    let (status, text) = pair(&head("no-weeks"), &more);
    assert!(status == 1 && text.contains("expand, 0 in A and 0 in B, first the charge\n"), "{text}");
    assert!(text.contains(" of A: 0, equal to ours\n"), "{text}");
    assert!(text.contains(" of B: 0, equal to ours\n"), "{text}");
    assert!(!text.contains(": 50, ") && text.contains("One of the two has no weeks"), "{text}");
    // The entry that is named is the one that the cause names.
    let causes = text.split("\nCause ").filter_map(|cause| cause.split_once("first an entry "));
    let mut seen = 0;
    for (codes, (_, named)) in
        causes.filter_map(|(_, cause)| Some((cause, cause.split_once("the difference: the result; entry ")?)))
    {
        let code = codes.split(' ').next().expect("a code");
        assert!(named.split_once(" is ").expect("an entry").1.starts_with(&format!("{code} ")), "{text}");
        seen += 1;
    }
    assert!(seen > 0, "{text}");
}

/// The first cases of its cause show it after others alone, a later one by itself.
#[test]
fn a_case_that_shows_it_by_itself_is_looked_for() {
    let found = format!("{}/remembers", env!("CARGO_TARGET_TMPDIR"));
    let _ = fs::remove_file(&found);
    let more = ["--keep-going", "--cases", "600", "--from", "20", "--only", "expand", "--found", &found];
    let (status, text) = pair(&head("remembers"), &more);
    assert!(status == 1 && text.contains("\nCause 1 of 1: expand, 0 in A and 0 in B, first the charge\n"), "{text}");
    assert!(
        text.contains("; the first that shows it by itself is case ") && text.contains(" made smaller from "),
        "{text}"
    );
    assert!(!text.contains("what was asked before it matters"), "{text}");
    assert_eq!(fs::read_to_string(&found).expect("a file").matches("\nend\n").count(), 1);
}

#[test]
fn the_report_does_not_depend_on_the_jobs() {
    let head = head("three-ways");
    for more in
        [&["--keep-going"][..], &["--keep-going", "--format", "json"], &["--keep-going", "--format", "junit"], &[]]
    {
        let run = |jobs: &str| pair(&head, &[more, &["--cases", "3000", "--from", "1000", "--jobs", jobs]].concat());
        let one = run("1");
        assert!(one.0 == 1 && one == run("2") && one == run("5"), "{}", one.1);
    }
}

#[test]
fn all_that_a_head_wrote_is_shown() {
    for more in [&["--cases", "200"][..], &["--cases", "200", "--keep-going", "--jobs", "2"]] {
        let (status, text) = pair(&head("panics"), more);
        let panicked = "B wrote to standard error:\n    \n    thread 'main'";
        assert!(status == 1 && text.contains("B: dies: exit status: 101\n"), "{text}");
        let said = text.split_once("B wrote to standard error:\n").expect(panicked).1;
        assert!(
            said.contains("panicked at src/main.rs:") && said.contains("    these two\n    are not merged\n"),
            "{said}"
        );
    }
}

#[test]
fn of_what_a_head_wrote_too_much_both_ends_are_shown() {
    let (status, text) = pair(&head("talks"), &["--cases", "200"]);
    assert!(status == 1 && text.contains("B: dies: exit status: 3\n") && text.contains("\n    begins---"), "{text}");
    assert!(text.contains("---ends\n") || text.ends_with("---ends\n"), "{text}");
    let cut = "[34,475 bytes left out here, as only the first and the last 32,768 are kept]";
    assert!(text.contains(cut) && text.len() < 70_000, "{}", text.len());
}
