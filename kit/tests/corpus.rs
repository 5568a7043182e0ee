//! The corpus as another language sees it: its files of JSON against their schema, against the frames, and replayed.
//!
//! What they are tested with is Python: `python3` is on the path, as README.md has it.

use differential::{compare, model};
use kit::archive::Expander;
use kit::corpus::FLAGS;
use kit::protocol::{self, Asked};
use std::io::Write;
use std::path::{Path, PathBuf};
use std::process::{Command, Output};
use std::sync::OnceLock;
use std::{env, fs};

const KIT: &str = env!("CARGO_MANIFEST_DIR");
const BINARY: &str = env!("CARGO_BIN_EXE_kit");

/// Of so many cases a corpus is chosen in ten seconds that has every number of every operation.
const CASES: &str = "20,000";

fn folder(name: &str) -> PathBuf {
    let path = Path::new(env!("CARGO_TARGET_TMPDIR")).join(name);
    let _ = fs::remove_dir_all(&path);
    path
}

fn word(path: &Path) -> &str {
    path.to_str().expect("a path of UTF-8")
}

/// Exit status, standard output and standard error.
fn run(command: &mut Command) -> (i32, String, String) {
    let Output { status, stdout, stderr } = command.output().expect("it runs");
    let [stdout, stderr] = [stdout, stderr].map(|bytes| String::from_utf8_lossy(&bytes).to_string());
    (status.code().expect("an exit status"), stdout, stderr)
}

fn corpus_of(folder: &Path, cases: &str) -> (i32, String, String) {
    run(Command::new(BINARY).args(["corpus", word(folder), "--cases", cases]))
}

/// The corpus that the tests look at, made once.
fn corpus() -> &'static Path {
    static MADE: OnceLock<PathBuf> = OnceLock::new();
    MADE.get_or_init(|| {
        let folder = folder("corpus");
        let (status, stdout, stderr) = corpus_of(&folder, CASES);
        assert_eq!((status, stderr.as_str()), (0, ""), "{stdout}");
        folder
    })
}

/// Python with one of the programs beside this file.
fn python(program: &Path) -> Command {
    let mut command = Command::new("python3");
    // No folder of compiled files beside the sources.
    command.arg("-B").arg(program);
    command
}

fn beside(program: &str) -> PathBuf {
    Path::new(KIT).join("tests").join(program)
}

/// A head of this checkout's model, of kit/heads/model.rs. It is built among the kit's own files, where most of it lies ready.
fn head_of_model() -> PathBuf {
    let out = folder("head-of-model");
    let target = Path::new(BINARY).ancestors().nth(2).expect("target/release/kit");
    let script = Path::new(KIT).join("heads/build-model");
    let (status, _, stderr) =
        run(Command::new(script).args([&Path::new(KIT).join(".."), &out]).env("CARGO_TARGET_DIR", target));
    assert_eq!(status, 0, "{stderr}");
    out
}

/// A head in C of the archive that is linked, if one is.
fn head_in_c() -> Option<PathBuf> {
    let archive = env::var("NEUKOLJA_ARCHIVE").ok().filter(|_| Expander::default().has_archive())?;
    let out = folder("head-in-c");
    let script = Path::new(KIT).join("heads/build");
    let (status, _, stderr) = run(Command::new(script).args([&Path::new(KIT).join(".."), &out]).arg(archive));
    assert_eq!(status, 0, "{stderr}");
    Some(out)
}

/// How many cases each `N of M cases asked` of an output has.
fn asked(stdout: &str) -> Vec<(usize, usize)> {
    let of = |line: &str| {
        let (asked, rest) = line.split_once(" of ")?;
        let (all, _) = rest.split_once(" cases asked")?;
        Some((asked.parse().ok()?, all.parse().ok()?))
    };
    stdout.lines().filter_map(of).collect()
}

#[test]
fn every_case_is_as_it_says_and_heads_answer_it() {
    let heads = [Some(head_of_model()), head_in_c()].into_iter().flatten();
    let own = ["serve", "serve --model"].map(|words| format!("'{BINARY}' {words}"));
    let heads: Vec<String> = heads.map(|head| format!("'{}'", head.display())).chain(own).collect();
    let (status, stdout, stderr) = run(python(&beside("corpus.py")).arg(corpus()).args(&heads));
    assert_eq!((status, stderr.as_str()), (0, ""), "{stdout}");
    // Each of these heads takes every case, and there are some.
    let asked = asked(&stdout);
    assert_eq!(asked.len(), heads.len(), "{stdout}");
    assert!(asked.iter().all(|(asked, all)| asked == all && *all > 500), "{stdout}");
}

/// A response has no work buffer. What `"work": ""` says is tried on the archive's own functions, where one is linked: judge
/// lends buffers that hold no zeros, and looks at every byte of them.
#[test]
fn the_work_buffer_holds_zeros() {
    let Some(mut machine) = differential::archive::linked() else {
        let _ = writeln!(std::io::stderr(), "skipped: no archive is linked");
        return;
    };
    let requests = fs::read(corpus().join("cases.requests")).expect("the requests");
    let (mut rest, mut with_work) = (&requests[..], 0);
    while let Some(body) = protocol::read_frame(&mut rest).expect("a frame") {
        let (frame, Asked::Case(case)) = protocol::read_request(&body).expect("a request") else { panic!("a case") };
        let (answer, _) = model::answer(&case);
        assert_eq!(compare::judge(&mut *machine, &case, &answer), Ok(()), "frame {frame}");
        with_work += usize::from(case.sizes[1] > 0);
    }
    assert!(with_work > 300, "{with_work}");
}

/// The second head has a part of the operations, and answers those as it must; one that forgets the file number does not.
#[test]
fn a_wrong_head_is_found() {
    for (fault, expected) in [("none", 0), ("file-forgotten", 1)] {
        let head = format!("'{BINARY}' wrong {fault}");
        let (status, stdout, stderr) = run(python(&beside("corpus.py")).arg(corpus()).arg(head));
        assert_eq!((status, stderr.as_str()), (expected, ""), "{stdout}");
        assert!(matches!(asked(&stdout)[..], [(asked, all)] if asked > 300 && asked < all), "{stdout}");
        assert_eq!(stdout.contains("expand.success."), fault != "none", "{stdout}");
    }
}

/// The lines of docs/SUPPLIER.md, as they stand there.
#[test]
fn the_ten_lines_of_the_page_replay_a_file() {
    let page = fs::read_to_string(Path::new(KIT).join("../docs/SUPPLIER.md")).expect("docs/SUPPLIER.md");
    let lines = page.lines().skip_while(|line| !line.starts_with("    import json"));
    let lines: Vec<&str> = lines.map_while(|line| line.strip_prefix("    ")).collect();
    assert_eq!(lines.len(), 10, "{lines:#?}");
    let program = folder("replay.py");
    fs::write(&program, lines.join("\n")).expect("a file");
    let replay =
        |file: &str, head: &str| run(python(&program).arg(corpus().join(file)).arg(format!("'{BINARY}' {head}")));
    for file in ["expand.json", "preview.json", "check_at.json", "registry.json", "provider.json"] {
        assert_eq!(replay(file, "serve"), (0, String::new(), String::new()), "{file}");
    }
    let (status, stdout, _) = replay("expand.json", "wrong file-forgotten");
    assert!(
        status == 0 && stdout.lines().all(|line| line.starts_with("expand.")) && stdout.lines().count() > 5,
        "{stdout}"
    );
}

/// The page, the schema and the code know the same flags.
#[test]
fn the_page_lists_each_flag() {
    let page = fs::read_to_string(Path::new(KIT).join("../docs/SUPPLIER.md")).expect("docs/SUPPLIER.md");
    let table = page.lines().skip_while(|line| !line.starts_with("| flag ")).skip(2);
    let listed: Vec<&str> = table.map_while(|line| line.strip_prefix("| `")?.split('`').next()).collect();
    assert_eq!(listed, FLAGS.map(|flag| flag.name()));
    let schema = fs::read_to_string(corpus().join("schema.json")).expect("the schema");
    assert!(listed.iter().all(|flag| schema.contains(&format!("\"{flag}\""))));
}

#[test]
fn the_same_figures_give_the_same_files() {
    let files = |name: &str| {
        let folder = folder(name);
        assert_eq!(corpus_of(&folder, "3000").0, 0);
        let mut files: Vec<_> =
            fs::read_dir(&folder).expect("a folder").map(|entry| entry.expect("a file").path()).collect();
        files.sort();
        let contents: Vec<Vec<u8>> = files.iter().map(|path| fs::read(path).expect("a file")).collect();
        (files.iter().map(|path| word(path).rsplit('/').next().map(str::to_string)).collect::<Vec<_>>(), contents)
    };
    let (names, contents) = files("corpus-once");
    assert!(files("corpus-again") == (names.clone(), contents), "{names:?}");
    assert_eq!(names.len(), 3 + 14 + 1, "{names:?}");
}

#[test]
fn a_folder_that_cannot_be_written_is_said() {
    let file = folder("a-file");
    fs::write(&file, "").expect("a file");
    let (status, stdout, stderr) = corpus_of(&file.join("below"), "0");
    assert!(status == 2 && stdout.is_empty() && stderr.contains("a-file/below: "), "{stderr}");
}

#[test]
fn a_pairing_takes_the_folder() {
    let words = ["pair", "model", "second", "--quiet", "--corpus", word(corpus())];
    let (status, stdout, _) = run(Command::new(BINARY).args(words));
    assert!(status == 0 && stdout.contains("no difference"), "{stdout}");
}
