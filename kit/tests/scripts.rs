//! The scripts `../neukolja` and `heads/build`, each in a folder of its own, with programs that stand in for rt, cargo and cc.

mod common;

use common::outside;
use std::io::Write;
use std::os::unix::fs::PermissionsExt;
use std::path::{Path, PathBuf};
use std::process::{Command, Output, Stdio};
use std::time::Duration;
use std::{env, fs};

const KIT: &str = env!("CARGO_MANIFEST_DIR");

/// A folder of this name with nothing in it.
fn folder(name: &str) -> PathBuf {
    let path = outside("scripts").join(name);
    fs::create_dir_all(&path).expect("a folder");
    path
}

fn write(path: &Path, text: &str) {
    fs::create_dir_all(path.parent().expect("a folder")).expect("a folder");
    fs::write(path, text).expect("a file");
}

/// A program that runs these lines.
fn program(path: &Path, lines: &str) {
    write(path, &format!("#!/bin/sh\n{lines}\n"));
    fs::set_permissions(path, fs::Permissions::from_mode(0o755)).expect("a program");
}

/// Runs a script with these words, the programs of `bin` before those of the machine: its exit status, and what it printed.
fn run(script: &Path, words: &[&str], bin: &Path, archive: Option<&str>) -> (i32, String) {
    let path = format!("{}:{}", bin.display(), env::var("PATH").expect("a path"));
    let mut command = Command::new("bash");
    command.arg(script).args(words).env("PATH", path).env_remove("NEUKOLJA_ARCHIVE");
    let output = command.envs(archive.map(|archive| ("NEUKOLJA_ARCHIVE", archive))).output().expect("bash runs");
    let text = [output.stdout, output.stderr].map(|bytes| String::from_utf8_lossy(&bytes).to_string()).concat();
    (output.status.code().expect("an exit status"), text)
}

/// One test for all: a program that was just written cannot be started while a test beside this one starts another, since that
/// one still holds the file for a moment.
#[test]
fn the_archive_is_found_and_built() {
    what_answers_is_said_in_one_line();
    an_rt_that_refuses_is_asked_once();
    what_cargo_does_is_waited_for();
    help_and_version_need_nothing();
    on_a_terminal_the_end_is_in_sight();
    nobody_else_reads_what_is_for_the_kit();
    it_is_started_from_anywhere();
    where_nothing_can_be_printed_it_ends_with_2();
    cargo_takes_no_archive_too();
    a_head_takes_the_archive_of_its_checkout();
    fs::remove_dir_all(outside("scripts")).expect("a folder");
}

/// What `../neukolja` itself runs. Neither rt nor cargo is among them, nor git.
const TOOLS: [&str; 19] = [
    "awk", "basename", "bash", "cat", "cksum", "cp", "dirname", "find", "grep", "mkdir", "mktemp", "mv", "readlink",
    "rm", "sed", "sh", "sleep", "tail", "tee",
];

/// A checkout with a kit that says what it was given, a cargo that builds it, and no rt.
struct Checkout {
    top: PathBuf,
    bin: PathBuf,
}

/// The exit status, standard output and standard error.
type Ran = (i32, String, String);

impl Checkout {
    fn new(name: &str) -> Checkout {
        let top = folder(name);
        let (real, bin) = (Path::new(KIT).join(".."), top.join("bin"));
        for of in ["crates/neukolja", "kit/help", "bin"] {
            fs::create_dir_all(top.join(of)).expect("a folder");
        }
        let helps =
            fs::read_dir(real.join("kit/help")).expect("a folder").map(|entry| entry.expect("a file").file_name());
        let helps = helps.map(|name| format!("kit/help/{}", name.to_str().expect("UTF-8")));
        for file in helps.chain(["neukolja", "kit/help.txt", "kit/format.txt"].map(str::to_string)) {
            fs::copy(real.join(&file), top.join(&file)).expect("a file");
        }
        let path = env::var("PATH").expect("a path");
        for tool in TOOLS {
            let found = env::split_paths(&path).map(|folder| folder.join(tool)).find(|path| path.is_file());
            let found = found.unwrap_or_else(|| panic!("{tool} is on the path"));
            std::os::unix::fs::symlink(found, bin.join(tool)).expect("a link");
        }
        write(&top.join("crates.txt"), "low:\nhigh: low\nother: low\nneukolja staticlib: high # and so low\n");
        let it = Checkout { top, bin };
        let version = r#"[ "$1" != --version ] || { echo "the kit by itself"; echo "archive: BUILT"; exit; }"#;
        let said = "echo \"the kit: $*, built with BUILT\"\necho \"given ${NEUKOLJA_ARCHIVE-nothing}\"";
        program(&it.top.join("kit.made"), &format!("{version}\n{said}"));
        it.cargo("");
        it
    }

    /// A cargo that runs these lines, and then builds the kit of kit.made with the archive that it is given.
    fn cargo(&self, lines: &str) {
        let [folder, kit, made] = ["kit/target/release", "kit/target/release/kit", "kit.made"]
            .map(|path| self.top.join(path).display().to_string());
        let archive = "${NEUKOLJA_ARCHIVE-none; the model}${NEUKOLJA_ARCHIVE+, with check}";
        let build = format!("mkdir -p {folder} && cp {made} {kit} && sed \"s:BUILT:{archive}:\" {made} >{kit}");
        program(&self.bin.join("cargo"), &format!("{lines}\n{build}"));
    }

    /// An rt that runs these lines in crates/neukolja, where it is asked for the library.
    fn rt(&self, lines: &str) {
        program(&self.bin.join("rt"), &format!("[ \"$*\" = lib ] || exit 77\n{lines}"));
    }

    fn without(&self, program: &str) {
        fs::remove_file(self.bin.join(program)).expect("a file");
    }

    fn command(&self, words: &[&str], archive: Option<&str>) -> Command {
        let mut command = Command::new(self.bin.join("bash"));
        command.arg(self.top.join("neukolja")).args(words).env("PATH", &self.bin).env_remove("NEUKOLJA_ARCHIVE");
        command.envs(archive.map(|archive| ("NEUKOLJA_ARCHIVE", archive)));
        command
    }

    /// Where the kit ran, what it starts is given what the user gave, whatever archive was found.
    fn run(&self, words: &[&str], archive: Option<&str>) -> Ran {
        let Output { status, stdout, stderr } = self.command(words, archive).output().expect("bash runs");
        let [mut out, err] = [stdout, stderr].map(|bytes| String::from_utf8(bytes).expect("UTF-8"));
        if out.starts_with("the kit: ") {
            let given = format!("given {}\n", archive.unwrap_or("nothing"));
            out = out
                .strip_suffix(&given)
                .unwrap_or_else(|| panic!("{given:?} is not at the end of {out:?}"))
                .to_string();
        }
        (status.code().expect("an exit status"), out, err)
    }

    fn expand(&self) -> Ran {
        self.run(&["expand", "x.rules"], None)
    }

    fn own_archive(&self) -> PathBuf {
        self.top.join("crates/neukolja/out/libneukolja.a")
    }

    /// That the kit ran with no archive, and this was said.
    fn by_model(&self, why: &str) -> Ran {
        let said = format!("neukolja: the model in differential/ answers: {why}\n");
        (0, "the kit: expand x.rules, built with none; the model\n".to_string(), said)
    }

    /// That the kit ran with this archive, and this was said.
    fn by_archive(&self, archive: &Path, why: &str) -> Ran {
        let short = archive.strip_prefix(&self.top).unwrap_or(archive).display();
        let said = format!("neukolja: the archive answers, {short}: {why}\n");
        (0, format!("the kit: expand x.rules, built with {}, with check\n", archive.display()), said)
    }
}

fn what_answers_is_said_in_one_line() {
    let it = Checkout::new("answers");
    let no_rt = it.by_model("no archive is built, and no rt is on the path to build it");
    assert_eq!(it.expand(), no_rt);
    let none = it.run(&["expand", "x.rules"], Some("none"));
    assert_eq!(none, it.by_model("NEUKOLJA_ARCHIVE is none"));

    let kept = it.top.join("kept/libneukolja.a");
    write(&kept, "");
    let named = it.run(&["expand", "x.rules"], kept.to_str());
    assert_eq!(named, it.by_archive(&kept, "NEUKOLJA_ARCHIVE names it"));
    for wrong in ["/no/such/libneukolja.a", it.top.join("neukolja").to_str().expect("a path")] {
        let said = format!("neukolja: NEUKOLJA_ARCHIVE is {wrong}, which is no libneukolja.a, nor none\n");
        assert_eq!(it.run(&["expand", "x.rules"], Some(wrong)), (2, String::new(), said));
    }

    // Without cargo the kit is as it was built, which it says; and nothing is answered otherwise than it was asked for.
    let built = "the kit was built so, and no cargo is on the path to build it anew";
    assert_eq!(it.expand(), no_rt);
    it.without("cargo");
    assert_eq!(it.expand(), it.by_model(built));
    assert_eq!(it.run(&["expand", "x.rules"], Some("none")), it.by_model(built));
    let (status, out, err) = it.run(&["expand", "x.rules"], kept.to_str());
    assert!(
        status == 2 && out.is_empty() && err.contains(": the kit was built with no archive, and no cargo is"),
        "{err}"
    );
    it.cargo("");
    assert_eq!(it.run(&["expand", "x.rules"], kept.to_str()), named);
    it.without("cargo");
    assert_eq!(it.expand(), it.by_archive(&kept, built));
    assert_eq!(it.run(&["expand", "x.rules"], Some("none")).0, 2);

    // Where rt builds one, it is taken, and rt is not asked again.
    let it = Checkout::new("built");
    it.rt("mkdir out && echo >out/libneukolja.a && echo 'rt: chose --jobs 2 for low'");
    assert_eq!(it.expand(), it.by_archive(&it.own_archive(), "rt has just built it"));
    it.rt("echo asked again >&2; exit 1");
    assert_eq!(it.expand(), it.by_archive(&it.own_archive(), "it is built"));
}

/// What rt said first of what is wrong is in the line, and its log has all.
fn an_rt_that_refuses_is_asked_once() {
    let it = Checkout::new("refused");
    let log = it.top.join("target/archive.log");
    let asked = || fs::read_to_string(it.top.join("asked")).map_or(0, |text| text.lines().count());
    let count = "echo >>../../asked\n";
    let refused = |status: i32, error: &str| {
        let why = format!("`rt lib` ended with status {status} and built no archive: {error}");
        it.by_model(&format!("{why} (all that it printed is in target/archive.log, without which it is asked again)"))
    };
    let others = "rt: chose --jobs 2 for low\nnote: some other\nfn tape::error: proved\n";
    for error in [
        "note: src/kind.rt:16:1: it is not proved that this holds",
        "./proofs/Roots.antt:3:4: error: not so",
        "src/lib.rt:1:2: error[scope]: nor this",
    ] {
        it.rt(&format!("{count}cat <<'END'\n{others}{error}\nsrc/lib.rt:1:2: error: one more\nEND\nexit 1"));
        assert_eq!(it.expand(), refused(1, error));
        let text = fs::read_to_string(&log).expect("a log");
        assert!(text.starts_with(&format!("{others}{error}\n")), "{text}");
    }
    // An rt of another kind knows no `lib`.
    let usage = "usage: rt new FOLDER   makes a crate";
    it.rt(&format!(
        "{count}echo 'rt: chose --jobs 2 for low'; echo >&2; printf '%s\\nrt ci  the gate\\n' '{usage}' >&2; exit 2"
    ));
    assert_eq!((it.expand(), asked()), (refused(2, usage), 4));

    // It is asked again when it is another, when a crate is another, or without its log; and not otherwise.
    assert_eq!((it.expand(), asked()), (refused(2, usage), 4));
    assert_eq!((it.run(&["expand", "x.rules"], Some("none")), asked()), (it.by_model("NEUKOLJA_ARCHIVE is none"), 4));
    std::thread::sleep(Duration::from_millis(20));
    write(&it.top.join("crates/low/src/lib.rt"), "fn low()");
    assert_eq!((it.expand(), asked()), (refused(2, usage), 5));
    write(&it.top.join("crates/low/out/kept"), "");
    fs::remove_file(&log).expect("a log");
    assert_eq!((it.expand(), it.expand(), asked()), (refused(2, usage), refused(2, usage), 6));
    it.rt(&format!("{count}echo 'rt: no library' >&2; exit 3"));
    assert_eq!((it.expand(), asked()), (refused(3, "rt: no library"), 7));

    // To end well is not enough; one that was killed is asked again.
    let silent = "it does not say why";
    it.rt(count);
    assert_eq!((it.expand(), it.expand(), asked()), (refused(0, silent), refused(0, silent), 8));
    it.rt(&format!("{count}echo killed; kill -9 $$"));
    assert_eq!((it.expand(), it.expand(), asked()), (refused(137, "killed"), refused(137, "killed"), 10));
    let word = "x".repeat(400);
    it.rt(&format!("echo 'error: {word}'; exit 1"));
    assert_eq!(it.expand(), refused(1, &format!("error: {word}")[..300]));
    // Nothing of this is left over but the log.
    assert_eq!(fs::read_dir(it.top.join("target")).expect("a folder").count(), 1);
}

fn what_cargo_does_is_waited_for() {
    let it = Checkout::new("cargo");
    it.cargo("echo 'error: no such thing' >&2; exit 101");
    let (status, out, err) = it.run(&["show", "x"], Some("none"));
    let said = "error: no such thing\nneukolja: cargo did not build the kit\n";
    assert!(status == 2 && out.is_empty() && err == said, "{err}");
    write(&it.own_archive(), "");
    let (status, _, err) = it.expand();
    let said = format!("the kit with {} (NEUKOLJA_ARCHIVE=none does without)\n", it.own_archive().display());
    assert!(status == 2 && err.ends_with(&said), "{err}");
    fs::remove_file(it.own_archive()).expect("an archive");
    // It is silent in a pipe, however long it takes.
    it.cargo("sleep 3");
    assert_eq!(it.run(&["expand", "x.rules"], Some("none")), it.by_model("NEUKOLJA_ARCHIVE is none"));
    it.without("cargo");
    fs::remove_dir_all(it.top.join("kit/target")).expect("a folder");
    it.rt("echo asked >&2; exit 1");
    let said = "neukolja: cargo, which builds the kit, is not on the path\n".to_string();
    assert_eq!(it.expand(), (2, String::new(), said));
}

fn help_and_version_need_nothing() {
    let it = Checkout::new("help");
    let (all, expand) = ("kit/help.txt", "kit/help/expand.txt");
    let format = fs::read_to_string(it.top.join("kit/format.txt")).expect("a text");
    let text = |path: &str| (0, fs::read_to_string(it.top.join(path)).expect("a text"), String::new());
    it.cargo("echo asked >&2; exit 1");
    it.rt("echo asked >&2; exit 1");
    let looks = |archive: Option<&str>, why: &str| {
        for (words, path) in [
            (&[][..], all),
            (&["help"], all),
            (&["--help"], all),
            (&["-h"], all),
            (&["help", "expand"], expand),
            (&["--help", "expand"], expand),
            (&["expand", "--help"], expand),
            (&["expand", "x.rules", "-h", "--", "y"], expand),
        ] {
            assert_eq!(it.run(words, archive), text(path), "{words:?}");
        }
        let version = format!("neukolja, commit unknown\narchive: {why}\n{format}");
        assert_eq!(it.run(&["--version"], archive), (0, version, String::new()));
        let nothing = format!("no command `nonsense`\n{}", text(all).1);
        for words in [&["nonsense"][..], &["nonsense", "--help"], &["help", "nonsense"]] {
            assert_eq!(it.run(words, archive), (2, String::new(), nothing.clone()));
        }
        assert_eq!(it.run(&["../help"], archive).0, 2);
    };
    looks(None, "none: it is not built yet; the first command has rt build it");
    it.without("rt");
    it.without("cargo");
    looks(None, "none: no archive is built, and no rt is on the path to build it");
    looks(Some("none"), "none: NEUKOLJA_ARCHIVE is none");
    looks(Some("/no"), "none: NEUKOLJA_ARCHIVE is /no, which is no libneukolja.a, nor none");
    write(&it.own_archive(), "");
    looks(None, "crates/neukolja/out/libneukolja.a: it is built");
    // Behind `--` it is a word, and there the kit is needed.
    assert_eq!(it.run(&["expand", "--", "--help"], None).0, 2);
    for words in [&[][..], &["expand", "--help"], &["--version"], &["nonsense"], &["show", "x"]] {
        let full = || fs::File::options().write(true).open("/dev/full").expect("a full disk");
        let status = it.command(words, None).stdout(full()).stderr(full()).status();
        assert_eq!(status.expect("bash runs").code(), Some(2), "{words:?}");
    }
    the_version_has_the_commit(&it);
}

fn the_version_has_the_commit(it: &Checkout) {
    let git = |words: &[&str]| {
        let name = ["-c", "user.name=t", "-c", "user.email=t@example.org", "-C", it.top.to_str().expect("a path")];
        let output = Command::new("git").args(name).args(words).output().expect("git runs");
        assert!(output.status.success(), "{words:?}");
        String::from_utf8(output.stdout).expect("UTF-8")
    };
    git(&["init", "-q"]);
    git(&["add", "neukolja"]);
    git(&["commit", "-qm", "first"]);
    git(&["tag", "-m", "t", "v1"]);
    let commit = &git(&["rev-parse", "HEAD"])[..12];
    let path = env::var("PATH").expect("a path");
    let version = || {
        let output = it.command(&["--version"], None).env("PATH", &path).output().expect("bash runs");
        String::from_utf8(output.stdout).expect("UTF-8")
    };
    // With sha256sum there, of no bytes.
    let archive = "archive: crates/neukolja/out/libneukolja.a, sha256 e3b0c44298fc1c14: it is built";
    assert!(version().starts_with(&format!("neukolja, commit {commit}\n{archive}\n")), "{}", version());
    let script = it.top.join("neukolja");
    fs::write(&script, fs::read_to_string(&script).expect("a script") + "\n").expect("a script");
    assert!(version().starts_with(&format!("neukolja, commit {commit}, changed since\n{archive}\n")), "{}", version());
}

fn on_a_terminal_the_end_is_in_sight() {
    let it = Checkout::new("terminal");
    it.cargo("sleep 3");
    let steps = "echo 'rt: chose --jobs 2 for low'; echo 'fn low: proved'; echo 'rt: waiting for another'";
    it.rt(&format!("{steps}; echo 'rt: chose --jobs 2 for high'; mkdir out; echo >out/libneukolja.a"));
    write(&it.top.join("target/kit.seconds"), "42\n");
    let line = format!("{} {} expand x.rules", it.bin.join("bash").display(), it.top.join("neukolja").display());
    let mut script = Command::new("script");
    script.args(["-qec", &line, "/dev/null"]).env_remove("NEUKOLJA_ARCHIVE").env("SHELL", it.bin.join("sh"));
    let path = format!("{}:{}", it.bin.display(), env::var("PATH").expect("a path"));
    let shown = script.env("PATH", path).stdin(Stdio::null()).output().expect("script runs").stdout;
    let shown = String::from_utf8(shown).expect("UTF-8");
    let mut rest = &shown[..];
    for part in [
        "neukolja: rt proves low, crate 1 of 3, ",
        "rt: waiting for another\r\n",
        "neukolja: rt proves high, crate 2 of 3, ",
        // A second that a busy machine takes for something else is not shown.
        "neukolja: cargo builds the kit, ",
        " s; the last time it took 42 s",
        "\r\x1B[Kneukolja: cargo builds the kit, ",
        " s; the last",
        "\r\x1B[Kneukolja: the archive answers, crates/neukolja/out/libneukolja.a: rt has just built it\r\nthe kit: ",
    ] {
        let at = rest.find(part).unwrap_or_else(|| panic!("{part:?} is not in {rest:?}"));
        rest = &rest[at + part.len()..];
    }
    assert!(!shown.contains("fn low"), "{shown:?}");
}

/// Standard input is the kit's.
fn nobody_else_reads_what_is_for_the_kit() {
    let it = Checkout::new("input");
    it.cargo("cat >&2");
    it.rt("cat; exit 1");
    program(&it.top.join("kit.made"), "cat");
    let mut command = it.command(&["check", "-"], None);
    let mut child =
        command.stdin(Stdio::piped()).stdout(Stdio::piped()).stderr(Stdio::piped()).spawn().expect("bash runs");
    child.stdin.take().expect("piped").write_all(b"m() = tp(q)\n").expect("it is read");
    let output = child.wait_with_output().expect("it ends");
    assert_eq!(String::from_utf8_lossy(&output.stdout), "m() = tp(q)\n");
    let err = String::from_utf8_lossy(&output.stderr).to_string();
    assert!(
        err.starts_with("neukolja: the model in differential/ answers: `rt lib` ended with status 1 ")
            && err.lines().count() == 1,
        "{err}"
    );
}

/// From beside it, through a link, and with a CDPATH, with which `cd` prints where it goes.
fn it_is_started_from_anywhere() {
    let (it, link) = (Checkout::new("anywhere"), folder("links").join("neukolja"));
    std::os::unix::fs::symlink(it.top.join("neukolja"), &link).expect("a link");
    write(&it.top.join("kept/libneukolja.a"), "");
    for script in [Path::new("anywhere/neukolja"), &link] {
        let run = |words: &[&str]| {
            let mut command = Command::new(it.bin.join("bash"));
            command.arg(script).args(words).current_dir(outside("scripts")).env("CDPATH", ".").env("PATH", &it.bin);
            let output = command.env("NEUKOLJA_ARCHIVE", "anywhere/kept/libneukolja.a").output().expect("bash runs");
            let [out, err] = [output.stdout, output.stderr].map(|bytes| String::from_utf8(bytes).expect("UTF-8"));
            (output.status.code(), out, err)
        };
        let help = fs::read_to_string(it.top.join("kit/help/expand.txt")).expect("a text");
        assert_eq!(run(&["expand", "--help"]), (Some(0), help, String::new()), "{}", script.display());
        let (status, out, err) = run(&["expand", "x.rules"]);
        let built = format!("built with {}/kept/libneukolja.a, with check\n", it.top.display());
        assert!(status == Some(0) && out.contains(&built), "{}: {out}{err}", script.display());
    }
}

fn where_nothing_can_be_printed_it_ends_with_2() {
    let it = Checkout::new("closed");
    for closed in [">&-", ">&- 2>&-"] {
        for words in [&["expand", "x.rules"][..], &["--help"], &["--version"], &[]] {
            let script = it.top.join("neukolja");
            let mut command = Command::new(it.bin.join("bash"));
            command.args(["-c", &format!("bash \"$0\" \"$@\" {closed}")]).arg(script).args(words).env("PATH", &it.bin);
            let output = command.output().expect("bash runs");
            let said = if closed == ">&-" { "neukolja: standard output is closed\n" } else { "" };
            assert_eq!((output.status.code(), String::from_utf8_lossy(&output.stderr).as_ref()), (Some(2), said));
        }
    }
}

/// `none` is taken wherever an archive may be named: cargo too runs on without one.
fn cargo_takes_no_archive_too() {
    let (top, build) = (folder("no-archive"), Path::new(KIT).join("../differential/build.rs"));
    let made = top.join("build");
    let rustc = Command::new("rustc").arg("--edition=2024").arg(build).arg("-o").arg(&made).status();
    assert!(rustc.expect("rustc runs").success());
    let built = |archive: Option<&str>| {
        let mut command = Command::new(&made);
        command.env_remove("NEUKOLJA_ARCHIVE").envs(archive.map(|archive| ("NEUKOLJA_ARCHIVE", archive)));
        let Output { status, stdout, stderr } = command.output().expect("it runs");
        let [out, err] = [stdout, stderr].map(|bytes| String::from_utf8(bytes).expect("UTF-8"));
        (status.success(), out, err)
    };
    let (ends_well, out, err) = built(None);
    assert!(ends_well && !out.contains("rustc-link") && err.is_empty(), "{out}{err}");
    assert_eq!(built(Some("none")), (true, out.clone(), String::new()));
    assert_eq!(built(Some("")), (true, out, String::new()));
    let (ends_well, _, err) = built(Some("/no/such/libneukolja.a"));
    assert!(!ends_well && err.contains("NEUKOLJA_ARCHIVE is /no/such/libneukolja.a: "), "{err}");
}

fn a_head_takes_the_archive_of_its_checkout() {
    let top = folder("heads");
    let (bin, out, script) = (top.join("bin"), top.join("head"), top.join("build"));
    std::os::unix::fs::symlink(Path::new(KIT).join("heads/build"), &script).expect("a link");
    program(&bin.join("cc"), r#"echo "linked: $*""#);
    let word = |path: &Path| path.to_str().expect("a path").to_string();
    let build = |checkout: &Path, more: &[&str]| {
        run(&script, &[&[&word(checkout)[..], &word(&out)][..], more].concat(), &bin, None)
    };
    let linked = |(status, text): (i32, String), archive: &Path| {
        let linked = format!(" {KIT}/heads/head.c {} -o {}\n", archive.display(), out.display());
        assert!(status == 0 && text.contains(&linked), "{text}");
    };
    let missing = |(status, text): (i32, String), archive: &Path, made: &str| {
        assert!(status == 2 && text.starts_with(&format!("{} is missing", archive.display())), "{text}");
        assert!(text.contains(made), "{text}");
    };
    let (today, earlier) = (top.join("today"), top.join("earlier"));
    for (checkout, line) in [(&today, "neukolja staticlib: tape"), (&earlier, "neukolja: tape")] {
        write(&checkout.join("include/neukolja.h"), "uint16_t file\n");
        write(&checkout.join("crates.txt"), &format!("tape:\n{line}\n"));
    }
    let [new, old] = ["crates/neukolja/out/libneukolja.a", "target/staticlib/libneukolja.a"];
    missing(build(&earlier, &[]), &earlier.join(old), "kit/heads/build-model");
    write(&earlier.join(old), "");
    linked(build(&earlier, &[]), &earlier.join(old));

    // What an earlier version left in today's checkout is not taken.
    write(&today.join(old), "");
    missing(build(&today, &[]), &today.join(new), "`rt lib`");
    write(&today.join(new), "");
    linked(build(&today, &[]), &today.join(new));

    let model = Path::new(KIT).join("heads/build-model");
    for script in [&script, &model] {
        let (status, text) = run(script, &["/no/such/checkout", &word(&out)], &bin, None);
        assert!(status == 2 && text.starts_with("/no/such/checkout: no checkout, "), "{text}");
    }

    let kept = top.join("kept.a");
    missing(build(&earlier, &[&word(&kept)]), &kept, "");
    write(&kept, "");
    linked(build(&earlier, &[&word(&kept)]), &kept);
}
