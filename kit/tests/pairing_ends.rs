//! What is left of a pairing that ends before its cases do: what it has seen until then, in the report.

use std::io::Read;
use std::os::unix::process::ExitStatusExt;
use std::process::{Child, Command, Output, Stdio};
use std::time::{Duration, Instant};
use std::{fs, thread};

const KIT: &str = env!("CARGO_BIN_EXE_kit");

const HUP: u32 = 1;
const TERM: u32 = 15;

/// Exit status, standard output and standard error.
fn kit(words: &[&str]) -> (i32, String, String) {
    let Output { status, stdout, stderr } = Command::new(KIT).args(words).output().expect("the kit runs");
    let [out, err] = [stdout, stderr].map(|bytes| String::from_utf8_lossy(&bytes).to_string());
    (status.code().expect("an exit status"), out, err)
}

/// A name in the folder that cargo has for tests, where nothing is yet.
fn place(name: &str) -> String {
    let path = format!("{}/ends-{name}", env!("CARGO_TARGET_TMPDIR"));
    let _ = fs::remove_file(&path);
    let _ = fs::remove_dir_all(&path);
    path
}

fn read(path: &str) -> String {
    fs::read_to_string(path).expect("a file")
}

/// A night begun, with a report and a file of found cases. What the tests themselves were told to ignore is not ignored here.
fn begun(head: &str, report: &str, found: &str) -> Child {
    let night = ["--cases", "100000000", "--keep-going", "--jobs", "2", "--report", report, "--found", found];
    let mut command = Command::new("env");
    command.args(["--default-signal=HUP,INT,TERM", KIT, "pair", "model", head]).args(night);
    command.stdin(Stdio::null()).stdout(Stdio::piped()).stderr(Stdio::piped()).spawn().expect("the kit runs")
}

/// Waits for something that comes of itself, however busy the machine is.
fn wait(what: &str, mut is_so: impl FnMut() -> bool) {
    let since = Instant::now();
    while !is_so() {
        assert!(since.elapsed() < Duration::from_secs(120), "{what}");
        thread::sleep(Duration::from_millis(5));
    }
}

/// Whether a signal is among those that a process catches (`SigCgt`) or ignores (`SigIgn`), as Linux says it.
fn has(child: &Child, set: &str, signal: u32) -> bool {
    let status = fs::read_to_string(format!("/proc/{}/status", child.id())).expect("a process");
    let mask = status.lines().find_map(|line| line.strip_prefix(&format!("{set}:\t")));
    let mask = u64::from_str_radix(mask.expect("a set of signals"), 16).expect("hexadecimal");
    mask >> (signal - 1) & 1 == 1
}

fn send(child: &Child, name: &str) {
    let sent = Command::new("kill").args([name, &child.id().to_string()]).status().expect("kill runs");
    assert!(sent.success());
}

#[test]
fn a_signal_ends_it_in_an_orderly_way() {
    for name in ["-TERM", "-HUP", "-INT"] {
        let (report, found) = (place("signal"), place("signal-found"));
        let mut child = begun("wrong:name-from-end", &report, &found);
        wait("a cause", || fs::read_to_string(&found).is_ok_and(|text| text.contains("\ncase substitute\n")));
        send(&child, name);
        let status = child.wait().expect("it ends").code();
        let mut said = String::new();
        child.stdout.take().expect("piped").read_to_string(&mut said).expect("a text");
        assert!(
            status == Some(2) && said.contains("; ended before its cases: interrupted by a signal after "),
            "{said}"
        );
        let text = read(&report);
        assert!(text.contains("\nIt ended behind these: interrupted by a signal after "), "{text}");
        assert!(text.contains("\nCause 1 of ") && text.contains(": substitute, "), "{text}");
    }
}

/// That it waited for a head in vain is no finding then.
#[test]
fn a_signal_before_the_first_case_is_no_finding() {
    let report = place("no-hello");
    let mut command = Command::new("env");
    let words = ["pair", "model", "sleep 600", "--timeout", "1", "--format", "json", "--report", &report];
    command.args(["--default-signal=HUP,INT,TERM", KIT]).args(words).stdout(Stdio::null()).stderr(Stdio::null());
    let mut child = command.spawn().expect("the kit runs");
    wait("signals that are caught", || has(&child, "SigCgt", TERM));
    send(&child, "-TERM");
    assert_eq!(child.wait().expect("it ends").code(), Some(2));
    let json = read(&report);
    assert!(json.contains("\n  \"status\": 2,\n  \"error\": \"interrupted by a signal\""), "{json}");
}

#[test]
fn a_second_signal_ends_it_at_once() {
    let report = place("signals");
    // It does not say hello, for which the kit waits.
    let mut child = begun("sleep 600", &report, &place("signals-found"));
    wait("signals that are caught", || has(&child, "SigCgt", TERM));
    send(&child, "-TERM");
    wait("the first one is remembered", || !has(&child, "SigCgt", TERM));
    assert_eq!(child.try_wait().expect("a child"), None);
    send(&child, "-HUP");
    assert_eq!(child.wait().expect("it ends").signal(), Some(1));
    assert!(fs::metadata(&report).is_err());
}

/// `nohup` has a program ignore what a terminal that is closed sends.
#[test]
fn what_is_ignored_stays_so() {
    let (started, on) = (place("nohup-started"), place("nohup-on"));
    let head = format!("echo >{started}; until [ -e {on} ]; do sleep 0.1; done; exec {KIT} wrong none");
    let line = format!("trap '' HUP; exec {KIT} pair model \"$0\" --timeout 60 --cases 100 --quiet");
    let mut command = Command::new("sh");
    let child = command.args(["-c", &line, &head]).stdout(Stdio::piped()).spawn().expect("a shell");
    wait("a head that was started", || fs::metadata(&started).is_ok());
    assert!(has(&child, "SigIgn", HUP));
    send(&child, "-HUP");
    fs::write(&on, "").expect("a file");
    let output = child.wait_with_output().expect("it ends");
    assert_eq!(output.status.code(), Some(0), "{output:?}");
}

/// A head that ends at a case, and from the Nth time that it is started on begins so many seconds late.
fn late(name: &str, from: u32, seconds: &str) -> String {
    let starts = place(name);
    let begins = format!("echo >>{starts}; if [ $(wc -l <{starts}) -ge {from} ]; then sleep {seconds}; fi");
    format!("sh -c '{begins}; exec {KIT} wrong dies'")
}

/// How long a head takes to start is no answer to a case.
#[test]
fn a_head_that_starts_slowly_is_waited_for() {
    let words = ["pair", "model", &late("slow", 2, "4"), "--timeout", "3", "--cases", "20", "--as-found"];
    let (status, out, err) = kit(&words);
    assert!(status == 1 && out.contains("B: dies: exit status: 3\n"), "{out}{err}");
    assert!(!out.contains("what was asked before it matters"), "{out}");
}

#[test]
fn a_head_that_does_not_start_again_is_no_finding() {
    let words = ["pair", "model", &late("never", 3, "60"), "--timeout", "2", "--cases", "20"];
    let (status, out, err) = kit(&words);
    let why = "B did not say hello in time when it was started again";
    assert!(status == 2 && err == format!("{why}\n"), "{out}{err}");
    assert!(out.contains(&format!("\nIt ended behind these: {why}.\n")), "{out}");
    assert!(out.contains(&format!("\nIt is told as it was found: {why}.\n")) && out.contains("B: dies: "), "{out}");
}

/// The file of found cases cannot be written any more, as its folder is gone.
#[test]
fn what_fails_on_the_way_leaves_the_report() {
    let (folder, report) = (place("gone"), place("report"));
    fs::create_dir(&folder).expect("a folder");
    let (found, head) = (format!("{folder}/found"), format!("sh -c 'rm -rf {folder}; exec {KIT} wrong name-from-end'"));
    let words = ["pair", "model", &head, "--cases", "300", "--keep-going", "--found", &found, "--report", &report];
    let (status, out, err) = kit(&words);
    assert!(status == 2 && err.starts_with(&format!("{found}: ")) && err.lines().count() == 1, "{out}{err}");
    let text = read(&report);
    assert!(text.contains(&format!("\nIt ended behind these: {found}: No such file")), "{text}");
    assert!(text.contains("\nsubstitute with 9 entries, made smaller from 16 in "), "{text}");
    fs::create_dir(&folder).expect("a folder");
    kit(&[&words[..], &["--format", "json"]].concat());
    let json = read(&report);
    assert!(json.contains(&format!("\n  \"status\": 2,\n  \"error\": \"{found}: ")), "{json}");
    assert!(
        json.contains(&format!("\n  \"ended\": \"{found}: ")) && json.contains("\n      \"unexamined\": null,\n"),
        "{json}"
    );
}
