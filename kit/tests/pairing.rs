//! `pair` as it is run over a night: cases that are found are kept, reports for other programs, heads that hang, and the exit
//! status.

use std::path::Path;
use std::process::{Command, Output};

fn kit(words: &[&str]) -> (i32, String) {
    let Output { status, stdout, stderr } =
        Command::new(env!("CARGO_BIN_EXE_kit")).args(words).output().expect("the kit runs");
    let text = [stdout, stderr].map(|bytes| String::from_utf8_lossy(&bytes).to_string()).concat();
    (status.code().expect("an exit status"), text)
}

fn pair(head: &str, more: &[&str]) -> (i32, String) {
    kit(&[&["pair", "model", head][..], more].concat())
}

/// A file that is not there yet, in the folder that cargo has for tests.
fn file(name: &str) -> String {
    let path = format!("{}/{name}", env!("CARGO_TARGET_TMPDIR"));
    let _ = std::fs::remove_file(&path);
    path
}

fn read(path: &str) -> String {
    std::fs::read_to_string(path).expect("a file")
}

/// The case that was found in a night, of a tree of a hundred thousand entries.
#[test]
fn no_frame_is_too_long() {
    let (status, text) = pair("second", &["--seed", "20261127", "--from", "1174170", "--cases", "1"]);
    assert!(status == 0 && text.ends_with("\n1 case: no difference\n"), "{text}");
}

#[test]
fn cases_that_are_found_are_asked_first_the_next_time() {
    let found = file("found.txt");
    let more = ["--keep-going", "--cases", "300", "--found", &found];
    let (status, text) = pair("wrong:name-from-end", &more);
    assert!(status == 1 && text.contains(": 3 causes of difference in "), "{text}");
    let kept = read(&found);
    let rule = "#     spans 0..0\n#     root definition q() = tp($f)\n#     root call q()@/0..1\ncase substitute\nfrom case 4 of seed 1\n";
    assert!(kept.contains(rule) && kept.matches("\nend\n").count() == 3, "{kept}");

    // They differ still: that is said at once, and nothing is added.
    let (status, text) = pair("wrong:name-from-end", &["--cases", "300", "--found", &found]);
    assert!(
        status == 1 && text.contains(&format!("\ncase 1 of {found} (case 4 of seed 1): differs still\n")),
        "{text}"
    );
    assert!(text.contains(&format!("\n0 cases: a difference in one found before, case 1 of {found}")), "{text}");
    assert!(text.contains("9 entries, as it was found:\n    spans 0..0\n    root definition q() = tp($f)\n"), "{text}");
    assert_eq!(read(&found), kept);
    // Once the head is right, they are equal; with another fault they are so too, and what that shows is added.
    let (status, text) = pair("second", &["--cases", "20", "--found", &found]);
    assert!(status == 0 && text.matches("): equal now\n").count() == 3, "{text}");
    let (status, text) = pair("wrong:message-wrong", &["--cases", "20", "--found", &found]);
    assert!(status == 1 && text.matches("): equal now\n").count() == 3, "{text}");
    assert!(read(&found).starts_with(&kept) && read(&found).matches("\nend\n").count() == 4, "{}", read(&found));
    // Without an operation in common they are left out.
    let (_, text) = pair("second", &["--cases", "20", "--only", "check", "--found", &found]);
    assert!(text.matches("): left out as not for both\n").count() >= 3, "{text}");
}

#[test]
fn what_is_no_file_of_cases_is_refused_before_the_night() {
    let path = file("wrong.txt");
    std::fs::write(&path, "# a remark\ncase expand\nlimit many\n").expect("a file");
    let (status, text) = pair("second", &["--found", &path]);
    assert_eq!((status, text), (2, format!("{path}:3: `many` is no number that can stand there\n")));
    let (status, text) = pair("second", &["--cases", "20", "--found", "/no/such/folder/found.txt"]);
    assert!(status == 2 && text.starts_with("/no/such/folder/found.txt: "), "{text}");
    let (status, text) = pair("second", &["--cases", "20", "--report", "/no/such/folder/report"]);
    assert!(status == 2 && text.starts_with("/no/such/folder/report: "), "{text}");
    // So is every corpus that is named, and an option of which only one value would count.
    let good = file("named-corpus");
    assert_eq!(kit(&["corpus", &good, "--cases", "200"]).0, 0);
    for corpora in
        [["--corpus", "/no/such/folder", "--corpus", &good], ["--corpus", &good, "--corpus", "/no/such/folder"]]
    {
        let (status, text) = pair("second", &corpora);
        assert!(status == 2 && text.starts_with("/no/such/folder: "), "{text}");
    }
    let (status, text) = pair("second", &["--seed", "1", "--seed", "2"]);
    assert_eq!((status, text), (2, "--seed is there twice, and can be there once\n".to_string()));
    for wrong in [["--jobs", "0"], ["--jobs", "1000"], ["--format", "yaml"]] {
        let (status, text) = pair("second", &[&["--cases", "20"][..], &wrong].concat());
        assert!(status == 2 && text.starts_with(wrong[0]), "{text}");
    }
}

/// A write that was cut off does not cost the nights behind it.
#[test]
fn a_part_of_a_case_is_left_out_and_goes() {
    let found = file("part.txt");
    let run = |head: &str| pair(head, &["--cases", "20", "--found", &found]);
    let (status, text) = run("wrong:name-from-end");
    let whole = read(&found);
    assert!(status == 1 && whole.ends_with("\nend\n"), "{text}");
    std::fs::write(&found, format!("{whole}\n# another\ncase expand\nlimit 4294")).expect("a file");
    let (status, text) = run("second");
    let note = format!("{found}:{}: of the last case only a part is there", whole.lines().count() + 3);
    assert!(status == 0 && text.contains(&note) && text.matches("): equal now\n").count() == 1, "{text}");
    // What is added stands where the part was.
    let (status, text) = run("wrong:message-wrong");
    assert!(status == 1 && read(&found).starts_with(&format!("{whole}\n# expand, ")), "{text}{}", read(&found));
    assert!(!run("second").1.contains(" only a part "));
}

/// A disk that is full: nothing of the case stays, and the report says why the night ended.
#[test]
fn a_case_that_cannot_be_written_leaves_nothing() {
    let found = file("full.txt");
    std::fs::write(&found, "#".repeat(500) + "\n").expect("a file");
    let line = format!(
        "trap '' XFSZ; ulimit -f 1; exec {} pair model wrong:name-from-end --cases 20 --quiet --found {found}",
        env!("CARGO_BIN_EXE_kit")
    );
    let output = Command::new("sh").args(["-c", &line]).output().expect("a shell");
    let [out, err] = [output.stdout, output.stderr].map(|bytes| String::from_utf8_lossy(&bytes).to_string());
    assert!(output.status.code() == Some(2) && err.starts_with(&format!("{found}: File too large")), "{out}{err}");
    assert!(out.contains("\nIt ended behind these: ") && out.contains("made smaller from 16 in"), "{out}");
    assert_eq!(read(&found).len(), 501);
}

#[test]
fn what_is_no_regular_file_or_too_large_holds_no_cases() {
    for path in ["/dev/full", "/dev/null", env!("CARGO_TARGET_TMPDIR")] {
        let (status, text) = pair("second", &["--cases", "20", "--found", path]);
        assert_eq!((status, text), (2, format!("{path}: no regular file\n")));
    }
    let path = file("large.txt");
    std::fs::File::create(&path).and_then(|file| file.set_len((1 << 26) + 1)).expect("a file");
    let (status, text) = pair("second", &["--cases", "20", "--found", &path]);
    assert_eq!((status, text), (2, format!("{path}: 67108865 bytes, where 67108864 are the most\n")));
}

/// A corpus of a later version has requests that the kit knows nothing of. They are counted.
#[test]
fn what_the_kit_does_not_know_is_left_out() {
    let folder = file("corpus-of-two");
    std::fs::create_dir_all(&folder).expect("a folder");
    let known = kit::protocol::request(1, &differential::generate::case(1, 4));
    let mut unknown = kit::protocol::request(2, &differential::generate::case(1, 4));
    unknown[8] = 77;
    std::fs::write(format!("{folder}/cases.requests"), [known, unknown].concat()).expect("a file");
    let (status, text) = pair("second", &["--corpus", &folder]);
    assert!(status == 0 && text.ends_with("\n1 case, 1 left out as not for both: no difference\n"), "{text}");
}

#[test]
fn reports_are_written_for_other_programs() {
    let path = file("report");
    let more = ["--cases", "300", "--report", &path, "--format"];
    let run = |head: &str, format: &str, also: &[&str]| {
        let (status, text) = pair(head, &[&more[..], &[format], also].concat());
        assert!(text.ends_with(&format!("; the report is in {path}\n")) && text.lines().count() == 1, "{text}");
        (status, read(&path))
    };
    let (status, json) = run("wrong:name-from-end", "json", &["--keep-going"]);
    assert!(status == 1 && json.contains("\n  \"status\": 1,\n"), "{json}");
    assert!(json.contains("\"differs\": \"entry\"") && json.matches("\"needs_history\": false").count() == 3, "{json}");
    let (status, xml) = run("wrong:name-from-end", "junit", &["--keep-going"]);
    assert!(status == 1 && xml.contains("<testsuite name=\"pair model wrong:name-from-end\" tests=\"6\""), "{xml}");
    assert!(xml.contains("<testcase classname=\"pair\" name=\"check\"/>"), "{xml}");
    assert!(xml.contains("name=\"substitute\">\n      <failure message=\"substitute, 0 in A and 0 in B"), "{xml}");
    assert!(xml.contains("&quot;f$1&quot; in B"), "{xml}");
    let (status, xml) = run("second", "junit", &[]);
    assert!(status == 0 && xml.contains("tests=\"6\" failures=\"0\"") && !xml.contains("<failure"), "{xml}");
    let (status, text) = run("second", "text", &[]);
    assert!(status == 0 && text.contains(" is second (the kit's second head)\n"), "{text}");
    // A head that does not even begin is in the report too.
    let (status, json) = run("true", "json", &[]);
    assert!(status == 1 && json.contains("\"how\": \"dies: exit status: 0\""), "{json}");
}

/// Python reads what is written.
#[test]
fn reports_are_what_they_say() {
    let (json, xml) = (file("report.json"), file("report.xml"));
    for (format, path) in [("json", &json), ("junit", &xml)] {
        let head = r#"sh -c 'printf "<\\001\\377\"&\n" >&2'"#;
        assert_eq!(pair(head, &["--format", format, "--report", path]).0, 1);
    }
    let script = "import json, sys, xml.dom.minidom as x\n\
                  print(json.load(open(sys.argv[1], encoding='utf-8'))['no_hello']['standard_error'])\n\
                  print(x.parse(sys.argv[2]).getElementsByTagName('failure').length)";
    let output = Command::new("python3").args(["-c", script, &json, &xml]).env("PYTHONIOENCODING", "utf-8").output();
    let output = output.expect("python3 runs");
    assert_eq!(String::from_utf8_lossy(&output.stdout), "<\u{1}\u{FFFD}\"&\n1\n", "{output:?}");
}

/// Whatever comes of a run, there is either the report of before or a whole one.
#[test]
fn an_earlier_report_stays_until_there_is_a_new_one() {
    let path = file("night");
    std::fs::write(&path, "yesterday's\n").expect("a file");
    // What is found out before the night leaves it as it is.
    let (status, text) = pair("second", &["--report", &path, "--format", "json", "--only", "nothing"]);
    assert!(status == 2 && read(&path) == "yesterday's\n", "{text}");
    let run = |head: &str, format: &str, more: &[&str]| {
        let (status, text) = pair(head, &[&["--cases", "20", "--report", &path, "--format", format], more].concat());
        assert!(status == 2 && text.starts_with(&format!("no case was compared; the report is in {path}\n")), "{text}");
        read(&path)
    };
    let json = run("nothere", "json", &[]);
    assert!(json.contains("\n  \"status\": 2,\n  \"error\": \"B, `nothere`, cannot be started: "), "{json}");
    let xml = run("second", "junit", &["--only", "profile"]);
    assert!(
        xml.contains("tests=\"1\" failures=\"0\" errors=\"1\" ") && xml.contains("<error message=\"the two heads"),
        "{xml}"
    );
    let text = run("second", "text", &["--found", "/dev/null/nothing"]);
    assert!(text.starts_with("/dev/null/nothing: "), "{text}");
    // Beside it nothing is left.
    let folder = std::fs::read_dir(env!("CARGO_TARGET_TMPDIR")).expect("a folder");
    let names = folder.map(|entry| entry.expect("an entry").file_name().to_string_lossy().to_string());
    assert_eq!(names.filter(|name| name.starts_with(".night")).count(), 0);
}

#[test]
fn what_is_no_regular_file_takes_a_report_as_it_is() {
    let more = ["--cases", "20", "--quiet", "--report"];
    let (status, text) = pair("second", &[&more[..], &["/dev/stdout"]].concat());
    assert!(
        status == 0 && text.contains("\n14 cases, 6 left out") && text.ends_with("; the report is in /dev/stdout\n"),
        "{text}"
    );
    // Where it cannot be written after all it is not lost.
    let (status, text) = pair("second", &[&more[..], &["/dev/full"]].concat());
    assert!(
        status == 2
            && text.contains("\n14 cases, 6 left out")
            && text.ends_with("/dev/full: No space left on device (os error 28)\n"),
        "{text}"
    );
    let (status, text) = pair("second", &[&more[..], &[env!("CARGO_TARGET_TMPDIR")]].concat());
    assert!(status == 2 && text.lines().count() == 1, "{text}");
}

/// A head that hangs is ended, with all that it has started.
#[test]
fn a_head_that_hangs_is_ended() {
    for head in [
        "sh -c 'sleep 600 & echo $! >PATH; wait'",
        "sleep 600 & echo $! >PATH; wait",
        "(sleep 600 & echo $! >PATH; wait)",
        // Signals to its whole group do not reach what ends it, but for one that nothing can ignore.
        "trap '' TERM; sleep 600 & echo $! >PATH; kill 0; wait",
        "sleep 600 & echo $! >PATH; kill -STOP 0",
        // Nor does it matter that what was started first has ended.
        "sleep 600 & echo $! >PATH",
    ] {
        let path = file("child");
        let (status, text) = pair(&head.replace("PATH", &path), &["--timeout", "1"]);
        assert!(status == 1 && text.contains("hangs: no answer within 1 s"), "{text}");
        let child = format!("/proc/{}/stat", read(&path).trim());
        let is_gone = || std::fs::read_to_string(&child).map_or(true, |stat| stat.contains(") Z "));
        assert!((0..100).any(|_| {
            std::thread::sleep(std::time::Duration::from_millis(20));
            is_gone()
        }));
    }
}

/// The kit's own heads stay the program that runs, wherever that lies and whatever a build puts in its place meanwhile.
#[test]
fn own_heads_are_the_kit_that_runs() {
    let folder = file("it's here");
    let _ = std::fs::remove_dir_all(&folder);
    std::fs::create_dir(&folder).expect("a folder");
    let [kit, path] = [env!("CARGO_BIN_EXE_kit").to_string(), format!("{folder}/kit")];
    std::fs::hard_link(&kit, &path).expect("a link");
    // The other head puts it away. From then on this one, which ends again and again, is started again.
    let other = format!("rm \"{path}\"; {kit} serve --model");
    let words = ["pair", &other, "wrong:dies", "--only", "expand", "--quiet"];
    let output = Command::new(&path).args(words).output().expect("the kit runs");
    let text = String::from_utf8_lossy(&output.stdout);
    assert!(text.contains("\nB: dies: exit status: 3\n"), "{text}{}", String::from_utf8_lossy(&output.stderr));
    assert!(!Path::new(&path).exists());
}

/// Each that hangs is waited for, so there is an end to it.
#[test]
fn a_night_of_hangs_ends() {
    let more = ["--keep-going", "--timeout", "1", "--cases", "20000", "--as-found", "--only", "expand"];
    let (status, text) = pair("wrong:hangs", &more);
    assert!(status == 1 && text.contains("cases without an answer within 1 s"), "{text}");
    assert!(text.contains(": expand, 0 in A and no answer in time in B, first the answer\n"), "{text}");
}

#[test]
fn heads_that_end_do_not_end_the_night() {
    let more = ["--keep-going", "--cases", "150", "--only", "expand,check"];
    let (status, text) = pair("wrong:dies", &more);
    let cause = ": expand, 0 in A and an end in B, first the answer\n";
    assert!(status == 1 && text.contains(cause) && text.contains("B: dies: exit status: 3\n"), "{text}");
    assert!(text.contains("rule: * == (count where tp(q))\n"), "{text}");
}

/// What only a largest figure shows has that figure in the report.
#[test]
fn largest_figures_are_said() {
    let figures = [
        ("entries-short", "1,024 entries in A's result, as many as there may be"),
        ("entries-over", "1,025 entries in B's result, one more than there may be"),
        ("nesting-over", "65 levels in B's result, one more than there may be"),
        ("parameters-over", "17 parameters in tape 1, one more than there may be"),
        ("calls-over", "5 calls inside one another in tape 1, one more than there may be"),
        ("result-short", "1,024 entries in A's result, as many as there may be"),
    ];
    for (name, figure) in figures {
        let (status, text) = pair(&format!("wrong:{name}"), &["--cases", "2000"]);
        assert!(status == 1 && text.contains(&format!("\na largest figure: {figure}\n")), "{name}: {text}");
    }
}
