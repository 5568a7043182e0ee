//! The commands as a user runs them: what they print, and their exit status.

use std::io::Write;
use std::process::{Command, Output, Stdio};

/// As `../neukolja` runs it, which has said what answers: the exit status, and what was printed.
fn kit(words: &[&str]) -> (i32, String) {
    let mut command = Command::new(env!("CARGO_BIN_EXE_kit"));
    let Output { status, stdout, stderr } =
        command.args(words).env("NEUKOLJA_SAID", "yes").output().expect("the kit runs");
    let text = [stdout, stderr].map(|bytes| String::from_utf8_lossy(&bytes).to_string()).concat();
    (status.code().expect("an exit status"), text)
}

const LOCKOUT: &str = concat!(env!("CARGO_MANIFEST_DIR"), "/../examples/lockout.rules");

/// A file with this text, in the folder that cargo has for tests.
fn file(name: &str, text: &str) -> String {
    let path = format!("{}/{name}", env!("CARGO_TARGET_TMPDIR"));
    std::fs::write(&path, text).expect("a file");
    path
}

#[test]
fn the_lockout_rules_are_expanded() {
    let (status, text) = kit(&["expand", LOCKOUT]);
    assert_eq!(status, 0, "{text}");
    let expanded = "Head::\"boost\"::request{room: \"Küche\"} && !formerly 1h Window::\"open\"::event{room: \"Küche\"}";
    assert!(text.contains(expanded), "{text}");
    let (status, text) = kit(&["check", LOCKOUT]);
    assert!(status == 0 && text.ends_with("5 macros, 5 rules, 0 mistakes\n"), "{text}");
}

#[test]
fn refusals_point_into_the_text() {
    let path = file("bad.rules", "late(d) = formerly ?e P{}\nplain(x) = P{f: x}\nrule r: late(1h) && nope()\n");
    let (status, text) = kit(&["check", &path]);
    assert!(
        status == 1 && text.contains("bad.rules:1:20: refused with 20") && text.contains("bad.rules:2:17:"),
        "{text}"
    );
    let (status, text) = kit(&["expand", &path]);
    assert!(status == 1 && text.contains("bad.rules:1:11: refused with 41"), "{text}");
    let (status, text) = kit(&["expand", &file("worse.rules", "m(x = tp(?x)")]);
    assert!(status == 2 && text.contains("worse.rules:1:5: expected `,` or `)`, found `=`"), "{text}");
}

#[test]
fn tapes_and_texts_are_the_same() {
    let (rules, tape) = (file("one.rules", "spans 0..0 rule: formerly 2w P{f: 1}@1..2"), file("one.tape", ""));
    assert_eq!(kit(&["tape", &rules, "-o", &tape]).0, 0);
    assert_eq!(kit(&["show", &tape]), (0, "spans 0..0\nroot condition formerly 2w P{f: 1}@1..2\n".to_string()));
    let (status, text) = kit(&["older", &tape]);
    assert!(status == 0 && text.ends_with("formerly 14d P{f: 1}\n"), "{text}");
}

/// A pipe is read once, and what was in it is still there for the place of a refusal.
#[test]
fn a_pipe_is_read_once() {
    for path in ["/dev/stdin", "-"] {
        let mut command = Command::new(env!("CARGO_BIN_EXE_kit"));
        command.args(["older", path]).stdin(Stdio::piped()).stdout(Stdio::piped()).stderr(Stdio::piped());
        let mut child = command.env("NEUKOLJA_SAID", "yes").spawn().expect("the kit runs");
        let text = b"rule a:\n  formerly 9223372036854775807w P{}\n";
        child.stdin.take().expect("a pipe").write_all(text).expect("it is read");
        let Output { stdout, .. } = child.wait_with_output().expect("it ends");
        let said = String::from_utf8_lossy(&stdout);
        assert!(said.starts_with(&format!("{path}:2:12: refused with 52: ")), "{said}");
    }
}

#[test]
fn what_cannot_be_carried_out_is_said() {
    let (status, text) = kit(&["expand", &file("nothing.rules", " \n")]);
    assert!(status == 2 && text.contains("nothing.rules: nothing in it"), "{text}");
    let (status, text) = kit(&["check", "/no/such/file"]);
    assert!(status == 2 && text.starts_with("/no/such/file: "), "{text}");
    let several = file("several.rules", "m() = tp(q) rule a: m() rule b: !m()");
    let (status, text) = kit(&["tape", &several]);
    assert!(status == 2 && text.contains("1 macro and the rules `a`, `b`"), "{text}");
    assert_eq!(kit(&["show", &several, "--rule", "b", "--plain"]), (0, "!m()\n".to_string()));
    let (status, text) = kit(&["nonsense"]);
    assert!(status == 2 && text.starts_with("no command `nonsense`"), "{text}");
    assert_eq!(kit(&[]).0, 0);
}

#[test]
fn a_damaged_tape_is_no_text() {
    let (rules, tape) = (file("whole.rules", "rule: P{f: 1}"), file("cut.tape", ""));
    assert_eq!(kit(&["tape", &rules, "-o", &tape]).0, 0);
    let bytes = std::fs::read(&tape).expect("a tape");
    std::fs::write(&tape, &bytes[..bytes.len() - 1]).expect("a file");
    for command in ["expand", "check", "older", "profile"] {
        let (status, text) = kit(&[command, &tape]);
        assert!(status == 1 && text.contains("refused with 2"), "{command}: {text}");
    }
    let (status, text) = kit(&["show", &tape]);
    assert!(status == 1 && text.contains("no tree: "), "{text}");
}

/// Two sizes that are over, and no entry behind them with which they could be.
#[test]
fn what_has_no_entries_is_passed_with_none() {
    let tape = file("sizes.tape", "");
    std::fs::write(&tape, [0xD0, 7, 0, 0, 0, 0, 0, 0]).expect("a file");
    let over = format!("{tape}: refused with 3: over a largest figure: 2,000 entries, where 1,024 are the most\n");
    for command in ["profile", "older"] {
        let (status, text) = kit(&[command, &tape]);
        assert!(status == 1 && text.starts_with(&over), "{text}");
    }
}

/// Of a tape that is no tree the entry is said that shows it, as `show` says it; of one whose sizes are too large the figure.
#[test]
fn a_damaged_tape_is_refused_with_its_entry() {
    let (rules, tape) = (file("sound.rules", "rule: P{f: 1}"), file("code.tape", ""));
    assert_eq!(kit(&["tape", &rules, "-o", &tape]).0, 0);
    let sound = std::fs::read(&tape).expect("a tape");
    let damaged = |at: usize, byte: u8| {
        let mut bytes = sound.clone();
        bytes[at] = byte;
        std::fs::write(&tape, bytes).expect("a file");
    };
    damaged(8 + 2, 4);
    let why = "entry 3 has code 4, which may not stand there";
    let (status, text) = kit(&["show", &tape]);
    assert!(status == 1 && text.contains(why), "{text}");
    let commands = [&["check"][..], &["expand"], &["preview"], &["profile"], &["older"], &["merge", &tape]];
    // Of what is judged too, where the rule itself is right.
    for words in [&commands[..], &[&["judge", &rules]]].concat() {
        let (status, text) = kit(&[words, &[&tape]].concat());
        assert!(status == 1 && text.contains(&format!("{tape}: entry 3: refused with 2: ")), "{text}");
        assert!(text.contains(&format!(": {why}\n")), "{text}");
    }
    let (status, text) = kit(&["check", &tape, "--format", "json"]);
    assert!(status == 1 && text.contains("\"entry\": 3,\n"), "{text}");
    damaged(1, 16);
    for words in [&["check"][..], &["expand"], &["preview"], &["profile"], &["older"], &["judge", &rules]] {
        let (status, text) = kit(&[words, &[&tape]].concat());
        assert!(status == 1 && text.contains("refused with 3: over a largest figure: 4,104 entries"), "{text}");
    }
    let (_, text) = kit(&["judge", &rules, &tape]);
    assert!(text.starts_with(&format!("rule 1: {tape}: refused with 3: ")), "{text}");
    let macros = file("judged.rules", "m(x) = ?x");
    let (status, text) = kit(&["judge", &rules, &macros]);
    assert!(status == 1 && text.starts_with(&format!("rule 1: {macros}: refused with 2: ")), "{text}");
    let over = file("over.rules", &format!("rule: P{{f: [{}]}}", vec!["1"; 1_024].join(", ")));
    let (status, text) = kit(&["judge", &rules, &over]);
    assert!(status == 1 && text.contains(&format!("{over}:1:")) && text.contains("refused with 3: "), "{text}");
}

/// Where it was to have the macros of a second file, that is not judged without them.
#[test]
fn rules_are_not_judged_without_macros_that_cannot_be_read() {
    let (macros, rules, tape) =
        (file("two.macros", "m(x) = ?x"), file("two.rules", "rule a: m(P{})"), file("two.tape", ""));
    assert_eq!(kit(&["tape", &macros, "-o", &tape]).0, 0);
    assert_eq!(kit(&["check", &tape, &rules]), (0, "1 macro, 1 rule, 0 mistakes\n".to_string()));
    let mut bytes = std::fs::read(&tape).expect("a tape");
    bytes[8 + 1] = 4;
    std::fs::write(&tape, bytes).expect("a file");
    let wanted = format!("{tape}: no tree: entry 2 has code 4, which may not stand there\n");
    for command in ["check", "expand", "preview", "profile", "judge"] {
        let words =
            if command == "judge" { vec![command, &tape, &rules, &rules] } else { vec![command, &tape, &rules] };
        assert_eq!(kit(&words), (2, wanted.clone()), "{command}");
    }
}

/// A text with a control is no tape: its first byte that no text has is named, and nothing is read.
#[test]
fn a_byte_that_no_text_has_is_named() {
    let text = |name: &str, bytes: &[u8]| {
        let path = file(name, "");
        std::fs::write(&path, bytes).expect("a file");
        path
    };
    for byte in [0, 0x0B, 0x0C, 0x1B, 0x7F] {
        let path = text("control.rules", &[b"rule a: P{}\n// with ", &[byte][..], b" in \xC3 it\n"].concat());
        for words in [&["check"][..], &["expand"], &["older"], &["tape"], &["show"], &["merge", LOCKOUT]] {
            let (status, said) = kit(&[words, &[&path]].concat());
            let wanted = format!("{path}:2:9: byte {byte:02X} is a control, which no text of rules has\n");
            assert!(status == 2 && said.contains(&wanted), "{said}");
        }
    }
    let path = text("bytes.rules", "rule a: P{}\nrule 'ü': P{} && \u{1}".as_bytes());
    assert_eq!(kit(&["check", &path]).1, format!("{path}:2:18: byte 01 is a control, which no text of rules has\n"));
    let path = text("latin.rules", b"rule a: P{}\nrule b: K\xFCche{}\n");
    let wanted = format!("{path}:2:10: byte FC is no UTF-8, as a text of rules has to be\n");
    assert_eq!(kit(&["check", &path]), (2, wanted));
    let path = text("tabs.rules", b"rule a:\tP{}\r\n");
    assert_eq!(kit(&["check", &path]).0, 0);
}

#[test]
fn what_is_shown_can_be_read() {
    let macros = file("macros.rules", "m(x) = P{f: ?x}");
    let (rule, tape, shown) = (file("rule.rules", "rule: m(5)"), file("rule.tape", ""), file("shown.rules", ""));
    assert_eq!(kit(&["tape", &rule, "-o", &tape]).0, 0);
    std::fs::write(&shown, kit(&["show", &tape]).1).expect("a file");
    let (status, text) = kit(&["expand", &macros, &shown]);
    assert!(status == 0 && text.contains("P{f: 5}"), "{text}");
}

#[test]
fn what_a_battery_head_gets_is_expanded() {
    let path = file("battery.rules", "m() = formerly 1h P{} k() = formerly 2w P{} rule short: m() rule long: k()");
    let (status, text) = kit(&["profile", &path]);
    assert!(status == 1 && text.contains("short: fit") && text.contains("refused with 55"), "{text}");
    let (status, text) = kit(&["profile", &path, "--as-is"]);
    assert!(status == 0 && text.contains("long: fit"), "{text}");
}

#[test]
fn of_what_is_not_equal_the_first_entry_is_shown() {
    let (ours, other) = (file("ours.rules", "rule: tp(a)"), file("other.rules", "rule: !tp(a)"));
    let (status, text) = kit(&["judge", &ours, &other]);
    assert!(status == 1 && text.contains("entry 1 is 10 at 6..11 in ours, 3 at 6..12 in the other"), "{text}");
}

#[test]
fn a_pairing_ends_with_0_1_or_2() {
    let (status, text) = kit(&["pair", "model", "second", "--cases", "300", "--quiet"]);
    assert!(status == 0 && text.contains("no difference"), "{text}");
    let (status, text) = kit(&["pair", "model", "wrong:file-forgotten", "--quiet"]);
    assert!(status == 1 && text.contains("the difference: the result; entry"), "{text}");
    let (status, text) = kit(&["pair", "model", "/no/such/head", "--quiet"]);
    assert!(status == 2 && text.contains("not found"), "{text}");
    for wrong in [&["wrong:nope"][..], &["second", "--timeout", "-1"], &["second", "--only", "all"], &[""]] {
        let (status, text) = kit(&[&["pair", "model", "--cases", "50", "--quiet"][..], wrong].concat());
        assert_eq!(status, 2, "{text}");
    }
    // What compares nothing has found nothing out.
    assert_eq!(kit(&["pair", "model", "second", "--cases", "0"]).0, 2);
}

#[test]
fn what_does_not_answer_is_a_finding() {
    let heads = [
        ("wrong:dies", "dies: exit status: 3"),
        ("wrong:garbage", "answers garbage"),
        ("true", "dies: exit status: 0"),
        (r"printf '\100\0\0\0half'", "in the middle of an answer"),
        (r"printf 'no frame at all'", "answers garbage: a frame of"),
        ("echo why >&2; kill -9 $$", "dies: signal: 9 (SIGKILL); why"),
        ("sh -c 'kill -9 $$'; exit", "dies: exit status: 137, which stands for signal: 9 (SIGKILL)"),
    ];
    for (head, said) in heads {
        let (status, text) = kit(&["pair", "model", head, "--quiet"]);
        assert!(status == 1 && text.contains(said), "{text}");
    }
    let (status, text) = kit(&["pair", "model", "wrong:hangs", "--timeout", "2", "--quiet", "--as-found"]);
    assert!(status == 1 && text.contains("hangs: no answer"), "{text}");
    let (status, text) = kit(&["pair", "model", "sleep 60", "--timeout", "1"]);
    assert!(status == 1 && text.contains("hangs: no answer within 1 s"), "{text}");
}

/// Whatever the shell reads as a command may be a head.
#[test]
fn a_head_is_what_the_shell_reads() {
    let serve = format!("{} serve --model", env!("CARGO_BIN_EXE_kit"));
    for head in [
        format!("NAME=value {serve}"),
        format!("cd / && {serve}"),
        format!("({serve})"),
        format!("echo begins >&2; {serve}"),
        format!("if true; then {serve}; fi"),
        format!("exec {serve}"),
    ] {
        let (status, text) = kit(&["pair", "model", &head, "--cases", "20", "--quiet"]);
        assert!(status == 0 && text.contains("no difference"), "{head}: {text}");
    }
    for missing in ["NAME=value /no/such/head", "cd / && ./no-such-head", "(/no/such/head)", "--", "-x"] {
        let (status, text) = kit(&["pair", "--quiet", "--", "model", missing]);
        assert!(status == 2 && text.contains(&format!("B, `{missing}`, cannot be started: ")), "{missing}: {text}");
    }
    let (status, text) = kit(&["pair", "model", "( true", "--quiet"]);
    assert!(status == 1 && text.contains("dies: exit status: 2; ") && text.contains("yntax error"), "{text}");
}

/// A head that ends after so many bytes, whatever it was asked: no case shows that by itself. Its shell ends only when the
/// server behind it has noticed, so it is seen to die or not to answer, whichever comes first.
#[test]
fn what_depends_on_earlier_requests_is_said() {
    let head = format!("sh -c '{} serve --model | dd bs=1 count=20000 2>/dev/null'", env!("CARGO_BIN_EXE_kit"));
    let (status, text) = kit(&["pair", "model", &head, "--quiet", "--cases", "2000"]);
    assert!(status == 1 && text.contains("what was asked before it matters"), "{text}");
    assert!(text.contains("B: dies") || text.contains("B: hangs"), "{text}");
}
