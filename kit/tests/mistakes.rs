//! `check` finds every mistake of a file in one run, a 3 says its figure and its place, and what `expand` writes can be read.

use std::process::{Command, Output};

/// Runs the kit: its exit status, and what it printed.
fn kit(words: &[&str]) -> (i32, String) {
    let Output { status, stdout, stderr } =
        Command::new(env!("CARGO_BIN_EXE_kit")).args(words).output().expect("the kit runs");
    let text = [stdout, stderr].map(|bytes| String::from_utf8_lossy(&bytes).to_string()).concat();
    (status.code().expect("an exit status"), text)
}

const EXAMPLES: &str = concat!(env!("CARGO_MANIFEST_DIR"), "/../examples");

/// A file with this text, in the folder that cargo has for tests.
fn file(name: &str, text: &str) -> String {
    let path = format!("{}/{name}", env!("CARGO_TARGET_TMPDIR"));
    std::fs::write(&path, text).expect("a file");
    path
}

/// What stands behind the file's name in each line that has a place: `3:26: refused with 20`, or all of what cannot be read.
fn places(text: &str, path: &str) -> Vec<String> {
    let behind = |line: &str| line.strip_prefix(&format!("{path}:")).map(str::to_string);
    let short = |line: String| match line.find("refused with ") {
        Some(at) => line[..at + 15].trim_end_matches(':').to_string(),
        None => line,
    };
    text.lines().filter_map(behind).map(short).collect()
}

/// Checks a text: exactly these mistakes, in this order, and the exit status 1.
fn check(name: &str, text: &str, wanted: &[&str]) -> String {
    let path = file(name, text);
    let (status, said) = kit(&["check", &path]);
    assert_eq!(places(&said, &path), wanted, "{said}");
    let count = format!(" {} mistake{}\n", wanted.len(), if wanted.len() == 1 { "" } else { "s" });
    assert!(status == 1 && said.contains(&count), "{said}");
    said
}

#[test]
fn the_example_has_eight_mistakes() {
    let path = format!("{EXAMPLES}/mistakes.rules");
    let (status, text) = kit(&["check", &path]);
    let wanted = [
        "4:60: refused with 20",
        "5:1: refused with 10",
        "7:1: refused with 11",
        "8:84: expected `)`, found `rule`, which begins what follows",
        "11:52: refused with 44",
        "11:69: refused with 30",
        "13:63: refused with 34",
        "14:53: expected a condition, found a term",
    ];
    assert_eq!(places(&text, &path), wanted, "{text}");
    assert!(status == 1 && text.contains("5 macros, 2 rules, 8 mistakes\n"), "{text}");
    for said in [
        "\n    in macro `unseen`; did you mean `?room`?\n",
        "\n    in macro `still`; the first one at 6:1\n",
        "; `?d` is used in macro `seen` at 3:26\n",
        "; did you mean `seen`?\n",
        "\n    in rule `a lock of fifteen minutes`; defined at 6:1\n",
        "\n    did you mean `&&`?\n",
    ] {
        assert!(text.contains(said), "{said}{text}");
    }
}

/// Behind a mistake the next definition is read, wherever a bracket or a quote is missing.
#[test]
fn syntax_is_read_on() {
    check(
        "syntax.rules",
        "a(x = tp(?x)\nb(y) = P{f: ?y\nvalue c(z,\nd(x) = P{a: 5y} && \"abc\nrule e: tp(q) &&\n\
         rule f: times(1w) = 5\nrule g: ~ && nope()\nrule h: nope()\nrule i: b(1) && c(2) && a(3)\n",
        &[
            "1:5: expected `,` or `)`, found `=`",
            "2:15: expected `,` or `}`, found `value`, which begins what follows",
            "3:11: expected a parameter's name, found `d`, which begins what follows",
            "4:13: expected a number, or one with a unit: s, m, h, d or w",
            "4:20: expected `\"` at the end of this text",
            "5:17: expected a condition or a term, found `rule`, which begins what follows",
            "6:19: expected a condition or a term, found `=`",
            "7:9: `~` begins nothing; a name like it is put in '…'",
            "8:9: refused with 30",
        ],
    );
}

/// What stands before a root would be no part of its one tree. It is not dropped without a word.
#[test]
fn a_root_stands_alone() {
    let alone = "expected no macro and no rule before `root`, which is the one tree of its text";
    check(
        "root.rules",
        "m(x) = ?y\nlet(x) = ?x\nrule a: nope(1)\nroot condition P{}\n",
        &["1:8: refused with 20", "2:1: refused with 10", "3:9: refused with 30", &format!("4:1: {alone}")],
    );
    check(
        "root_call.rules",
        "rule a: nope(1)\nroot call m(P{})\n",
        &["1:9: refused with 30", &format!("2:1: {alone}")],
    );
    check(
        "root_first.rules",
        "root call m(\nrule a: nope(1)\nroot value 1\n",
        &[
            "1:13: expected a condition or a term, found `rule`, which begins what follows",
            "2:9: refused with 30",
            &format!("3:1: {alone}"),
        ],
    );
    let limited = file("limited.rules", "limit 0\nroot definition m(x) = !?x\n");
    let (status, text) = kit(&["expand", &limited, &file("of_limited.rules", "rule a: m(P{})\n")]);
    assert!(status == 1 && text.contains("refused with 35"), "{text}");
}

/// A line that begins with `rule` is a rule's, even if its `:` is missing.
#[test]
fn a_rule_without_its_colon_is_told() {
    check(
        "colons.rules",
        "rule a: P{a: }\nrule b Q{}\nrule c R{}\nrule d: Q{}\nrule a-b: P{}\nrule !P{}\nrule 5: P{}\n\
         rule \"x y\" P{}\nrule e: rule == 1 && P{a:\nrule}\n",
        &[
            "1:14: expected a condition or a term, found `}`",
            "2:8: expected `:` behind the rule's name, found `Q`",
            "3:8: expected `:` behind the rule's name, found `R`",
            "5:7: expected `:` behind the rule's name, found `-`",
            "6:6: expected `:` or a name behind `rule`, found `!`",
            "7:6: expected `:` or a name behind `rule`, found 5",
            "8:12: expected `:` behind the rule's name, found `P`",
        ],
    );
    check("first_colon.rules", "rule a P{}", &["1:8: expected `:` behind the rule's name, found `P`"]);
}

/// What begins nothing takes no mistake with it that has nothing to do with it.
#[test]
fn a_mistake_before_a_bad_token_is_told() {
    check(
        "bad.rules",
        "rule a: 1 + 2\n~\nvalue m(x) = P{}\n\"open\nrule b: P{} == ~\nrule c: x ~ 5\nrule d: x\n  ~ 5\nrule e: ~\nrule\n\"open\nrule \"open: P{}\n",
        &[
            "1:9: expected a condition, found a term",
            "2:1: `~` begins nothing; a name like it is put in '…'",
            "3:14: expected a term, found a condition",
            "4:1: expected `\"` at the end of this text",
            "5:9: expected a term, found a condition",
            "5:16: `~` begins nothing; a name like it is put in '…'",
            "6:11: `~` begins nothing; a name like it is put in '…'",
            "8:3: `~` begins nothing; a name like it is put in '…'",
            "9:9: `~` begins nothing; a name like it is put in '…'",
            "11:1: expected `\"` at the end of this text",
            "12:6: expected `\"` at the end of this text",
        ],
    );
}

/// What is wrong with a definition's head is one mistake: calls of the macro are not told as well.
#[test]
fn a_mistake_in_a_head_is_one() {
    let of = |head: &str, call: &str| format!("{head}\nrule a: {call} && !{call}\nrule b: {call}\n");
    let equals = "expected `=` and the body";
    let word = "expected `value`, `cedar` or no word before a macro's name";
    let heads = [
        ("seen(d, x) formerly ?d ?x", format!("1:12: {equals}, found `formerly`"), ""),
        ("seen(d, x)\n  formerly ?d ?x", format!("2:3: {equals}, found `formerly`"), ""),
        ("seen(d, x): formerly ?d ?x", format!("1:11: {equals}, found `:`"), ""),
        ("seen(d, x) -> ?x", format!("1:12: {equals}, found `-`"), ""),
        ("seen(d, x) ?x", format!("1:12: {equals}, found `?x`"), ""),
        ("seen(?d, ?x) = formerly ?d ?x", "1:6: expected a parameter's name, found `?d`".to_string(), ""),
        ("seen(d, x = formerly ?d ?x", "1:11: expected `,` or `)`, found `=`".to_string(), ""),
        ("value seen(d, x) ?x + 1", "1:18: expected `=` and the body, found `?x`".to_string(), ""),
        ("vlaue seen(d, x) = ?x + 1", format!("1:1: {word}, found `vlaue`"), "did you mean `value`?"),
        ("let seen(d, x) = ?x + 1", format!("1:1: {word}, found `let`"), "did you mean `value`?"),
        ("def temporal seen(d, x) = ?x", format!("1:1: {word}, found `def`"), ""),
        ("fun seen(d, x) = ?x", format!("1:1: {word}, found `fun`"), ""),
        ("ceder seen(d, x)", format!("1:1: {word}, found `ceder`"), "did you mean `cedar`?"),
    ];
    for (head, wanted, meant) in heads {
        let said = check("head.rules", &of(head, "seen(1h, P{})"), &[&wanted]);
        assert_eq!(said.contains("did you mean"), !meant.is_empty(), "{said}");
        assert!(said.contains(meant), "{said}");
    }
    let said = check("word.rules", "lmit 5\nrule a: P{}\n", &["1:1: expected a condition, found a term"]);
    assert!(said.contains("did you mean `limit`?"), "{said}");
    check("two.rules", "m(x); P{}\nrule a: P{}\n", &["1:1: refused with 30"]);
}

/// What is joined without end is a mistake, and no overflow of the stack.
#[test]
fn a_chain_without_end_is_told() {
    for (name, chain) in [("chain.rules", "P{} && ".repeat(150_000)), ("fields.rules", "{}".repeat(150_000))] {
        let path = file(name, &format!("rule a: P{chain}\nrule b: nope()\n"));
        let (status, said) = kit(&["check", &path]);
        let told = "expected less nesting";
        assert!(status == 1 && said.contains(told) && said.contains("2:9: refused with 30"), "{status} {said}");
    }
    let path = file("long.rules", &format!("rule a: {}P{{}}", "P{} && ".repeat(999)));
    let (status, said) = kit(&["check", &path]);
    assert!(status == 1 && said.contains("6,999 entries, where 1,024 are the most; passed here"), "{said}");
}

/// What is unfinished is told where it stops, and not in the right line behind it.
#[test]
fn what_is_unfinished_is_told_where_it_stops() {
    let unfinished = [
        "P{",
        "P{a: 1,",
        "P{a.",
        "P{a: context.",
        "\"P\"::",
        "Firm::",
        "exists",
        "exists q:",
        "exists q: T::",
        "sum",
        "tp(",
        "m(1,",
        "m(1",
        "m(value",
        "m(condition",
        "P{a:",
        "P{} since",
        "(",
        "1 <",
        "[1",
        "!",
        "decimal(",
        "P{a: User::",
        "count for",
        "count for q,",
        "",
        "scope.",
        "m(P{}, 1",
    ];
    for behind in [
        "m(x) = ?x",
        "rule b: m(P{})",
        "rule b m(P{})",
        "value v(x) = ?x",
        "bad(x = ?x",
        "bad(x) formerly 1h ?x",
        "bad(x): ?x",
        "limit 5",
        "vlaue v(x) = 1",
    ] {
        for before in unfinished {
            let first = format!("rule a: {before}").trim_end().to_string();
            let path = file("unfinished.rules", &format!("{first}\n{behind}\n"));
            let (_, said) = kit(&["check", &path]);
            let told = places(&said, &path).into_iter().next().unwrap_or_default();
            let at = format!("1:{}: expected ", first.len() + 1);
            assert!(told.starts_with(&at) && told.ends_with(", which begins what follows"), "{first} {behind} {said}");
        }
    }
    check(
        "unfinished.rules",
        "rule a: P{\nvlaue m(x) = ?x\nrule\nm(x) = ?x\ncedar\nrule b: P{}\nroot\nrule c: P{}\n",
        &[
            "1:11: expected a field's name, or `}`, found `vlaue`, which begins what follows",
            "2:1: expected `value`, `cedar` or no word before a macro's name, found `vlaue`",
            "3:5: expected `:` or a name behind `rule`, found `m`, which begins what follows",
            "5:6: expected a macro's name, found `rule`, which begins what follows",
            "7:5: expected `call`, `value`, `condition` or `definition` behind `root`, found `rule`, which begins what follows",
        ],
    );
}

/// What the text ends without is told behind its last word, whatever line ends and comments there are.
#[test]
fn what_is_missing_at_the_end_is_told_behind_the_last_word() {
    let missing = "expected a condition or a term, found the end";
    for ends in ["", "\r", "\n", "\r\n", "\n\n\n// end of the file\n"] {
        let said = check("end.rules", &format!("rule a: P{{}} &&{ends}"), &[&format!("1:15: {missing}")]);
        assert!(said.contains("\n    rule a: P{} &&\n                  ^\n"), "{said}");
    }
    check("call.rules", "rule a: m(1\n", &["1:12: expected `,` or `)`, found the end"]);
    let (_, json) = kit(&["check", &file("quote.rules", "rule a: \"open\r\n"), "--format", "json"]);
    assert!(json.contains("\"end_column\": 14,"), "{json}");
}

/// Of a name that is ill-formed or too long nothing else is told: it is no unknown macro's.
#[test]
fn a_wrong_name_is_one_mistake() {
    check(
        "names.rules",
        "'m\\x01'(x) = ?x\nrule a: 'm\\x01'(P{f: ?y}) && nope()\nrule b: '\\xC3'(P{})\nrule c: 'a\\{65}'('\\xC3'(1))\n",
        &[
            "1:1: refused with 2",
            "2:9: refused with 2",
            "2:22: refused with 39",
            "2:30: refused with 30",
            "3:9: refused with 2",
            "4:9: refused with 3",
            "4:18: refused with 2",
        ],
    );
}

/// What a rule's name has that nobody sees is no line and no colour of what is said of it.
#[test]
fn names_of_rules_are_told_as_they_are_seen() {
    let path = file("controls.rules", "rule 'a\\x0Ab\\x1B[31m': P{}\nrule 'a \\x1Bb': foo(1)\n");
    for (command, told) in [
        ("check", r#"in rule `"a \x1Bb"`"#),
        ("expand", r#"in rule `"a \x1Bb"`"#),
        ("expand", "\n\"a\\x0Ab\\x1B[31m\": expanded, 0 charged\n"),
        ("preview", "\"a\\x0Ab\\x1B[31m\": 0 charged"),
        ("tape", r#"the rules `"a\x0Ab\x1B[31m"`, `"a \x1Bb"`"#),
    ] {
        let (_, said) = kit(&[command, &path]);
        let is_plain = |c: char| c == '\n' || !c.is_control();
        assert!(format!("\n{said}").contains(told) && said.chars().all(is_plain), "{command} {told} {said:?}");
    }
    let (_, json) = kit(&["check", &path, "--format", "json"]);
    assert!(json.contains(r#""rule": "a \u001bb""#), "{json}");
}

/// Names that stand twice, and reserved ones, are told of more macros than one registry takes.
#[test]
fn names_are_told_of_many_macros() {
    let macros: String = (0..301).map(|i| format!("m{i}() = tp($t)\n")).collect();
    let path = file("many.rules", &format!("{macros}m7() = tp($t)\nlet() = tp($t)\nm300() = tp($t)\nm7() = tp($t)\n"));
    let (status, said) = kit(&["check", &path]);
    let names: Vec<String> = places(&said, &path).into_iter().filter(|place| !place.ends_with(" 3")).collect();
    let wanted =
        ["302:1: refused with 11", "303:1: refused with 10", "304:1: refused with 11", "305:1: refused with 11"];
    assert!(status == 1 && names == wanted, "{said}");
    assert_eq!(said.matches("in macro `m7`; the first one at 8:1\n").count(), 2, "{said}");
    assert!(said.contains("in macro `m300`; the first one at 301:1\n"), "{said}");
}

/// All that a body check can refuse, in one body.
#[test]
fn every_mistake_of_a_body_is_told() {
    let said = check(
        "bodies.rules",
        "m(d, room) = formerly ?e (P{r: ?rom, x: room, y: k(?z)} && ?s && tp(q) && k(1))\n\
         value v(x) = ?x + ?y + (sum ?w for a: T where tp($t))\ncedar c(x)\n",
        &[
            "1:23: refused with 20",
            "1:32: refused with 20",
            "1:41: refused with 21",
            "1:50: refused with 22",
            "1:60: refused with 20",
            "1:69: refused with 21",
            "1:75: refused with 22",
            "2:19: refused with 20",
            "2:29: refused with 20",
            "2:36: refused with 21",
        ],
    );
    assert!(said.contains("in macro `m`; did you mean `?room`?"), "{said}");
}

/// All that an expansion can refuse. A call's arguments are looked at even if the call is refused.
#[test]
fn every_mistake_of_a_rule_is_told() {
    let macros = "c(s) = ?s\nt(x) = P{f: ?x}\ni(d) = formerly ?d P{}\nn(v) = tp(?v)\nr(s) = ?s{h: 1}\n\
                  b(s) = exists $s: T, $s\nvalue v() = count where tp($t)\ncedar k()\nneg() = !P{}\n";
    check(
        "rules.rules",
        &format!(
            "{macros}rule a: nope(1, c(5)) && k() && v() && (1 < t(1)) && t() && t(1, t(?z))\n\
             rule b: formerly ?d P{{a: [?x]}} && tp(?q) && $t && ?y == 4\n\
             rule c: c(5) && c(x) && t(tp(q)) && i(5) && n(6) && n(1h) && i(c(7))\n\
             rule d: r(tp(q)) && r(P{{}}) && r(!P{{}}) && neg(){{a: 1}} && b(1)\n"
        ),
        &[
            "6:22: refused with 43",
            "10:9: refused with 30",
            "10:19: refused with 42",
            "10:26: refused with 31",
            "10:33: refused with 32",
            "10:45: refused with 33",
            "10:54: refused with 34",
            "10:61: refused with 34",
            "10:68: refused with 40",
            "11:18: refused with 37",
            "11:27: refused with 39",
            "11:38: refused with 38",
            "11:45: refused with 36",
            "11:51: refused with 40",
            "12:11: refused with 42",
            "12:19: refused with 42",
            "12:27: refused with 45",
            "12:39: refused with 44",
            "12:47: refused with 46",
            "12:55: refused with 46",
            "12:64: refused with 44",
            "12:66: refused with 42",
            "13:11: refused with 47",
            "13:33: refused with 47",
            "13:42: refused with 47",
        ],
    );
}

/// A file without mistakes, one that cannot be read, one that is not there.
#[test]
fn the_exit_status_is_0_1_or_2() {
    let (status, text) = kit(&["check", &format!("{EXAMPLES}/lockout.rules")]);
    assert!(status == 0 && text.contains("5 macros, 5 rules, 0 mistakes\n"), "{text}");
    assert_eq!(kit(&["check", &file("status.rules", "rule: nope()")]).0, 1);
    assert_eq!(kit(&["check", &file("status2.rules", "rule: (")]).0, 1);
    for words in [&["check", "/no/such/file"][..], &["check"], &["check", EXAMPLES, "--format", "yaml"]] {
        assert_eq!(kit(words).0, 2, "{words:?}");
    }
}

/// Macros in one file and rules in another, whatever spans are written; and the same of tapes, whose places are entries.
#[test]
fn two_files_and_tapes_have_places_too() {
    let macros = file("macros.rules", "m(x) = P{f: ?y}\nlate(d) = formerly ?d P{}\n");
    let rules = file("more.rules", "spans 0..0 rule a: formerly 1h m(1) rule b: late(x) rule c: nope()\n");
    let (_, text) = kit(&["check", &macros, &rules]);
    assert_eq!(places(&text, &macros), ["1:13: refused with 20"], "{text}");
    assert_eq!(places(&text, &rules), ["1:50: refused with 44", "1:61: refused with 30"], "{text}");
    assert!(text.contains(&format!("`?d` is used in macro `late` at {macros}:2:20")), "{text}");
    let tape = file("macros.tape", "");
    assert_eq!(kit(&["tape", &macros, "-o", &tape]).0, 0);
    let (_, text) = kit(&["check", &tape, &rules]);
    assert!(text.contains(&format!("{tape}: entry 15: refused with 20: ")), "{text}");
    assert!(text.contains(&format!("in macro `late` at {tape}: entry 23")), "{text}");
}

#[test]
fn json_has_every_mistake() {
    let path = file("json.rules", "m(x) = P{f: ?y}\nrule \"a \\\"b\\\"\": n(1) && P{s: \"a\\{256}\"}\nrule: (\n");
    let (status, text) = kit(&["check", &path, "--format", "json"]);
    assert_eq!(status, 1, "{text}");
    let json = text.lines().skip_while(|line| *line != "{").collect::<Vec<_>>().join("\n");
    for part in [
        "\n  \"macros\": 1,\n  \"rules\": 1,\n",
        "\"line\": 1,\n      \"column\": 13,\n      \"end_line\": 1,\n      \"end_column\": 15,\n      \"number\": 20,\n",
        "\"macro\": \"m\",\n      \"rule\": null,\n      \"meant\": \"?x\",\n",
        "\"number\": 30,\n",
        "\"rule\": \"a \\\"b\\\"\",\n      \"meant\": \"m\",\n",
        "\"name\": \"literal\",\n        \"is\": 256,\n        \"largest\": 255,\n        \"of\": \"tape\",\n",
        "\"number\": null,\n      \"message\": \"expected a condition or a term, found the end\",\n",
    ] {
        assert!(json.contains(part), "{part}\n{json}");
    }
    assert_eq!(json.matches("\"message\": ").count(), 4, "{json}");
    let (status, text) = kit(&["check", &format!("{EXAMPLES}/lockout.rules"), "--format", "json"]);
    assert!(status == 0 && text.contains("\"mistakes\": []"), "{text}");
}

/// Every largest figure: which, how large, and where. Sizes are counted from the format.
#[test]
fn a_3_says_the_figure_and_the_place() {
    let not = |n: usize| "!".repeat(n);
    let joined = |part: &str, n: usize, between: &str| vec![part; n].join(between);
    let wide = joined("P{a: 1, b: 2, c: 3, d: 4, e: 5, f: 6, g: 7, h: 8, i: 9, j: 1, k: 2, l: 3}", 20, " || ");
    let parameters: Vec<String> = (0..17).map(|i| format!("p{i}")).collect();
    let macros: String = (0..70).map(|i| format!("m{i}() = P{{f: [1, 2, 3, 4, 5, 6, 7, 8]}}\n")).collect();
    let twice = "m(x) = P{f: ?x}\nvalue t(x) = [?x, ?x]\n";
    let figures = [
        ("1:13", "rule: P{f: [1; 1024]}".to_string(), "1,032 entries, where 1,024 are the most; passed here"),
        ("1:240", format!("rule: {}", joined(r#"P{f: "a\{250}"}"#, 13, " && ")), "3,276 bytes of text, where 3,072"),
        ("1:71", format!("rule: {}P{{}}", not(70)), "nested 71 deep, where 64 is the deepest; passed here"),
        (
            "1:69",
            format!("rule: {}(P{{}} || Q{{}})", not(61)),
            "nested 65 deep, where 64 is the deepest (a `||`, which is rewritten, counts 3); passed here",
        ),
        (
            "1:1553",
            format!("rule: {wide} || P{{a: [1; 362]}}"),
            "1,050 entries, where 1,024 are the most (3 more for each `||`, which is rewritten); passed here",
        ),
        (
            "2:15",
            "m(x) = tp(?x)\nrule: m(m(m(m(m(1)))))".to_string(),
            "5 calls inside one another, where 4 are the most",
        ),
        ("1:12", r#"rule: P{f: "a\{256}"}"#.to_string(), "a string or decimal of 256 bytes, where 255 are the most"),
        ("1:10", r"rule: tp('a\{65}')".to_string(), "a name of 65 bytes, where 64 are the most"),
        ("1:76", format!("long({}) = P{{}}", parameters.join(", ")), "17 parameters, where 16 are the most"),
        (
            "2:7",
            "m(x) = P{f: [?x, ?x, ?x, ?x]}\nrule: m([0; 300])".to_string(),
            "what this call becomes has 1,212 entries, where 1,024 are the most",
        ),
        (
            "3:7",
            format!("{twice}rule: m(value t([0; 300]), value t([0; 300]))").replace("m(x)", "m(x, y)"),
            "this call with its arguments expanded has 1,211 entries, where 1,024 are the most",
        ),
        (
            "2:37",
            "m(x) = P{f: [?x, ?x, ?x]}\nrule: m([0; 150]) && m([0; 150]) && m([0; 150])".to_string(),
            "the result has 1,385 entries, where 1,024 are the most; passed here",
        ),
        ("52:9", macros, "all macros together have 1,401 entries, where 1,024 are the most; passed here"),
    ];
    for (place, text, figure) in figures {
        let (path, has_rule) = (file("figure.rules", &text), text.contains("rule: "));
        // A head's profile is of results, whose generated names may be longer.
        let commands = ["check", "expand", "preview", "profile"];
        let takes = |name: &str| name == "check" || has_rule && !(name == "profile" && figure.starts_with("a name"));
        for command in commands.into_iter().filter(|name| takes(name)) {
            let (status, said) = kit(&[command, &path]);
            let wanted = format!("{path}:{place}: refused with 3: over a largest figure: ");
            assert!(status == 1 && said.contains(&wanted) && said.contains(figure), "{wanted}{figure}\n{said}");
        }
    }
}

/// `merge` and `older` say it too: of what only the two joined pass, of a macro, of a tape.
#[test]
fn a_3_of_tapes_says_the_figure_and_the_place() {
    let macros =
        |name: &str| (0..30).map(|i| format!("{name}{i}() = P{{f: [1, 2, 3, 4, 5, 6, 7, 8]}}\n")).collect::<String>();
    let (first, second) = (file("first.rules", &macros("a")), file("second.rules", &macros("b")));
    let (status, text) = kit(&["merge", &first, &second]);
    // 1 + 30 × 20 of the first, 21 definitions of the second, and three entries more.
    let wanted = format!("{second}:22:9: refused with 3: over a largest figure: the two joined have 1,201 entries");
    assert!(status == 1 && text.contains(&wanted), "{text}");
    let (rules, tape) = (file("deep.rules", "rule deep: m(m(m(m(m(1)))))"), file("deep.tape", ""));
    let (status, text) = kit(&["older", &rules]);
    assert!(status == 1 && text.contains(&format!("{rules}:1:20: refused with 3: ")), "{text}");
    assert_eq!(kit(&["tape", &rules, "-o", &tape]).0, 0);
    let (status, text) = kit(&["older", &tape]);
    assert!(status == 1 && text.contains(&format!("{tape}: entry 22: refused with 3: ")), "{text}");
    assert!(text.contains("5 calls inside one another, where 4 are the most"), "{text}");
}

/// What `expand -o` writes is a tape that `tape`, `show`, `judge`, `preview` and `check` take.
#[test]
fn an_expanded_rule_is_written_as_a_tape() {
    let (lockout, tape, again) = (format!("{EXAMPLES}/lockout.rules"), file("three.tape", ""), file("again.tape", ""));
    let rule = "three boosts a day";
    let (status, text) = kit(&["expand", &lockout, "-o", &tape]);
    assert!(status == 2 && text.contains("--rule NAME"), "{text}");
    let (status, text) = kit(&["expand", &lockout, "--rule", "three boost a day", "-o", &tape]);
    assert!(status == 2 && text.contains("no rule `three boost a day`; did you mean `three boosts a day`?"), "{text}");
    let (status, text) = kit(&["expand", &lockout, "--rule", rule, "-o", &tape]);
    assert!(status == 0 && text.contains("three boosts a day: expanded, 8 charged\n"), "{text}");
    assert_eq!(kit(&["tape", &tape, "-o", &again]).0, 0);
    assert_eq!(std::fs::read(&tape).expect("a tape"), std::fs::read(&again).expect("a tape"));
    let (status, text) = kit(&["show", &tape]);
    assert!(
        status == 0 && text.starts_with("spans 0..0\nroot condition (Head::\"boost\"::request{room: \"Séjour\"}@"),
        "{text}"
    );
    let (status, text) = kit(&["judge", &lockout, &tape, "--rule", rule]);
    assert!(status == 0 && text.contains("equal but for generated names, 8 charged"), "{text}");
    for command in ["preview", "expand", "profile", "check"] {
        let (status, text) = kit(&[command, &tape]);
        assert!(status == u8::from(command == "profile").into(), "{command}: {text}");
    }
    // Shown and read again it is the same result.
    let shown = file("shown.rules", &kit(&["show", &tape]).1);
    assert_eq!(kit(&["judge", &lockout, &shown, "--rule", rule]).0, 0);
    assert_eq!(kit(&["expand", &lockout, "--rule", rule, "-o", "/no/such/folder/tape"]).0, 2);
}

/// A rule that is refused writes nothing.
#[test]
fn a_refused_rule_is_not_written() {
    let (rules, tape) =
        (file("refused.rules", "rule: nope()"), format!("{}/refused.tape", env!("CARGO_TARGET_TMPDIR")));
    let _ = std::fs::remove_file(&tape);
    let (status, text) = kit(&["expand", &rules, "-o", &tape]);
    assert!(status == 1 && text.contains("refused.rules:1:7: refused with 30"), "{text}");
    assert!(!std::path::Path::new(&tape).exists());
}

/// Checks what `profile` says of these files: exit status 1, and each of these parts.
fn profile(words: &[&str], wanted: &[&str]) {
    let (status, said) = kit(&[&["profile"], words].concat());
    assert_eq!(status, 1, "{said}");
    wanted.iter().for_each(|part| assert!(said.contains(part), "{part}\n{said}"));
}

/// Predicates `P0{}` and so on, joined.
fn joined(count: usize, between: &str) -> String {
    (0..count).map(|i| format!("P{i}{{}}")).collect::<Vec<_>>().join(between)
}

/// What a rule itself has that a battery head does not take: the aggregate, the seventeenth node in the order of the tape, the
/// condition around the interval; an Or is four nodes.
#[test]
fn what_a_battery_head_does_not_take_has_a_place() {
    let (ands, ors) = (joined(14, " && "), joined(6, " || "));
    let text = format!(
        "rule a: P{{}} && 1 < (count where P{{}})\nrule b: {ands}\nrule c: Q{{}} && formerly 2d P{{}}\nrule d: {ors}\n\
         rule e: !(P{{}} || 1 < (count where P{{}}))\n"
    );
    let path = file("unfit.rules", &text);
    for words in [&[&path[..]][..], &[&path, "--as-is"]] {
        profile(
            words,
            &[
                &format!(
                    "a: {path}:1:21: refused with 53: an aggregate\n    rule a: P{{}} && 1 < (count where P{{}})\n"
                ),
                "                        ^^^^^^^^^^^^^^^\n    in rule `a`\n",
                // Thirteen conjunctions come first, and the fourth predicate is one too many.
                &format!("b: {path}:2:33: refused with 54: more than sixteen nodes\n"),
                &format!("c: {path}:3:16: refused with 55: an interval outside of 0 to one day\n"),
                "\n                   ^^^^^^^^^^^^^^^\n    in rule `c`\n",
                // Five times Not and And with a Not to the left, and behind them the first predicate and a Not.
                &format!("d: {path}:4:9: refused with 54"),
                &format!("e: {path}:5:23: refused with 53"),
            ],
        );
    }
    let tape = file("unfit.tape", "");
    assert_eq!(kit(&["tape", &path, "--rule", "a", "-o", &tape]).0, 0);
    profile(&[&tape], &[&format!("{tape}: entry 11: refused with 53")]);
}

/// What comes out of a macro is told in the macro, with the call, or at the call; what comes out of an argument in the rule.
#[test]
fn what_a_macro_makes_of_a_rule_for_a_battery_head_has_a_place() {
    let macros = "m(x) = formerly 1h ?x\nlate() = formerly 2w P{}\nvalue v() = count where tp($t)\n\
                  many(x) = ?x && P{} && P{} && P{} && P{} && P{} && P{} && P{} && 5 == 5\nvalue same(x) = ?x\n";
    let rules = "// conditions\nrule a: formerly 2d P{}\nrule c: Q{} && m(formerly 2w P{})\nrule d: Q{} && m(late())\n\
                 rule e: Q{} && v() < 3\nrule f: Q{} && many(P{})\nrule g: P{} && !same(value v()) == 1\n";
    let (first, second) = (file("heads.rules", macros), file("head.rules", rules));
    profile(
        &[&first, &second],
        &[
            &format!("a: {second}:2:9: refused with 55: "),
            &format!("c: {second}:3:18: refused with 55: "),
            &format!(
                "d: {first}:2:10: refused with 55: an interval outside of 0 to one day\n    late() = formerly 2w P{{}}\n"
            ),
            &format!("\n    in macro `late`; called by rule `d` at {second}:4:18\n"),
            &format!("e: {second}:5:16: refused with 53: an aggregate, in what macro `v` becomes\n"),
            &format!("\n    in rule `e`; written at {first}:3:13\n"),
            &format!("f: {second}:6:16: refused with 54: more than sixteen nodes, in what macro `many` becomes\n"),
            &format!("\n    in rule `f`; written at {first}:4:"),
            &format!("g: {second}:7:28: refused with 53: an aggregate, in what macro `v` becomes\n"),
        ],
    );
    // The same in one file, whatever spans are written.
    let one = file("both.rules", &format!("spans 0..0\n{macros}{rules}"));
    profile(
        &[&one],
        &[
            &format!("a: {one}:8:9: refused with 55: "),
            &format!("d: {one}:3:10: refused with 55: "),
            "\n    in macro `late`; called by rule `d` at 10:18\n",
            &format!("e: {one}:11:16: refused with 53: "),
            "\n    in rule `e`; written at 4:13\n",
        ],
    );
}

/// The weeks that have no number of days are marked: in a rule, in the macros, in a call alone, on a tape, in standard input.
#[test]
fn a_52_has_a_place() {
    let text = "m(x) = ?x\nrule a: formerly 1w m(P{})\nrule b: formerly 9223372036854775807w m(P{})\n";
    let (rules, tape) = (file("weeks.rules", text), file("weeks.tape", ""));
    let older = |words: &[&str], wanted: &str| {
        let (status, said) = kit(&[&["older"], words].concat());
        assert!(status == 1 && said.contains(wanted), "{wanted}\n{said}");
    };
    let marked = "refused with 52: weeks that have no number of days\n    rule b: formerly 9223372036854775807w m(P{})\n   \
                  \x20                 ^^^^^^^^^^^^^^^^^^^^\n    in rule `b`\n";
    older(&[&rules, "--rule", "b"], &format!("{rules}:3:18: {marked}"));
    assert_eq!(kit(&["tape", &rules, "--rule", "b", "-o", &tape]).0, 0);
    older(&[&tape], &format!("{tape}: entry 2: refused with 52"));
    let macros = file("older.rules", "m(x) = formerly 1w ?x\nlate() = P{} && formerly -2000000000000000000w P{}\n");
    older(&[&macros], &format!("{macros}:2:26: refused with 52"));
    older(&[&macros], "\n    in macro `late`\n");
    let call = file("call.rules", "root call m(9223372036854775807w)");
    older(&[&call], &format!("{call}:1:13: refused with 52"));
    let stdin = std::fs::File::open(&rules).expect("a file");
    let mut command = Command::new(env!("CARGO_BIN_EXE_kit"));
    let output = command.args(["older", "-", "--rule", "b"]).stdin(stdin).output().expect("the kit runs");
    let said = String::from_utf8_lossy(&output.stdout).to_string();
    assert!(said.starts_with(&format!("-:3:18: {marked}")), "{said}");
}

/// Two rules of one name, of which `--rule` finds neither, and a second limit or file number. What is expanded goes on as it is.
#[test]
fn what_stands_twice_is_told() {
    let text = "limit 5\nrule a: P{}\nfile 2\nrule b: P{}\nrule \"a\": Q{}\nlimit 6\nfile 2\nrule a: P{}\nrule: Q{} rule: Q{}\n";
    let rule = "a second rule of this name, so that `--rule` finds neither";
    let said = check(
        "twice.rules",
        text,
        &[
            &format!("5:6: {rule}"),
            "6:1: a second `limit`, which counts in the place of the first",
            "7:1: a second `file`, which counts in the place of the first",
            &format!("8:6: {rule}"),
        ],
    );
    assert!(said.contains("    rule \"a\": Q{}\n         ^^^\n    the first one at 2:6\n"), "{said}");
    assert!(said.contains("    limit 6\n    ^^^^^^^\n    the first one at 1:1\n"), "{said}");
    let path = file("twice.rules", text);
    let (status, said) = kit(&["expand", &path]);
    assert!(status == 0 && said.matches("a: expanded, 0 charged").count() == 3, "{said}");
    let (status, said) = kit(&["check", &path, "--format", "json"]);
    let other = "\"other\": {\n        \"file\": ";
    assert!(status == 1 && said.matches("\"number\": null,\n").count() == 4 && said.contains(other), "{said}");
    // Rules of two files are chosen by their names too; each file may have its limit.
    let (first, second) = (file("once.rules", "limit 5 rule a: P{}"), file("again.rules", "limit 5 rule a: P{}"));
    let (status, said) = kit(&["check", &first, &second]);
    assert_eq!(places(&said, &second), [format!("1:14: {rule}")], "{said}");
    assert!(status == 1 && said.contains(&format!("    the first one at {first}:1:14\n")), "{said}");
}
