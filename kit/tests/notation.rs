//! Printing a tree and reading the text again gives the same tape, for every code in every place.

use differential::generate;
use differential::tape::{self, Node};
use kit::notation::{self, Reading, Spans};
use kit::reading;
use std::collections::BTreeSet;

/// The trees of the first cases of a campaign that are trees.
fn trees(cases: u64) -> impl Iterator<Item = Node> {
    let roots = |index: u64| {
        let case = generate::case(11, index);
        let pairs: Vec<_> = case.tapes.into_iter().zip(case.operation.roots().to_vec()).collect();
        pairs.into_iter().filter_map(|(tape, root)| reading::tree(&tape, root).ok())
    };
    (0..cases).flat_map(roots)
}

fn reread(tree: &Node) -> Node {
    let text = notation::print(tree, Spans::Written);
    let document = notation::parse(&text).unwrap_or_else(|mistake| panic!("{mistake:?} in\n{text}"));
    document.tree().expect("one tree")
}

#[test]
fn every_tape_comes_back() {
    let mut codes = BTreeSet::new();
    for tree in trees(2500) {
        tree.visit(&mut |node| {
            codes.insert(node.code);
        });
        let comes_back = tape::encode(&reread(&tree)) == tape::encode(&tree);
        assert!(comes_back, "{}", notation::print(&tree, Spans::Written));
    }
    let every = (1..=13).chain(20..=36).chain(40..=64);
    assert_eq!(codes.into_iter().collect::<Vec<u8>>(), every.collect::<Vec<u8>>());
}

#[test]
fn without_spans_the_tree_comes_back() {
    for tree in trees(800) {
        let text = notation::print(&tree, Spans::Hidden);
        let document = notation::parse(&text).unwrap_or_else(|mistake| panic!("{mistake:?} in\n{text}"));
        let read = document.tree().expect("one tree");
        assert!(without_spans(&read) == without_spans(&tree), "{text}");
    }
}

fn without_spans(node: &Node) -> Node {
    let value = if tape::value(node.code) == tape::Value::Span { 0 } else { node.value };
    Node { text: node.text.clone(), ..Node::new(node.code, value, node.children.iter().map(without_spans).collect()) }
}

fn text(code: u8, text: &str) -> Node {
    Node::with_text(code, text.as_bytes())
}

/// `P{..}` with these fields and all spans 0..0.
fn predicate(fields: Vec<Node>) -> Node {
    let parts = vec![
        Node::new(42, 0, vec![]),
        Node::counted(41, 1, vec![]),
        text(40, "P"),
        text(40, ""),
        Node::counted(41, 2, fields),
    ];
    Node::new(7, 0, parts)
}

fn condition(source: &str) -> Node {
    let document = notation::parse(&format!("spans 0..0 {source}")).expect("a condition");
    document.rules.into_iter().next().expect("one rule").condition
}

#[test]
fn the_papers_examples_are_its_trees() {
    let document = notation::parse("spans 0..0 m(x) = P{f: ?x, g: $t}").expect("a definition");
    let fields = vec![text(40, "f"), text(32, "x"), text(40, "g"), text(33, "t")];
    let parameters = Node::counted(41, 2, vec![Node::new(42, 0, vec![]), text(40, "x")]);
    let parts = vec![text(40, "m"), parameters, Node::new(62, 0, vec![predicate(fields)])];
    assert_eq!(document.definitions, [Node::new(60, 0, parts)]);

    let formerly = Node::new(4, 0, vec![Node::new(50, 1, vec![]), predicate(vec![])]);
    assert_eq!(condition("formerly 1h P{}"), formerly);

    let tp = Node::new(10, 0, vec![text(43, "q")]);
    let exists = Node::new(9, 0, vec![text(43, "q"), Node::new(46, 0, vec![]), tp]);
    assert_eq!(condition("exists q: Timepoint, tp(q)"), exists);
    assert_eq!(condition("exists q, tp(q)"), exists);

    let base = Node::new(12, 0, vec![text(58, "s")]);
    let fields = Node::counted(41, 2, vec![text(40, "h"), Node::new(21, 1, vec![])]);
    let refine = Node::new(13, tape::span(3, 4), vec![Node::new(42, tape::span(3, 4), vec![]), base, fields]);
    assert_eq!(condition("?s{h: 1}@3..4"), refine);
}

#[test]
fn a_call_has_two_spans() {
    let call = |outer, inner| {
        let argument = Node::new(56, 0, vec![Node::new(21, 5, vec![])]);
        let call = Node::new(54, inner, vec![text(40, "m"), Node::counted(41, 1, vec![argument])]);
        Node::new(11, outer, vec![call])
    };
    let [one, other] = [tape::span(1, 2), tape::span(7, 9)];
    assert_eq!(condition("m(5)@/7..9"), call(0, other));
    assert_eq!(condition("m(5)@7..9"), call(other, other));
    assert_eq!(condition("m(5)@1..2/7..9"), call(one, other));
}

#[test]
fn spans_are_counted_from_the_text() {
    let document = notation::parse("m(x) = tp(?x)\nrule: !m(q)").expect("two items");
    assert!(document.spans_counted);
    let definition = &document.definitions[0];
    assert_eq!(definition.value, tape::span(0, 13));
    assert_eq!(definition.children[1].children[0].value, tape::span(2, 3));
    assert_eq!(definition.children[2].children[0].value, tape::span(7, 13));
    let not = &document.rules[0].condition;
    assert_eq!((not.value, not.children[0].value), (tape::span(20, 25), tape::span(21, 25)));
}

/// What has no head goes on at the margin, too.
#[test]
fn lines_may_end_anywhere_in_an_item() {
    let text = "value\nv(x)\n=\n?x\n+\n1\nm\n(\nx\n)\n=\nformerly\n1h\n?x\nrule\na\n:\nm\n(\nP\n{\nf\n:\nv(1)\n}\n)\n";
    let [one, other] = [text, &text.replace('\n', " ")].map(|text| notation::parse(text).expect("three items"));
    assert_eq!((one.definitions.len(), one.rules.len()), (2, 1));
    assert_eq!((one.definitions, one.rules), (other.definitions, other.rules));
}

#[test]
fn operators_bind_as_the_page_says() {
    let same = |left: &str, right: &str| assert_eq!(condition(left), condition(right), "{left}");
    same("a == 1 && b == 2 || !c == 3", "((a == 1) && (b == 2)) || (!(c == 3))");
    same("!tp(a) since 1h tp(b) && tp(c)", "((!tp(a)) since 1h tp(b)) && tp(c)");
    same("formerly 1h a == 1 since 2w tp(b)", "(formerly 1h (a == 1)) since 2w tp(b)");
    same("a - b - 2 * c * d < -1", "((a - b) - ((2 * c) * d)) < -1");
    same("tp(a) && exists q: T, tp(b) && tp(c)", "tp(a) && (exists q: T, (tp(b) && tp(c)))");
    same("* * * == [1; 3, 2]", "(* * *) == [1, 1, 1, 2]");
}

#[test]
fn mistakes_say_where_and_what_was_expected() {
    let mistake = |source: &str| {
        let mistake = notation::parse(source).expect_err("a mistake");
        (mistake.start, mistake.what)
    };
    let is =
        |source: &str, start: usize, what: &str| assert_eq!(mistake(source), (start, what.to_string()), "{source}");
    is("m(x = tp(?x)", 4, "expected `,` or `)`, found `=`");
    is("rule: P{f 1}", 10, "expected `:` behind the field's name, found 1");
    is("rule: a && tp(b)", 6, "expected a condition, found a term");
    is("rule: tp(a) == 1", 6, "expected a term, found a condition");
    is("rule: formerly P{}", 15, "expected an interval such as 1h, or `?` and a parameter, found `P`");
    is("rule: exists q: T tp(q)", 18, "expected `,` behind the binder, found `tp`");
    is("rule: tp(", 9, "expected a variable, found the end");
    is("rule: 5 == \n\n// nothing", 10, "expected a condition or a term, found the end");
    is("rule: (1 + 2)@1..2 == 3", 13, "expected no span: of the terms only aggregates have one");
}

/// The deepest tape that is a tree for `show` is one for the notation too, whatever it nests, and one deeper is none for both.
#[test]
fn the_deepest_tapes_come_back() {
    with_stack(deepest_tapes_come_back);
}

fn deepest_tapes_come_back() {
    let span = tape::span(1, 2);
    let tp = || Node::new(10, span, vec![text(43, "q")]);
    let one = || Node::new(21, 1, vec![]);
    let hour = || Node::new(50, 1, vec![]);
    let call = |inner: Node| {
        let arguments = Node::counted(41, 1, vec![inner]);
        Node::new(11, span, vec![Node::new(54, span, vec![text(40, "m"), arguments])])
    };
    type Nested<'a> = (usize, Node, &'a dyn Fn(Node) -> Node);
    // How many levels each has, what is innermost, and what each is around that.
    let nested: [Nested; 12] = [
        (1, tp(), &|inner| Node::new(3, span, vec![inner])),
        (1, tp(), &|inner| Node::new(1, span, vec![inner, tp()])),
        (1, tp(), &|inner| Node::new(2, span, vec![tp(), inner])),
        (1, tp(), &|inner| Node::new(4, span, vec![hour(), inner])),
        (1, tp(), &|inner| Node::new(6, span, vec![tp(), hour(), inner])),
        (1, tp(), &|inner| Node::new(9, span, vec![text(45, "t"), Node::new(46, 0, vec![]), inner])),
        (1, tp(), &|inner| Node::new(13, span, vec![Node::new(42, 0, vec![]), inner, Node::counted(41, 2, vec![])])),
        (1, one(), &|inner| Node::counted(29, 1, vec![inner])),
        (1, one(), &|inner| Node::new(31, 2, vec![one(), inner])),
        (1, one(), &|inner| Node::new(31, 1, vec![inner, one()])),
        (3, one(), &|inner| {
            let compared = Node::new(8, span, vec![Node::new(53, 0, vec![]), inner, one()]);
            Node::new(30, 0, vec![Node::new(35, span, vec![Node::counted(41, 2, vec![]), compared])])
        }),
        (4, tp(), &|inner| call(Node::new(55, 0, vec![inner]))),
    ];
    for (i, (levels, innermost, around)) in nested.into_iter().enumerate() {
        let own = if innermost.children.is_empty() { 1 } else { 2 };
        let often = (reading::DEEPEST - own) / levels;
        let deepest = (0..often).fold(innermost, |inner, _| around(inner));
        assert!(reading::tree(&tape::encode(&deepest), tape::Sort::Any).is_ok(), "{i}");
        assert!(tape::encode(&reread(&deepest)) == tape::encode(&deepest), "{i}");
        let deeper = around(deepest);
        let why = reading::tree(&tape::encode(&deeper), tape::Sort::Any).expect_err("too deep");
        assert!(why.to_string().contains("lies inside 1,100 others"), "{i}: {why}");
        let mistake = notation::parse(&notation::print(&deeper, Spans::Written)).expect_err("too deep");
        assert_eq!(mistake.what, "expected at most 1,100 entries inside one another", "{i}");
    }
}

/// So do longer runs than one number may say.
#[test]
fn long_runs_come_back() {
    let long = Node::counted(29, 1, vec![text(23, &"ü".repeat(20)); 4_096 * 2 + 1]);
    for tree in [Node::with_text(27, &[0; 4_100]), text(23, &"ü".repeat(4_096 * 2)), long] {
        assert!(tape::encode(&reread(&tree)) == tape::encode(&tree));
    }
}

/// What a number repeats is bounded for the whole text, and told once with its place.
#[test]
fn what_is_repeated_is_bounded() {
    let mistakes = |text: &str| {
        let Reading { mistakes, document, .. } = notation::read(text);
        (mistakes.into_iter().map(|mistake| (mistake.start, mistake.what)).collect::<Vec<_>>(), document.rules.len())
    };
    let entries = "expected at most 1,000,000 entries in the whole text".to_string();
    assert_eq!(mistakes("rule: * == [[1; 4096]; 4096]"), (vec![(12, entries.clone())], 0));
    assert_eq!(mistakes("rule: * == [[[1; 4096]; 4096]; 4096]").0, [(13, entries.clone())]);
    // 245 × 4,096 entries are more, wherever they stand: side by side, in several rules, in rules with a mistake.
    let arrays = vec!["1; 4096"; 250].join(", ");
    let (told, rules) = mistakes(&format!("rule: tp(q)\nrule: * == [{arrays}]"));
    assert_eq!((told, rules), (vec![(24 + 9 * 244, entries.clone())], 1));
    let (told, rules) = mistakes(&"rule: * == [1; 4096]\n".repeat(250));
    assert_eq!((told.len(), rules), (1, 243));
    let (told, _) = mistakes(&"rule: * == [1; 4096] ~\n".repeat(250));
    assert_eq!(told.iter().filter(|(_, what)| *what == entries).count(), 1);

    let bytes = "expected at most 16,777,216 bytes of names and strings in the whole text".to_string();
    let (told, rules) = mistakes(&format!("rule: tp(q)\nrule: * == [\"{}\"]", "a\\{4096}".repeat(9_000)));
    assert_eq!((told, rules), (vec![(26 + 8 * 4097, bytes.clone())], 1));
    let strings = "[\"a\\{4096}\"; 4096]";
    assert_eq!(mistakes(&format!("rule: * == {strings}")), (vec![], 1));
    assert_eq!(mistakes(&format!("rule: * == [{strings}, {strings}]")).0, [(12 + strings.len() + 3, bytes.clone())]);
    let (told, rules) = mistakes(&"rule: tp('a\\{4096}')\n".repeat(4_200));
    assert_eq!((told, rules), (vec![(4_096 * 21 + 6, bytes)], 4_096));
}

/// With the stack that the commands have; a test has less.
fn with_stack(test: fn()) {
    let thread = std::thread::Builder::new().stack_size(64 << 20).spawn(test).expect("a thread");
    thread.join().unwrap_or_else(|panic| std::panic::resume_unwind(panic));
}

/// A text nests as deep to the left, where nothing has to be closed, as it does in parentheses.
#[test]
fn what_nests_is_bounded() {
    with_stack(nesting_is_bounded);
}

fn nesting_is_bounded() {
    let most = |text: &str, more: &str, often: usize, end: &str| {
        let mistakes = notation::read(&format!("rule: {text}{}", format!("{more}\n").repeat(often) + end)).mistakes;
        let [mistake] = &mistakes[..] else { panic!("{} mistakes", mistakes.len()) };
        assert!(mistake.what.starts_with("expected less nesting, found `"), "{mistake:?}");
        (mistake.start - 6 - text.len()) / (more.len() + 1)
    };
    let left = most("tp(a)", " && tp(a)", 300_000, "");
    // The first braces are the predicate's own, and a comparison's right side is one deeper.
    assert_eq!(most("P", "{}", 200_000, ""), left + 1);
    assert_eq!(most("* == 1", " - 1", 200_000, ""), left - 1);
    // What a sign or a parenthesis holds is told behind it.
    assert_eq!([most("", "!", 100_000, "tp(q)"), most("", "(", 100_000, "tp(q)")], [left + 1; 2]);
    // What stands in parentheses goes deeper with each operator behind them.
    let inside = format!("{}tp(q){}", "(".repeat(left - 100), ")".repeat(left - 100));
    assert_eq!(most(&inside, " && tp(a)", 1_000, ""), 100);
    assert_eq!(most("", "tp(q) && (", 100_000, "tp(q)"), left.div_ceil(2));
}

/// The mistakes of a text, and how much of the rest is read: definitions, rules, and names of macros that are not.
#[test]
fn behind_a_mistake_it_is_read_on() {
    let read = |text: &str| {
        let reading = notation::read(text);
        let starts: Vec<usize> = reading.mistakes.iter().map(|mistake| mistake.start).collect();
        let document = reading.document;
        (starts, document.definitions.len(), document.rules.len(), reading.unread.concat())
    };
    let is = |text: &str, starts: &[usize], definitions, rules, unread: &str| {
        let wanted = (starts.to_vec(), definitions, rules, unread.as_bytes().to_vec());
        assert_eq!(read(text), wanted, "{text}");
    };
    is("m(x) = tp(?x)\nrule a: m(q)", &[], 1, 1, "");
    // A head that is wrong, and one behind it that is right or wrong too.
    is("m(x = tp(?x)\nk(y) = tp(?y)", &[4], 1, 0, "m");
    is("m(x = tp(?x)\nk(y = tp(?y)\nrule a: tp(q)", &[4, 17], 0, 1, "mk");
    // What lacks its end does not swallow the next item.
    is("m(x) = P{f: ?x\nk(y) = tp(?y)", &[14], 1, 0, "m");
    is("m(x) = tp(?x) &&\nk(y) = tp(?y)", &[16], 1, 0, "m");
    is("rule a: (tp(q)\nrule b: tp(q)", &[14], 0, 1, "");
    is("rule a: P{f: \"x}\nrule b: tp(q)", &[13], 0, 1, "");
    // What cannot begin is the rest of what stands before it.
    is("rule a: tp(q) adn tp(r)\nrule b: tp(q)", &[14], 0, 1, "");
    is("m() = tp(q) = 5 rule b: tp(q)", &[12], 0, 1, "m");
    is("rule a: tp(q)\n) rule b: tp(q)", &[14], 0, 2, "");
    // Behind a `;` an item begins, but not inside an array, as far as that goes.
    is("rule a: P{f: [0; 5000]} && Q{}", &[17], 0, 0, "");
    is("rule a: P{f: [0; 99999999999, m(1); 5000]} && Q{}; tp(q)", &[17], 0, 1, "");
    is("rule a: P{f: [0, 1} ; tp(q)", &[18], 0, 1, "");
    is("rule a: P{f: [m(1}] ; tp(q)", &[17], 0, 1, "");
    is("m(x = tp(?x) ; k(y) = tp(?y)", &[4], 1, 0, "m");
}

/// Every entry has the place in the text that it was read from.
#[test]
fn entries_have_places() {
    let text = "m(x, yy) = P{a.b: ?x, c: [1; 2]} && (count for q: A::B where tp(q)) < -5";
    let document = notation::read(text).document;
    let mut places = Vec::new();
    document.placed.definitions[0].visit(&mut |node| places.push((node.code, &text[node.place.start..node.place.end])));
    let of = |code: u8| places.iter().filter(|(other, _)| *other == code).map(|(_, text)| *text).collect::<Vec<_>>();
    assert_eq!(of(60), [text]);
    assert_eq!(of(40), ["m", "x", "yy", "P", "P", "a.b", "c", "A", "B"]);
    assert_eq!(of(32), ["?x"]);
    assert_eq!(of(21), ["1", "1", "-5"]);
    assert_eq!(of(29), ["[1; 2]"]);
    assert_eq!((of(47), of(43), of(53)), (vec!["A::B"], vec!["q", "q"], vec!["<"]));
}
