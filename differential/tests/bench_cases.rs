//! Document 01's table of bench cases: the lines that the program "cases" prints.

use differential::{bench_cases, compare, upstream};

const LINES: &str = "\
1 0 0 0 4
2 34 7 9 0
3 35 7 9 3
4 35 7 9 0
5 40 0 0 0
6 0 0 0 5
7 47 3 4 6
8 39 0 0 0
9 0 0 0 0
10 0 0 0 0
11 0 0 0 2
12 0 0 0 2
13 46 7 9 2
14 43 0 0 1
15 0 0 0 3
";

#[test]
fn upstream_and_model_print_the_table() {
    upstream::quiet_panics();
    let mut lines = String::new();
    for (i, case) in bench_cases::cases().iter().enumerate() {
        let (answer, _, _) = compare::expected(case).expect("model and upstream agree");
        let [number, start, end, _, charged] = answer.numbers();
        lines += &format!("{} {number} {start} {end} {charged}\n", i + 1);
    }
    assert_eq!(lines, LINES);
}
