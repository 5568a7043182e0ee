//! Generated names are equal only if binder, start and file number are.

use differential::model::generated_name;
use std::collections::BTreeSet;

#[test]
fn names_tell_binder_start_and_file() {
    let binders =
        ["", "t", "t$7", "t$7#1", "t#1", "#", "$", "$7", "7", "t$", "t$7#", "1", "t$71", "t$7#11", "\u{fc}$1"];
    let starts = [0, 1, 7, 9, 10, 11, 17, 71, 711, 1_000_000_000, 4_294_967_295];
    let files = [0, 1, 7, 9, 10, 11, 17, 71, 111, 65_535];
    let mut names = BTreeSet::new();
    for binder in binders {
        for start in starts {
            for file in files {
                let name = generated_name(binder.as_bytes(), start, file);
                assert!(name.len() <= binder.len() + if file == 0 { 11 } else { 17 });
                assert!(names.insert(name), "{binder} {start} {file}");
            }
        }
    }
}
