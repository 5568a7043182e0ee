//! Links the archive that NEUKOLJA_ARCHIVE names, if it names one, and says which operations it has: `cfg(archive_has = "check")`
//! and so on. Without it, or with `none`, the model alone is compared with upstream.

use std::path::Path;

#[rustfmt::skip]
const OPERATIONS: [&str; 16] = [
    "check", "registry", "substitute", "expand", "preview", "check_library", "check_at", "judge", "merge", "older",
    "profile", "provider", "argument_to_term", "term_to_argument", "sheet_open", "sheet_next",
];

fn main() {
    println!("cargo::rerun-if-changed=build.rs");
    println!("cargo::rerun-if-env-changed=NEUKOLJA_ARCHIVE");
    println!("cargo::rustc-check-cfg=cfg(archive)");
    println!("cargo::rustc-check-cfg=cfg(archive_has, values({}))", OPERATIONS.map(|o| format!("{o:?}")).join(", "));
    let named = std::env::var("NEUKOLJA_ARCHIVE").unwrap_or_default();
    if ["", "none"].contains(&&named[..]) {
        return;
    }
    let archive = Path::new(&named).canonicalize().unwrap_or_else(|e| panic!("NEUKOLJA_ARCHIVE is {named}: {e}"));
    let folder = archive.parent().expect("a file is in a folder");
    assert!(archive.ends_with("libneukolja.a"), "the archive's name is libneukolja.a");
    println!("cargo::rerun-if-changed={}", archive.display());
    println!("cargo::rustc-link-search=native={}", folder.display());
    println!("cargo::rustc-link-lib=static=neukolja");
    println!("cargo::rustc-cfg=archive");
    println!("cargo::rustc-env=ARCHIVE_LINKED={}", archive.display());
    let index = index(&std::fs::read(&archive).expect("the archive can be read"));
    for name in OPERATIONS.into_iter().filter(|name| index.contains(&format!("neukolja_{name}"))) {
        println!("cargo::rustc-cfg=archive_has={name:?}");
    }
}

/// The functions that an archive exports: its first member has their number, an offset for each, and their names with a
/// zero behind each.
fn index(archive: &[u8]) -> Vec<String> {
    let member = archive.strip_prefix(b"!<arch>\n").expect("an archive");
    let (header, rest) = member.split_at(60);
    assert!(header.starts_with(b"/ "), "the archive has an index");
    let size = std::str::from_utf8(&header[48..58]).expect("digits").trim().parse::<usize>().expect("a size");
    let (count, rest) = rest[..size].split_at(4);
    let count = u32::from_be_bytes(count.try_into().expect("4 bytes")) as usize;
    let names = rest[4 * count..].split(|b| *b == 0).take(count);
    names.map(|name| String::from_utf8(name.to_vec()).expect("a name")).collect()
}
