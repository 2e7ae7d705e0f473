//! One version: that of the file `VERSION` at the root, which the library, the header, this crate, the changelog and the programs agree on.
use std::path::{Path, PathBuf};
use volankizo::{ffi, version};

const VERSION: &str = include_str!("../../../VERSION");
const HEADER: &str = include_str!("../../../include/volankizo.h");
const CHANGELOG: &str = include_str!("../../../CHANGELOG.md");

fn root() -> PathBuf {
    Path::new(env!("CARGO_MANIFEST_DIR")).join("../..")
}

/// Its three parts.
fn parts() -> [u64; 3] {
    let parts: Vec<u64> = VERSION.trim_end().split('.').map(|part| part.parse().expect("a number")).collect();
    parts.try_into().expect("major, minor and patch")
}

#[test]
fn the_file_has_one_line() {
    let [major, minor, patch] = parts();
    assert_eq!(VERSION, format!("{major}.{minor}.{patch}\n"));
    assert!(minor < 1_000 && patch < 1_000, "each has three places in the library's number");
}

#[test]
fn the_library() {
    let [major, minor, patch] = parts();
    assert_eq!(ffi::batch::version(), 1_000_000 * major + 1_000 * minor + patch);
    assert_eq!(version(), (major, minor, patch));
}

#[test]
fn the_header() {
    let named = ["MAJOR", "MINOR", "PATCH"].into_iter().zip(parts());
    for (name, part) in named {
        let line = format!("#define VOLANKIZO_VERSION_{name} {part}");
        assert!(HEADER.lines().any(|other| other == line), "{line}");
    }
    let whole = "#define VOLANKIZO_VERSION (VOLANKIZO_VERSION_MAJOR * 1000000 + VOLANKIZO_VERSION_MINOR * 1000 + VOLANKIZO_VERSION_PATCH)";
    assert!(HEADER.lines().any(|line| line == whole), "{whole}");
}

/// This crate, and the desk's where it is there.
#[test]
fn the_crates() {
    assert_eq!(env!("CARGO_PKG_VERSION"), VERSION.trim_end());
    let desk = root().join("desk/Cargo.toml");
    if desk.exists() {
        let text = std::fs::read_to_string(desk).unwrap();
        let named = text.lines().find_map(|line| line.strip_prefix("version = ")).expect("a version of its own");
        assert_eq!(named.trim_matches('"'), VERSION.trim_end(), "desk/Cargo.toml");
    }
}

/// What the locks name of this project: this crate's own, and the desk's, which also names this crate.
#[test]
fn the_locks() {
    let locked = |lock: &str, package: &str| {
        let text = std::fs::read_to_string(root().join(lock)).unwrap();
        let (_, after) = text.split_once(&format!("name = \"{package}\"\nversion = \"")).expect("a package");
        after.split_once('"').expect("its version").0.to_owned()
    };
    for (lock, package) in
        [("bindings/rust/Cargo.lock", "volankizo"), ("desk/Cargo.lock", "volankizo"), ("desk/Cargo.lock", "desk")]
    {
        assert_eq!(locked(lock, package), VERSION.trim_end(), "{package} in {lock}");
    }
}

#[test]
fn the_changelogs_newest_entry() {
    let newest = CHANGELOG.lines().find_map(|line| line.strip_prefix("## ")).expect("an entry");
    assert_eq!(newest.split_whitespace().next(), Some(VERSION.trim_end()));
}

/// What `ask` says on standard error where it isn't called as it should be: its version first.
#[test]
fn the_programs() {
    let source = std::fs::read_to_string(root().join("crates/ask/src/main.rt")).unwrap();
    let (_, after) = source.split_once("rt.stderr().write_all(").expect("words on standard error");
    let (_, said) = after.split_once("b\"").expect("a byte string");
    assert!(said.starts_with(&format!("ask {}, usage: ", VERSION.trim_end())), "{said}");
}
