//! That this crate and `include/volankizo.h` speak of the same functions, argument by argument, and of the same sizes.
//! That the header's numbers are the library's is `contract`'s to show.
use std::collections::BTreeMap;
use volankizo::layout::*;
use volankizo::{Rounding, MAX_STORED_MODELS};

const HEADER: &str = include_str!("../../../include/volankizo.h");
const DECLARED: &str =
    concat!(include_str!("../src/ffi.rs"), include_str!("../src/ffi/batch.rs"), include_str!("../src/ffi/live.rs"));

/// An argument: its name, and its type in Rust's words.
type Argument = (&'static str, &'static str);

/// The functions that stand in a text, each as the word `volankizo_..` right before a bracket, with what is read of its arguments in their order.
fn functions(
    text: &'static str,
    before: &str,
    read: fn(&'static str) -> Argument,
) -> BTreeMap<&'static str, Vec<Argument>> {
    let declared = |rest: &'static str| {
        let (name, rest) = rest.split_once('(')?;
        let named = name.bytes().all(|byte| byte.is_ascii_lowercase() || byte == b'_');
        let arguments = rest.split_once(')')?.0.split(',').map(str::trim);
        let arguments = arguments.filter(|argument| !["", "void"].contains(argument));
        named.then(|| (name, arguments.map(read).collect()))
    };
    text.split(before).skip(1).filter_map(declared).collect()
}

/// An argument in C: the name is the word at its end.
fn in_c(argument: &'static str) -> Argument {
    let at = argument.rfind([' ', '*']).map_or(0, |last| last + 1);
    let rust = match argument[..at].trim() {
        "const uint8_t *" => "*const u8",
        "uint8_t *" => "*mut u8",
        // a length has 64 bits on every processor; the crate is for one whose usize has as many
        "uint64_t" if argument.ends_with("_len") => "usize",
        "uint32_t" => "u32",
        "uint64_t" => "u64",
        other => panic!("{other}: a type that no function of the header has"),
    };
    (&argument[at..], rust)
}

fn in_rust(argument: &'static str) -> Argument {
    argument.split_once(": ").unwrap_or_else(|| panic!("{argument} has no type"))
}

#[test]
fn the_same_functions() {
    let ours = functions(DECLARED, "fn volankizo_", in_rust);
    assert_eq!(ours, functions(HEADER, "uint64_t volankizo_", in_c));
    assert_eq!(ours.len(), 33);
}

/// The names that the header gives a number, with the numbers.
fn numbers() -> BTreeMap<&'static str, usize> {
    let defined = |line: &'static str| {
        let (name, number) = line.strip_prefix("#define VOLANKIZO_")?.split_once(' ')?;
        Some((name, number.trim().parse().ok()?))
    };
    HEADER.lines().filter_map(defined).collect()
}

#[test]
fn the_same_sizes() {
    let ours = [
        ("RECORD_BYTES", RECORD_BYTES),
        ("POLICY_BYTES", POLICY_BYTES),
        ("ROUNDED_POLICY_BYTES", ROUNDED_POLICY_BYTES),
        ("LONGEST_POLICY_BYTES", LONGEST_POLICY_BYTES),
        ("REQUEST_BYTES", REQUEST_BYTES),
        ("DECISION_BYTES", DECISION_BYTES),
        ("UNCOUNTED_BYTES", UNCOUNTED_BYTES),
        ("UTILITY_BYTES", UTILITY_BYTES),
        ("PLACE_BYTES", PLACE_BYTES),
        ("NEXT_BYTES", NEXT_BYTES),
        ("OFFSET_BYTES", OFFSET_BYTES),
        ("EDIT_BYTES", EDIT_BYTES),
        ("EXPLANATION_BYTES", EXPLANATION_BYTES),
        ("BOUNDARY_BYTES", BOUNDARY_BYTES),
        ("FIELD_HEADER_BYTES", FIELD_HEADER_BYTES),
        ("ROUNDING_FIELD_BYTES", ROUNDING_FIELD_BYTES),
        ("ALLOWANCE_FIELD_BYTES", ALLOWANCE_FIELD_BYTES),
        ("STORED_POLICY_BYTES", STORED_POLICY_BYTES),
        ("REQUEST_FORM_BYTES", REQUEST_FORM_BYTES),
        ("UNIT_TEXT_BYTES", UNIT_TEXT_BYTES),
        ("ASK_TEXT_BYTES", ASK_TEXT_BYTES),
        ("ASK_WORDS_BYTES", ASK_WORDS_BYTES),
        ("MAX_STORED_MODELS", MAX_STORED_MODELS),
        ("ROUNDS_APART", Rounding::Apart.number().into()),
        ("ROUNDS_ONCE", Rounding::Once.number().into()),
    ];
    let numbers = numbers();
    for (name, size) in ours {
        assert_eq!(numbers.get(name), Some(&size), "VOLANKIZO_{name}");
    }
    assert_eq!((stored_form_bytes(0), stored_form_bytes(94)), (36, 130));
    assert_eq!((stored_form_bytes(usize::MAX - 36), stored_form_bytes(usize::MAX)), (usize::MAX, usize::MAX));
}
