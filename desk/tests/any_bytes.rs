//! Damaged files: whatever bytes stand in them, they are taken or refused with one line, and nothing panics.
mod common;
use common::{Dice, Folder, MODELS, POLICY, REQUESTS};
use desk::cli::{Files, Writing};
use desk::fault::Warnings;
use desk::open::Desk;
use std::fs;

/// What is put in: marks of CSV, digits, signs, letters, and bytes that are no text.
const PIECES: [&[u8]; 24] = [
    b"\"",
    b"\"\"",
    b",",
    b";",
    b"\t",
    b"\n",
    b"\r\n",
    b"\r",
    b"-",
    b"+",
    b".",
    b"%",
    b"|",
    b"0",
    b"9",
    b"99999999999999999999",
    b" ",
    b"x",
    b"none",
    b"all",
    b"\xef\xbb\xbf",
    b"\xff",
    b"\0",
    "é".as_bytes(),
];

fn damaged(text: &str, dice: &mut Dice) -> Vec<u8> {
    let mut bytes = text.as_bytes().to_vec();
    for _ in 0..1 + dice.below(3) {
        let at = dice.below(bytes.len() as u64 + 1) as usize;
        match dice.below(4) {
            0 => bytes.truncate(at),
            1 => drop(bytes.drain(at..(at + dice.below(6) as usize).min(bytes.len()))),
            _ => drop(bytes.splice(at..at, PIECES[dice.below(24) as usize].iter().copied())),
        }
    }
    bytes
}

#[test]
fn damaged_files_are_taken_or_refused() {
    let (folder, mut dice, mut taken, mut refused) = (Folder::example(), Dice::new(31), 0, 0);
    let path = |file: &str| folder.path.join(file).to_str().expect("a path").to_owned();
    let whole = [("models.csv", MODELS), ("policy.csv", POLICY), ("requests.csv", REQUESTS)];
    for round in 0..3_000 {
        let (file, text) = whole[round % 3];
        fs::write(path(file), damaged(text, &mut dice)).expect("written");
        let writing = Writing { names: None, decimal_comma: dice.below(4) == 0, separator: None };
        let files =
            Files { models: path("models.csv"), policy: path("policy.csv"), requests: path("requests.csv"), writing };
        let mut warnings = Warnings::default();
        match Desk::open(&files, &mut warnings) {
            Ok(desk) => {
                taken += 1;
                desk.explain(desk.requests.requests[0].input).expect("an explanation");
            }
            Err(trouble) => {
                refused += 1;
                let line = trouble.to_string();
                assert!(!line.is_empty() && !line.contains(['\n', '\r', '\0']), "{line:?}");
            }
        }
        assert!(warnings.lines().all(|line| !line.contains(['\n', '\r', '\0'])));
        fs::write(path(file), text).expect("written");
    }
    assert!(taken > 100 && refused > 1_000, "{taken} were taken, {refused} refused");
}

/// The same of the bytes that `unpack` takes.
#[test]
fn damaged_forms_are_taken_or_refused() {
    let folder = Folder::example();
    folder.told(&["pack", "--input", "input.bin"]);
    let (whole, mut dice) = (folder.bytes("input.bin"), Dice::new(32));
    for _ in 0..150 {
        let mut bytes = whole.clone();
        let at = dice.below(bytes.len() as u64) as usize;
        match dice.below(3) {
            0 => bytes.truncate(at),
            1 => bytes.insert(at, dice.any() as u8),
            _ => bytes[at] = dice.any() as u8,
        }
        fs::write(folder.path.join("form.bin"), bytes).expect("written");
        let ran = folder.run(&[
            "unpack",
            "form.bin",
            "--models-out",
            "m.csv",
            "--policy-out",
            "p.csv",
            "--requests-out",
            "r.csv",
        ]);
        match ran.status {
            0 => assert_eq!(ran.err, ""),
            1 => {
                assert!(ran.err.starts_with("desk: form.bin: refused ") && ran.err.lines().count() == 1, "{}", ran.err)
            }
            other => panic!("{other}: {}", ran.err),
        }
    }
}
