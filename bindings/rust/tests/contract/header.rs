//! The numbers of the header, as a C compiler reads them.
use std::collections::BTreeMap;
use std::path::PathBuf;
use std::process::{Command, Stdio};
use std::sync::OnceLock;

const HEADER: &str = include_str!("../../../../include/volankizo.h");
const PREFIX: &str = "VOLANKIZO_";
const STRICT: [&str; 4] = ["-Wall", "-Wextra", "-pedantic", "-Werror"];

/// What is defined or listed under a name, from right after its prefix on.
fn defined() -> impl Iterator<Item = &'static str> {
    HEADER.lines().map(str::trim).filter_map(|line| {
        let name = line.strip_prefix("#define ").unwrap_or(line).strip_prefix(PREFIX)?;
        (name != "H" && (line.starts_with('#') || name.contains(" = "))).then_some(name)
    })
}

fn word(text: &'static str) -> &'static str {
    text.split([' ', '(']).next().unwrap_or_default()
}

pub fn names_with_an_argument() -> Vec<&'static str> {
    defined().filter(|text| text[word(text).len()..].starts_with('(')).map(word).collect()
}

fn plain_names() -> Vec<&'static str> {
    defined().filter(|text| !text[word(text).len()..].starts_with('(')).map(word).collect()
}

/// Every name without an argument, and its number.
pub fn values() -> &'static BTreeMap<String, u64> {
    static VALUES: OnceLock<BTreeMap<String, u64>> = OnceLock::new();
    VALUES.get_or_init(|| {
        let asked: Vec<_> =
            plain_names().into_iter().map(|name| (name.to_string(), format!("{PREFIX}{name}"))).collect();
        printed("values", &asked)
    })
}

/// Macros applied to a number, under what was asked.
pub fn applied(asked: &[(&str, u64)]) -> BTreeMap<String, u64> {
    let shown = |(name, word): &(&str, u64)| (format!("{name}({word})"), format!("{PREFIX}{name}(UINT64_C({word}))"));
    printed("applied", &asked.iter().map(shown).collect::<Vec<_>>())
}

/// What a program prints that has each expression's number under its name. C99 and C11 must read the same, without a warning.
fn printed(program: &str, asked: &[(String, String)]) -> BTreeMap<String, u64> {
    let lines: String = asked
        .iter()
        .map(|(name, value)| format!("    printf(\"%s %llu\\n\", \"{name}\", (unsigned long long)({value}));\n"))
        .collect();
    let source =
        format!("#include <stdio.h>\n#include \"volankizo.h\"\n\nint main(void) {{\n{lines}    return 0;\n}}\n");
    let [older, newer] = ["c99", "c11"].map(|standard| read(&ran(&format!("{program}_{standard}"), standard, &source)));
    assert_eq!(older, newer);
    assert_eq!(older.len(), asked.len());
    older
}

fn read(text: &str) -> BTreeMap<String, u64> {
    let pair = |line: &str| line.split_once(' ').map(|(name, number)| (name.to_string(), number.parse().unwrap()));
    text.lines().filter_map(pair).collect()
}

fn include() -> String {
    concat!("-I", env!("CARGO_MANIFEST_DIR"), "/../../include").to_string()
}

fn ran(program: &str, standard: &str, source: &str) -> String {
    let folder = PathBuf::from(env!("CARGO_TARGET_TMPDIR"));
    let (text, binary) = (folder.join(format!("{program}.c")), folder.join(program));
    std::fs::write(&text, source).unwrap();
    let compiler = std::env::var("CC").unwrap_or_else(|_| "cc".into());
    let built = Command::new(&compiler)
        .arg(format!("-std={standard}"))
        .args(STRICT)
        .arg(include())
        .arg(&text)
        .arg("-o")
        .arg(&binary)
        .output()
        .unwrap_or_else(|error| panic!("{compiler}, the C compiler that rustc links with: {error}"));
    assert!(built.status.success(), "{}", String::from_utf8_lossy(&built.stderr));
    let output = Command::new(&binary).output().unwrap();
    assert!(output.status.success());
    String::from_utf8(output.stdout).unwrap()
}

/// The header alone, in C++98 and C++17, without a warning.
pub fn compiles_as_cpp() {
    let compiler = std::env::var("CXX").unwrap_or_else(|_| "c++".into());
    if Command::new(&compiler).arg("--version").stdout(Stdio::null()).status().is_err() {
        println!("no {compiler} here: not tried");
        return;
    }
    let text = PathBuf::from(env!("CARGO_TARGET_TMPDIR")).join("header.cpp");
    std::fs::write(&text, "#include \"volankizo.h\"\n").unwrap();
    for standard in ["-std=c++98", "-std=c++17"] {
        let mut command = Command::new(&compiler);
        let output =
            command.arg(standard).args(STRICT).arg("-fsyntax-only").arg(include()).arg(&text).output().unwrap();
        assert!(output.status.success(), "{}", String::from_utf8_lossy(&output.stderr));
    }
}
