//! Names the two files of the Rust where they lie; nothing is copied into the repository.
use std::path::PathBuf;
use std::{env, fs};

fn main() {
    println!("cargo:rerun-if-env-changed=VOLANKIZO_RUST");
    let folder =
        env::var("VOLANKIZO_RUST").expect("VOLANKIZO_RUST names the folder with kernel.rs and counterfactual.rs");
    let folder = fs::canonicalize(&folder).unwrap_or_else(|e| panic!("{folder}: {e}"));
    let mut modules = String::new();
    for name in ["kernel", "counterfactual"] {
        let file = folder.join(format!("{name}.rs"));
        assert!(file.is_file(), "{} is missing", file.display());
        println!("cargo:rerun-if-changed={}", file.display());
        modules.push_str(&format!("#[path = {:?}]\npub mod {name};\n", file));
    }
    let out = PathBuf::from(env::var("OUT_DIR").expect("cargo sets OUT_DIR"));
    fs::write(out.join("modules.rs"), modules).expect("the list of modules is written");
}
