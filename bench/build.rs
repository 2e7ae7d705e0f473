//! Links the static library that VOLANKIZO_ARCHIVE names, behind as many bytes of padding as VOLANKIZO_PAD says.
use std::env;
use std::path::Path;

fn main() {
    println!("cargo:rerun-if-env-changed=VOLANKIZO_ARCHIVE");
    println!("cargo:rerun-if-env-changed=VOLANKIZO_PAD");
    let archive = env::var("VOLANKIZO_ARCHIVE").expect("VOLANKIZO_ARCHIVE names libvolankizo.a");
    let folder = Path::new(&archive).parent().expect("the archive lies in a folder");
    println!("cargo:rerun-if-changed={archive}");
    println!("cargo:rustc-link-search=native={}", folder.display());
    println!("cargo:rustc-link-lib=static=volankizo");
    println!("cargo:rustc-env=PAD={}", env::var("VOLANKIZO_PAD").unwrap_or("16".to_string()));
}
