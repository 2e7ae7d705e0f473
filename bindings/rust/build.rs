//! Finds libvolankizo.a and links it: in the folder that VOLANKIZO_LIB_DIR names, else where `tools/build` writes it.
use std::env;
use std::path::PathBuf;
use std::process::exit;

const ARCHIVE: &str = "libvolankizo.a";

fn main() {
    println!("cargo:rerun-if-env-changed=VOLANKIZO_LIB_DIR");
    println!("cargo:rerun-if-changed=build.rs");
    must_be_the_archives_target();
    let folder = folder();
    let archive = folder.join(ARCHIVE);
    println!("cargo:rerun-if-changed={}", archive.display());
    if !archive.is_file() {
        fail(&format!(
            "{} is missing: run `tools/build volankizo` first, or name the folder that holds {ARCHIVE} in VOLANKIZO_LIB_DIR",
            archive.display()
        ));
    }
    println!("cargo:rustc-link-search=native={}", folder.display());
    println!("cargo:rustc-link-lib=static=volankizo");
}

/// The archive is made for x86-64 Linux alone; what counts is the target that is built for, not the machine that builds.
fn must_be_the_archives_target() {
    let of = |name: &str| env::var(format!("CARGO_CFG_TARGET_{name}")).unwrap_or_default();
    if (of("ARCH").as_str(), of("OS").as_str(), of("POINTER_WIDTH").as_str()) != ("x86_64", "linux", "64") {
        fail(&format!(
            "{ARCHIVE} is for x86-64 Linux, and this build is for {}: build with --target x86_64-unknown-linux-gnu",
            env::var("TARGET").unwrap_or_else(|_| "another target".into())
        ));
    }
}

/// A folder that is not named from the root is meant from this crate's.
fn folder() -> PathBuf {
    let here = PathBuf::from(env::var_os("CARGO_MANIFEST_DIR").unwrap_or_default());
    let named = here.join(env::var_os("VOLANKIZO_LIB_DIR").unwrap_or_else(|| "../../target/staticlib".into()));
    named.canonicalize().unwrap_or(named)
}

fn fail(why: &str) -> ! {
    eprintln!("volankizo: {why}");
    exit(1)
}
