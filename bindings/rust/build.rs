//! Finds the static library that `rt lib` writes in crates/quargnil and has it linked; it is x86-64 code for Linux.

use std::env;
use std::path::PathBuf;

/// Names the folder that holds libquargnil.a.
const VARIABLE: &str = "QUARGNIL_LIB";

/// Where it stands if the variable isn't set, seen from this crate's folder.
const DEFAULT: &str = "../../crates/quargnil/out";

fn main() {
    println!("cargo:rerun-if-env-changed={VARIABLE}");
    println!("cargo:rustc-check-cfg=cfg(linked)");
    let set = |name: &str, value: &str| env::var(name).as_deref() == Ok(value);
    if !set("CARGO_CFG_TARGET_ARCH", "x86_64") || !set("CARGO_CFG_TARGET_OS", "linux") {
        println!(
            "cargo:warning=the static library is for Linux on x86-64: nothing is linked, and its tests are skipped"
        );
        return;
    }
    let folder = match env::var_os(VARIABLE) {
        Some(folder) => PathBuf::from(folder),
        None => PathBuf::from(env::var_os("CARGO_MANIFEST_DIR").unwrap()).join(DEFAULT),
    };
    let library = folder.join("libquargnil.a");
    println!("cargo:rerun-if-changed={}", library.display());
    if !library.exists() {
        eprintln!("{} is not there.", library.display());
        eprintln!(
            "Run `rt lib` in the folder crates/quargnil, or set {VARIABLE} to the folder that has it."
        );
        std::process::exit(1);
    }
    println!("cargo:rustc-cfg=linked");
    println!("cargo:rustc-link-search=native={}", folder.display());
    println!("cargo:rustc-link-lib=static=quargnil");
}
