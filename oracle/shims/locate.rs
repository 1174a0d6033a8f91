//! Finds the original's files at build time and writes module lines that take them in from where they stand.

use std::{env, fs, path::PathBuf};

/// Names the folder with the original's files.
const VARIABLE: &str = "ICICLE_SRC";

/// Where the files stand if the variable isn't set, seen from a shim's own folder.
const DEFAULT: &str = "../../../../shared/docs";

fn folder() -> PathBuf {
    match env::var_os(VARIABLE) {
        Some(path) => PathBuf::from(path),
        None => PathBuf::from(env::var_os("CARGO_MANIFEST_DIR").unwrap()).join(DEFAULT),
    }
}

/// Writes OUT_DIR/modules.rs with one public module a file; no copy of a file is made.
pub fn write_modules(modules: &[(&str, &str)]) {
    println!("cargo:rerun-if-env-changed={VARIABLE}");
    let mut lines = String::new();
    for (module, file) in modules {
        let path = folder().join(file);
        let path = match path.canonicalize() {
            Ok(path) => path,
            Err(e) => {
                eprintln!("{}: {e}", path.display());
                eprintln!("Set {VARIABLE} to the folder that holds the original's {file}.");
                std::process::exit(1);
            }
        };
        println!("cargo:rerun-if-changed={}", path.display());
        lines += &format!("#[path = {path:?}]\npub mod {module};\n");
    }
    let out = PathBuf::from(env::var_os("OUT_DIR").unwrap());
    fs::write(out.join("modules.rs"), lines).unwrap();
}
