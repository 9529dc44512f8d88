//! Build script of `plain` and `limited`: finds the folder of the Rust files,
//! which are included where they stand and never copied.

use std::path::PathBuf;

const VARIABLE: &str = "KIRVOGHUS_RUST";
const DEFAULT: &str = "../../shared/docs/src/system-f-omega/src";
const FILES: [&str; 3] = ["core.rs", "errors.rs", "worklist.rs"];

fn main() {
    println!("cargo:rerun-if-env-changed={VARIABLE}");
    let manifest = PathBuf::from(std::env::var("CARGO_MANIFEST_DIR").expect("set by cargo"));
    let reference = manifest.parent().expect("a crate inside `reference`");
    let folder = match std::env::var(VARIABLE) {
        Ok(given) => PathBuf::from(given),
        Err(_) => PathBuf::from(DEFAULT),
    };
    let folder = reference.join(folder);
    for file in FILES {
        let path = folder.join(file);
        if !path.is_file() {
            eprintln!("error: no {file} in {}", folder.display());
            eprintln!("set {VARIABLE} to the folder with {}", FILES.join(", "));
            std::process::exit(1);
        }
        println!("cargo:rerun-if-changed={}", path.display());
    }
    let folder = folder.canonicalize().expect("the folder is there");
    println!("cargo:rustc-env=RUST_FILES={}", folder.display());
}
