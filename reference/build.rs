//! With the feature `proved`, links the static library of the proved reader:
//! KIRVOGHUS_LIB, or `../target/staticlib/libexports.a`.

use std::path::PathBuf;

const VARIABLE: &str = "KIRVOGHUS_LIB";
const DEFAULT: &str = "../target/staticlib/libexports.a";

fn main() {
    println!("cargo:rerun-if-env-changed={VARIABLE}");
    println!("cargo:rerun-if-changed=build.rs");
    if std::env::var_os("CARGO_FEATURE_PROVED").is_none() {
        return;
    }
    let given = std::env::var_os(VARIABLE).unwrap_or(DEFAULT.into());
    let Ok(library) = PathBuf::from(&given).canonicalize() else {
        eprintln!("error: no library {}", given.display());
        eprintln!("run `tools/library.sh` at the top, or set {VARIABLE} to the path of libexports.a");
        std::process::exit(1);
    };
    let folder = library.parent().expect("a file stands in a folder");
    let stem = library
        .file_stem()
        .expect("a file has a name")
        .to_string_lossy();
    let name = stem.strip_prefix("lib").unwrap_or(&stem);
    println!("cargo:rerun-if-changed={}", library.display());
    println!("cargo:rustc-link-search=native={}", folder.display());
    println!("cargo:rustc-link-lib=static={name}");
}
