//! Compiles the anchor with the C compiler, CC or `cc`. Without one it is left
//! out, and a line says so.

use std::path::PathBuf;
use std::process::Command;

const SOURCE: &str = "anchor.c";

fn main() {
    println!("cargo:rerun-if-env-changed=CC");
    println!("cargo:rerun-if-changed={SOURCE}");
    println!("cargo:rustc-check-cfg=cfg(anchor)");
    let compiler = std::env::var("CC").unwrap_or("cc".to_string());
    let folder = PathBuf::from(std::env::var_os("OUT_DIR").expect("set by cargo"));
    let object = folder.join("anchor.o");
    let compiled = Command::new(&compiler)
        .args(["-O2", "-std=c99", "-Wall", "-Wextra", "-c", SOURCE, "-o"])
        .arg(&object)
        .status();
    if compiled.is_ok_and(|status| status.success()) {
        println!("cargo:rustc-cfg=anchor");
        println!("cargo:rustc-link-arg={}", object.display());
    } else {
        println!("cargo:warning={compiler} does not compile {SOURCE}: the anchor is left out");
    }
}
