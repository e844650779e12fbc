//! Finds libentry.a: in the directory that SHEET_LIB_DIR names, else where `rt lib` writes it in crates/entry.

use std::env;
use std::fs;
use std::path::PathBuf;
use std::process::exit;

fn main() {
    println!("cargo:rerun-if-env-changed=SHEET_LIB_DIR");
    let target = env::var("TARGET").unwrap_or_default();
    if !target.starts_with("x86_64-") || !target.contains("-linux-") {
        stop(&format!(
            "libentry.a is for x86-64 Linux, and this build is for {target}"
        ));
    }
    let (dir, from) = match env::var_os("SHEET_LIB_DIR") {
        Some(dir) => (PathBuf::from(dir), "which SHEET_LIB_DIR names"),
        None => (
            PathBuf::from("../../crates/entry/out"),
            "relative to the crate; SHEET_LIB_DIR is not set",
        ),
    };
    let Ok(archive) = fs::canonicalize(dir.join("libentry.a")) else {
        stop(&format!(
            "no libentry.a in {} ({from}). Make it with `rt lib` in crates/entry, or set SHEET_LIB_DIR to the directory that has it",
            dir.display()
        ));
    };
    let dir = archive.parent().expect("a file has a directory");
    println!("cargo:rerun-if-changed={}", archive.display());
    println!("cargo:rustc-link-search=native={}", dir.display());
    println!("cargo:rustc-link-lib=static=entry");
}

fn stop(message: &str) -> ! {
    eprintln!("sheet-checker: {message}");
    exit(1)
}
