//! The example programs in C and Rust, compiled as their first lines say,
//! linked with the proved library and run. Without KC_LIB these tests say so and
//! do nothing, and fail where CI is set.

mod common;

use std::collections::BTreeSet;
use std::path::{Path, PathBuf};
use std::process::Command;

/// The repository's folder.
fn root() -> PathBuf {
    Path::new(env!("CARGO_MANIFEST_DIR")).join("..")
}

/// The folder of the proved library.
fn library() -> Option<PathBuf> {
    common::handed_over("KC_LIB")
}

/// Compiles to a program of this name and gives what it prints.
fn printed(name: &str, mut compiler: Command) -> String {
    let program = Path::new(env!("CARGO_TARGET_TMPDIR")).join(name);
    let compiled = compiler.arg("-o").arg(&program).current_dir(root()).output().expect("a compiler");
    assert!(compiled.status.success(), "{}", String::from_utf8_lossy(&compiled.stderr));
    assert!(compiled.stderr.is_empty(), "{}", String::from_utf8_lossy(&compiled.stderr));
    let out = Command::new(&program).output().expect("it runs");
    assert!(out.status.success(), "{}", String::from_utf8_lossy(&out.stderr));
    String::from_utf8(out.stdout).expect("text")
}

fn expected() -> String {
    std::fs::read_to_string(root().join("examples/c/expected.txt")).expect("the expected output")
}

#[test]
fn in_c() {
    let Some(library) = library() else { return };
    let mut gcc = Command::new("gcc");
    gcc.args(["-std=c99", "-Wall", "-Wextra", "-pedantic", "-Werror", "-Iinclude", "examples/c/table.c"]);
    gcc.arg(library.join("libexports.a"));
    assert_eq!(printed("table_c", gcc), expected());
}

#[test]
fn in_rust() {
    let Some(library) = library() else { return };
    let mut rustc = Command::new(std::env::var_os("RUSTC").unwrap_or_else(|| "rustc".into()));
    rustc.args(["-O", "-l", "static=exports", "examples/rust/table.rs", "-L"]).arg(library);
    assert_eq!(printed("table_rust", rustc), expected());
}

/// The words that begin with kc_ in a text, each followed by the mark given.
fn names(text: &str, before: &str) -> BTreeSet<String> {
    text.split(|c: char| !(c.is_ascii_alphanumeric() || "_( \n".contains(c)))
        .flat_map(|part| part.split([' ', '\n']))
        .filter(|word| word.starts_with("kc_") && word.contains(before))
        .map(|word| word.split('(').next().unwrap_or(word).to_string())
        .collect()
}

#[test]
fn the_header_names_every_function() {
    let Some(library) = library() else { return };
    let header = std::fs::read_to_string(root().join("include/zanwethol.h")).expect("the header");
    let out = Command::new("nm").args(["-g", "--defined-only"]).arg(library.join("libexports.a")).output().expect("nm");
    assert!(out.status.success());
    let in_library = names(&String::from_utf8_lossy(&out.stdout), "");
    assert!(in_library.contains("kc_lay_out"));
    assert_eq!(names(&header, "("), in_library);
}
