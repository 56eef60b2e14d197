//! Where KC_LIB names a folder, the proved static library in it is there to be
//! linked, and the tests that compare with it are compiled.

fn main() {
    println!("cargo:rustc-check-cfg=cfg(proved)");
    println!("cargo:rerun-if-changed=build.rs");
    println!("cargo:rerun-if-env-changed=KC_LIB");
    if let Some(folder) = std::env::var("KC_LIB").ok().filter(|folder| !folder.is_empty()) {
        println!("cargo:rerun-if-changed={folder}/libexports.a");
        println!("cargo:rustc-link-search=native={folder}");
        println!("cargo:rustc-cfg=proved");
    }
}
