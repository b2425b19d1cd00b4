//! Links crates/terminal/out/libterminal.a of this repository.

fn main() {
    let here = std::env::var("CARGO_MANIFEST_DIR").expect("set by cargo");
    let folder = format!("{here}/../../crates/terminal/out");
    println!("cargo:rustc-link-search=native={folder}");
    println!("cargo:rustc-link-lib=static=terminal");
    println!("cargo:rerun-if-changed={folder}/libterminal.a");
}
