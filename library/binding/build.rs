//! Links libvatgorge.a from the folder that VATGORGE names, or the one that `library/build` built last.

fn main() {
    println!("cargo:rerun-if-env-changed=VATGORGE");
    let folder = std::env::var("VATGORGE").unwrap_or_else(|_| {
        let here = std::env::var("CARGO_MANIFEST_DIR").expect("cargo names it");
        format!("{here}/../../crates/vatgorge/out")
    });
    println!("cargo:rustc-link-search=native={folder}");
    println!("cargo:rustc-link-lib=static=vatgorge");
    println!("cargo:rerun-if-changed={folder}/libvatgorge.a");
}
