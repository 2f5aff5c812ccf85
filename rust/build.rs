//! Links libbintolage.a: from the folder that BINTOLAGE_LIB names, or from where `tools/archive` leaves it.
use std::env;
use std::path::PathBuf;

fn main() {
    let beside = PathBuf::from(env::var("CARGO_MANIFEST_DIR").unwrap()).join("../target/staticlib");
    let folder = env::var_os("BINTOLAGE_LIB").map_or(beside, PathBuf::from);
    let library = folder.join("libbintolage.a");
    if !library.exists() {
        panic!(
            "{} is missing: make it by `tools/archive`, or name its folder in BINTOLAGE_LIB",
            library.display()
        );
    }
    println!("cargo:rerun-if-env-changed=BINTOLAGE_LIB");
    println!("cargo:rerun-if-changed={}", library.display());
    println!("cargo:rustc-link-search=native={}", folder.display());
    println!("cargo:rustc-link-lib=static=bintolage");
}
