//! Declares the crate's source files as modules. They stand in the folder FLATGEOBUF_SOURCES, outside this repository.
use std::{env, fs, path::Path};

const ALLOWED: &str =
    "#[allow(dead_code, unused_imports, unused_variables, unexpected_cfgs, mismatched_lifetime_syntaxes, clippy::all)]";
const MODULES: [&str; 5] = ["feature_generated", "packed_r_tree", "geometry_reader", "geo_trait_impl", "properties_reader"];

fn main() {
    println!("cargo:rerun-if-env-changed=FLATGEOBUF_SOURCES");
    let sources =
        env::var("FLATGEOBUF_SOURCES").expect("FLATGEOBUF_SOURCES names the folder of the crate's sources; oracle/run sets it");
    let here = env::var("CARGO_MANIFEST_DIR").unwrap();
    let mut text = String::new();
    for module in MODULES {
        text += &format!("{ALLOWED}\n#[path = \"{sources}/{module}.rs\"]\npub mod {module};\n");
        println!("cargo:rerun-if-changed={sources}/{module}.rs");
    }
    // Included rather than declared, so that a child module sees the writer's private fields.
    text += &format!("{ALLOWED}\npub mod feature_writer {{\n    include!(\"{sources}/feature_writer.rs\");\n");
    text += &format!("    #[path = \"{here}/src/feature_writer/peek.rs\"]\n    pub mod peek;\n}}\n");
    println!("cargo:rerun-if-changed={sources}/feature_writer.rs");
    fs::write(Path::new(&env::var("OUT_DIR").unwrap()).join("sources.rs"), text).unwrap();
}
