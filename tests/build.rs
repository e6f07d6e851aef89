//! With the feature `library`: links the static libraries.

use std::env;

const FOLDER: &str = "../target/staticlib";

fn main() {
    println!("cargo::rerun-if-changed=build.rs");
    if env::var_os("CARGO_FEATURE_LIBRARY").is_some() {
        println!("cargo::rustc-link-search=native={}/{FOLDER}", env::var("CARGO_MANIFEST_DIR").unwrap());
        for library in ["rulesheet", "rulehub"] {
            println!("cargo::rerun-if-changed={FOLDER}/lib{library}.a");
            println!("cargo::rustc-link-lib=static={library}");
        }
    }
}
