//! Links the static library at CORALAUGER_LIB, and after it the one at CORALAUGER_C, through which it asks for memory.

use std::env;
use std::path::Path;

fn main() {
    println!("cargo:rerun-if-changed=build.rs");
    link("CORALAUGER_LIB");
    link("CORALAUGER_C");
}

/// Links the static library whose path stands in an environment variable.
fn link(variable: &str) {
    println!("cargo:rerun-if-env-changed={variable}");
    let value = env::var(variable).unwrap_or_else(|_| panic!("{variable} is to be the path of a static library"));
    let path = Path::new(&value).canonicalize().unwrap_or_else(|error| panic!("{value}: {error}"));
    println!("cargo:rerun-if-changed={}", path.display());
    println!("cargo:rustc-link-search=native={}", path.parent().unwrap().display());
    println!("cargo:rustc-link-lib=static:+verbatim={}", path.file_name().unwrap().to_str().unwrap());
}
