//! Links the static libraries, from CORKPADDLE_LIB_DIR or the project's own target folder: `probe` for the field's
//! layer alone, `corkpaddle` for all others.

use std::env;
use std::path::PathBuf;

const LINKED: [&str; 5] = ["FIELD", "JUDGE", "STRIPES", "FILES", "BATCHES"];

fn feature(name: &str) -> bool {
    env::var_os(format!("CARGO_FEATURE_{name}")).is_some()
}

fn main() {
    println!("cargo:rerun-if-env-changed=CORKPADDLE_LIB_DIR");
    if feature("MIRROR") || !LINKED.iter().any(|name| feature(name)) {
        return;
    }
    let here = PathBuf::from(env::var_os("CARGO_MANIFEST_DIR").expect("set by cargo"));
    let folder = match env::var_os("CORKPADDLE_LIB_DIR") {
        Some(folder) => PathBuf::from(folder),
        None => here.join("../../target/staticlib"),
    };
    println!("cargo:rustc-link-search=native={}", folder.display());
    let library = if feature("FIELD") { "probe" } else { "corkpaddle" };
    println!("cargo:rustc-link-lib=static={library}");
    println!("cargo:rerun-if-changed={}", folder.join(format!("lib{library}.a")).display());
}
