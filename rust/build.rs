//! Links the static library, from CORKPADDLE_LIB_DIR or the project's own target folder.

use std::env;
use std::path::PathBuf;

fn main() {
    println!("cargo:rerun-if-env-changed=CORKPADDLE_LIB_DIR");
    let here = PathBuf::from(env::var_os("CARGO_MANIFEST_DIR").expect("set by cargo"));
    let folder = match env::var_os("CORKPADDLE_LIB_DIR") {
        Some(folder) => PathBuf::from(folder),
        None => here.join("../target/staticlib"),
    };
    println!("cargo:rustc-link-search=native={}", folder.display());
    println!("cargo:rustc-link-lib=static=corkpaddle");
    println!("cargo:rerun-if-changed={}", folder.join("libcorkpaddle.a").display());
}
