//! Links the proved recorder: libboard.a from the folder that BOARD_LIB names, else from target/staticlib.

use std::env;

fn main() {
    let here = env::var("CARGO_MANIFEST_DIR").expect("cargo names the package's folder");
    let folder = env::var("BOARD_LIB").unwrap_or(format!("{here}/../target/staticlib"));
    println!("cargo:rerun-if-env-changed=BOARD_LIB");
    println!("cargo:rerun-if-changed={folder}/libboard.a");
    println!("cargo:rustc-link-search=native={folder}");
    println!("cargo:rustc-link-lib=static=board");
}
