//! Finds libdesk.a, which bin/library makes, and links it statically.

use std::env;
use std::path::PathBuf;

fn main() {
    let beside = || PathBuf::from(env!("CARGO_MANIFEST_DIR")).join("../../crates/desk/out");
    let folder = env::var_os("PLATELAYER_LIB_DIR").map_or_else(beside, PathBuf::from);
    let library = folder.join("libdesk.a");
    assert!(
        library.is_file(),
        "{} is not there: run bin/library, or set PLATELAYER_LIB_DIR to the folder of libdesk.a",
        library.display()
    );
    println!("cargo:rerun-if-env-changed=PLATELAYER_LIB_DIR");
    println!("cargo:rerun-if-changed={}", library.display());
    println!("cargo:rustc-link-search=native={}", folder.display());
    println!("cargo:rustc-link-lib=static=desk");
}
