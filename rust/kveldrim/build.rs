//! Finds the proved static library and links it: in the folder KVELDRIM_LIB (an absolute path), else in crates/kveldrim/out.

use std::env;
use std::path::PathBuf;
use std::process::exit;

fn main() {
    println!("cargo:rerun-if-changed=build.rs");
    println!("cargo:rerun-if-env-changed=KVELDRIM_LIB");
    let folder = match env::var_os("KVELDRIM_LIB") {
        Some(folder) => PathBuf::from(folder),
        None => PathBuf::from(env!("CARGO_MANIFEST_DIR")).join("../../crates/kveldrim/out"),
    };
    let library = folder.join("libkveldrim.a");
    println!("cargo:rerun-if-changed={}", library.display());
    if !library.is_file() {
        eprintln!("{} is missing.", library.display());
        eprintln!("Make it with `rt lib` in the folder crates/kveldrim,");
        eprintln!("or name the folder that has it in the environment variable KVELDRIM_LIB.");
        exit(1);
    }
    // For the tests that link it with C.
    println!("cargo:rustc-env=KVELDRIM_ARCHIVE={}", library.display());
    println!("cargo:rustc-link-search=native={}", folder.display());
    println!("cargo:rustc-link-lib=static=kveldrim");
}
