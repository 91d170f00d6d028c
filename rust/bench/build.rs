//! Links GLib: as pkg-config says, else by its usual names.

use std::process::Command;

fn main() {
    println!("cargo:rerun-if-changed=build.rs");
    let flags = Command::new("pkg-config")
        .args(["--libs", "gio-2.0"])
        .output()
        .ok()
        .filter(|told| told.status.success())
        .and_then(|told| String::from_utf8(told.stdout).ok())
        .unwrap_or("-lgio-2.0 -lgobject-2.0 -lglib-2.0".into());
    for flag in flags.split_whitespace() {
        if let Some(folder) = flag.strip_prefix("-L") {
            println!("cargo:rustc-link-search=native={folder}");
        }
        if let Some(library) = flag.strip_prefix("-l") {
            println!("cargo:rustc-link-lib={library}");
        }
    }
}
