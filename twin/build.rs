//! Links the verified library where CHINCHOR_LIB names the folder that holds
//! libchinchor.a. Without it the programs compare the twin with itself.

use std::env;
use std::path::Path;

fn main() {
    println!("cargo::rustc-check-cfg=cfg(linked)");
    println!("cargo::rerun-if-changed=build.rs");
    println!("cargo::rerun-if-env-changed=CHINCHOR_LIB");
    let folder = env::var("CHINCHOR_LIB").unwrap_or_default();
    if folder.is_empty() {
        return;
    }
    // The compiler runs in this crate's folder, the caller may not.
    let folder = Path::new(&folder).canonicalize().expect("CHINCHOR_LIB must name a folder");
    let archive = folder.join("libchinchor.a");
    assert!(archive.is_file(), "CHINCHOR_LIB holds no libchinchor.a");
    println!("cargo::rerun-if-changed={}", archive.display());
    println!("cargo::rustc-link-search=native={}", folder.display());
    println!("cargo::rustc-link-lib=static=chinchor");
    println!("cargo::rustc-cfg=linked");
}
