//! Links the proved library: the archive that `tools/archive` leaves in
//! target/staticlib, or the one in the folder that TILES_LIBRARY names. Without one
//! `cargo check` goes on, and nothing can be linked.

use std::path::{Path, PathBuf};

fn main() {
    println!("cargo:rerun-if-env-changed=TILES_LIBRARY");
    let folder = match std::env::var_os("TILES_LIBRARY") {
        Some(named) if !named.is_empty() => PathBuf::from(named),
        _ => Path::new(env!("CARGO_MANIFEST_DIR")).join("../target/staticlib"),
    };
    let archive = folder.join("libexports.a");
    println!("cargo:rerun-if-changed={}", archive.display());
    if !archive.is_file() {
        println!("cargo:warning=no {}: run tools/archive first", archive.display());
    }
    println!("cargo:rustc-link-search=native={}", folder.display());
    println!("cargo:rustc-link-lib=static=exports");
}
