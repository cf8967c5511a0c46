//! Links `libboundary.a` from the directory named by BOUNDARY_DIR; without it the package builds alone.

use std::path::Path;

fn main() {
    println!("cargo:rustc-check-cfg=cfg(boundary)");
    println!("cargo:rerun-if-env-changed=BOUNDARY_DIR");
    println!("cargo:rerun-if-changed=build.rs");
    let Ok(named) = std::env::var("BOUNDARY_DIR") else {
        return;
    };
    let directory = Path::new(&named)
        .canonicalize()
        .unwrap_or_else(|error| panic!("BOUNDARY_DIR={named}: {error}"));
    let archive = directory.join("libboundary.a");
    assert!(archive.is_file(), "no library at {}", archive.display());
    println!("cargo:rerun-if-changed={}", archive.display());
    println!("cargo:rustc-link-search=native={}", directory.display());
    println!("cargo:rustc-link-lib=static=boundary");
    println!("cargo:rustc-cfg=boundary");
}
