//! Links libcube_archive.a from the folder that CUBE_LIB names, or from ../target/staticlib.
use std::path::PathBuf;

fn main() {
    println!("cargo:rerun-if-env-changed=CUBE_LIB");
    println!("cargo:rerun-if-changed=build.rs");
    let folder = std::env::var_os("CUBE_LIB").map(PathBuf::from).unwrap_or_else(|| PathBuf::from("../target/staticlib"));
    let library = folder.join("libcube_archive.a");
    println!("cargo:rerun-if-changed={}", library.display());
    let folder = folder.canonicalize().unwrap_or_else(|e| panic!("no folder {}: {e}; set CUBE_LIB", folder.display()));
    assert!(library.is_file(), "no file {}: run ./build, or set CUBE_LIB", library.display());
    println!("cargo:rustc-link-search=native={}", folder.display());
    println!("cargo:rustc-link-lib=static=cube_archive");
}
