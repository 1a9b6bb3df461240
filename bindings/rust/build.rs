//! Links libcapi.a: the file that XDVDFS_LIB names, or the one that `(cd crates/capi && rt lib)` writes in this repository.
use std::path::{Path, PathBuf};

fn main() {
    let own = Path::new(env!("CARGO_MANIFEST_DIR")).join("../../crates/capi/out/libcapi.a");
    let lib = std::env::var_os("XDVDFS_LIB").map_or(own, PathBuf::from);
    assert!(lib.exists(), "no {}: run `(cd crates/capi && rt lib)`, or set XDVDFS_LIB", lib.display());
    let stem = lib.file_stem().and_then(|s| s.to_str()).and_then(|s| s.strip_prefix("lib")).expect("a file libNAME.a");
    println!("cargo:rustc-link-search=native={}", lib.parent().expect("a folder").display());
    println!("cargo:rustc-link-lib=static={stem}");
    println!("cargo:rerun-if-env-changed=XDVDFS_LIB");
    println!("cargo:rerun-if-changed={}", lib.display());
}
