//! Links the static library that XDVDFS_LIB names.
use std::path::Path;

fn main() {
    let lib = std::env::var("XDVDFS_LIB").expect("XDVDFS_LIB names the static library; oracle/build sets it");
    let folder = Path::new(&lib).parent().expect("a folder");
    let name = Path::new(&lib).file_stem().and_then(|s| s.to_str()).and_then(|s| s.strip_prefix("lib")).expect("libNAME.a");
    println!("cargo:rustc-link-search=native={}", folder.display());
    println!("cargo:rustc-link-lib=static={name}");
    println!("cargo:rerun-if-env-changed=XDVDFS_LIB");
    println!("cargo:rerun-if-changed={lib}");
}
