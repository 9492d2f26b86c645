//! Links libnosingcatnip.a from the folder NOSINGCATNIP_LIB_DIR, else from target/staticlib at the repository's root.
use std::env;
use std::path::{Path, PathBuf};

fn main() {
    println!("cargo:rerun-if-env-changed=NOSINGCATNIP_LIB_DIR");
    let folder = match env::var_os("NOSINGCATNIP_LIB_DIR") {
        Some(path) => PathBuf::from(path),
        None => Path::new(env!("CARGO_MANIFEST_DIR")).join("../../target/staticlib"),
    };
    let archive = folder.join("libnosingcatnip.a");
    assert!(archive.is_file(), "{} is not there; `bindings/build` makes it", archive.display());
    println!("cargo:rerun-if-changed={}", archive.display());
    // For the tests, which link programs in C.
    println!("cargo:rustc-env=NOSINGCATNIP_LIB={}", archive.display());
    println!("cargo:rustc-link-search=native={}", folder.display());
    println!("cargo:rustc-link-lib=static=nosingcatnip");
}
