//! Links the engine: `libcapi.a`, from the folder `PSPEC_LIB_DIR` or else from
//! `crates/capi/out` of the repository that holds this workspace.

use std::env;
use std::path::{Path, PathBuf};

fn main() {
    println!("cargo:rerun-if-env-changed=PSPEC_LIB_DIR");
    let folder = folder();
    let library = folder.join("libcapi.a");
    println!("cargo:rerun-if-changed={}", library.display());
    if !library.is_file() {
        println!("cargo:warning={} is not there", library.display());
        println!("cargo:warning=make it with 'rt lib' in crates/capi, or set PSPEC_LIB_DIR");
    }
    println!("cargo:rustc-link-search=native={}", folder.display());
    println!("cargo:rustc-link-lib=static=capi");
}

fn folder() -> PathBuf {
    match env::var_os("PSPEC_LIB_DIR") {
        Some(folder) => PathBuf::from(folder),
        None => Path::new(env!("CARGO_MANIFEST_DIR")).join("../../crates/capi/out"),
    }
}
