//! Links the archive of the proved library: `libdesk.a` in `build/lib` of the repository, or in the folder that MINNOW_LIB names.

use std::env;
use std::path::PathBuf;
use std::process::exit;

fn main() {
    println!("cargo:rerun-if-env-changed=MINNOW_LIB");
    println!("cargo:rerun-if-changed=build.rs");
    let folder = library_folder();
    let archive = folder.join("libdesk.a");
    println!("cargo:rerun-if-changed={}", archive.display());
    if !archive.is_file() {
        eprintln!("{} is missing: run host/archive first", archive.display());
        exit(1);
    }
    println!("cargo:rustc-link-search=native={}", folder.display());
    println!("cargo:rustc-link-lib=static=desk");
}

fn library_folder() -> PathBuf {
    if let Some(folder) = env::var_os("MINNOW_LIB") {
        return PathBuf::from(folder);
    }
    let manifest = env::var_os("CARGO_MANIFEST_DIR").expect("cargo sets CARGO_MANIFEST_DIR");
    let root = PathBuf::from(manifest).join("../..");
    root.canonicalize().unwrap_or(root).join("build/lib")
}
