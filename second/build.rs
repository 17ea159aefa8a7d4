//! Links the archive of the proved library, build/lib/libdesk.a under the root of the repository.

use std::env;
use std::path::PathBuf;
use std::process::exit;

fn main() {
    let second = env::var_os("CARGO_MANIFEST_DIR").expect("cargo sets CARGO_MANIFEST_DIR");
    let folder = PathBuf::from(second).join("../build/lib");
    let archive = folder.join("libdesk.a");
    println!("cargo:rerun-if-changed={}", archive.display());
    if !archive.is_file() {
        eprintln!("{} is missing: run host/archive first", archive.display());
        exit(1);
    }
    println!("cargo:rustc-link-search=native={}", folder.display());
    println!("cargo:rustc-link-lib=static=desk");
}
