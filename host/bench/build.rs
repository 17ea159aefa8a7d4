//! Hands the version of the compiler that builds the benchmarks on to them.

use std::env;
use std::process::Command;

fn main() {
    println!("cargo:rerun-if-changed=build.rs");
    let compiler = env::var_os("RUSTC").unwrap_or_else(|| "rustc".into());
    let said = Command::new(compiler).arg("--version").output();
    let version = match said {
        Ok(output) => String::from_utf8_lossy(&output.stdout).trim().to_string(),
        Err(error) => format!("rustc of unknown version ({error})"),
    };
    println!("cargo:rustc-env=BENCH_RUSTC={version}");
}
