//! What the figures were made on.

use std::fs;
use std::process::Command;
use std::thread;

/// One line: machine, CPU, cores, compiler, and how busy the machine was in the minute before.
pub fn line() -> String {
    let cores = thread::available_parallelism().map_or(1, |cores| cores.get());
    format!(
        "{}, {}, {cores} cores, {}, load average {}",
        name(),
        cpu(),
        env!("BENCH_RUSTC"),
        load()
    )
}

/// As `uname -m` says.
fn name() -> String {
    match Command::new("uname").arg("-m").output() {
        Ok(output) => String::from_utf8_lossy(&output.stdout).trim().to_string(),
        Err(_) => std::env::consts::ARCH.to_string(),
    }
}

/// The CPU's model; on Arm the kernel gives numbers for the maker and the part in its place.
fn cpu() -> String {
    let said = fs::read_to_string("/proc/cpuinfo").unwrap_or_default();
    let field = |name: &str| {
        let line = said.lines().find(|line| line.starts_with(name))?;
        Some(line.split_once(':')?.1.trim().to_string())
    };
    let arm = || {
        let (maker, part) = (field("CPU implementer")?, field("CPU part")?);
        Some(format!("CPU implementer {maker} part {part}"))
    };
    field("model name")
        .or_else(arm)
        .unwrap_or_else(|| "unknown CPU".to_string())
}

fn load() -> String {
    let said = fs::read_to_string("/proc/loadavg").unwrap_or_default();
    said.split(' ').next().unwrap_or("unknown").to_string()
}
