//! How both programs were compiled.

use std::path::Path;
use std::process::Command;

/// What `rattle build --help` says of a static library.
const LIBRARY: &str = "the Rattle kit's clang at -O3";
/// What the kit's entry in the section `.comment` starts with.
const KIT: &str = "rattle ";

const RUSTC: &str = env!("BENCH_RUSTC");
const PROFILE: &str = env!("BENCH_PROFILE");
const OPT_LEVEL: &str = env!("BENCH_OPT_LEVEL");
const CODEGEN_UNITS: &str = env!("BENCH_CODEGEN_UNITS");
const FLAGS: &str = env!("BENCH_FLAGS");
const FEATURES: &str = env!("BENCH_FEATURES");

pub fn for_release() -> bool {
    PROFILE == "release"
}

/// The Rust side, and what else is Rust in this executable.
pub fn rust() -> String {
    let flags = if FLAGS.is_empty() { "none" } else { FLAGS };
    let cpu =
        if FLAGS.contains("target-cpu") { "target-cpu by RUSTFLAGS" } else { "no target-cpu" };
    format!(
        "{RUSTC}, profile {PROFILE}, opt-level {OPT_LEVEL}, codegen-units {CODEGEN_UNITS}, \
         RUSTFLAGS {flags}, {cpu} (features {FEATURES})"
    )
}

/// The kit's entry in the executable's section `.comment`.
fn kit(executable: &Path) -> Option<String> {
    let output = Command::new("readelf").args(["-p", ".comment"]).arg(executable).output().ok()?;
    let text = String::from_utf8_lossy(&output.stdout).into_owned();
    let entries = text.lines().filter_map(|line| line.split_once(']'));
    let mut named = entries.map(|(_, entry)| entry.trim()).filter(|entry| entry.starts_with(KIT));
    named.next().map(str::to_string)
}

pub fn library(executable: &Path) -> String {
    match kit(executable) {
        Some(kit) => format!("{LIBRARY}; section .comment: {kit}"),
        None => format!("{LIBRARY}; section .comment not read"),
    }
}
