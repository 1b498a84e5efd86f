//! Tells the program how it is built, and with the feature `digest_c` links libdigest_c.a, the
//! proved hash alone, to bench-digest and to the tests.

#[path = "../archive.rs"]
mod archive;

use std::env;
use std::process::Command;

const ARCHIVE: &str = "libdigest_c.a";
/// Between the flags of CARGO_ENCODED_RUSTFLAGS.
const SEPARATOR: &str = "\u{1f}";

/// A variable that cargo sets for build scripts.
fn set(name: &str) -> String {
    env::var(name).unwrap_or_else(|_| panic!("cargo sets {name}"))
}

fn link_digest() {
    let directory = archive::directory(ARCHIVE);
    let path = directory.join(ARCHIVE);
    if !path.exists() {
        let missing = archive::missing(ARCHIVE, &directory, "digest_c");
        println!("cargo::error={missing}");
    }
    println!("cargo::rustc-link-arg-bin=bench-digest={}", path.display());
    println!("cargo::rustc-link-arg-tests={}", path.display());
}

/// The number of codegen units where the environment names one.
fn codegen_units(profile: &str) -> String {
    let section = if profile == "release" { "RELEASE" } else { "DEV" };
    let name = format!("CARGO_PROFILE_{section}_CODEGEN_UNITS");
    println!("cargo::rerun-if-env-changed={name}");
    env::var(name).unwrap_or("default".to_string())
}

fn rustc_version() -> String {
    let output = Command::new(set("RUSTC")).arg("--version").output().expect("rustc runs");
    String::from_utf8(output.stdout).expect("a version in UTF-8").trim().to_string()
}

fn main() {
    println!("cargo::rerun-if-changed=build.rs");
    println!("cargo::rerun-if-env-changed=CARGO_ENCODED_RUSTFLAGS");
    println!("cargo::rerun-if-env-changed=RUSTFLAGS");
    let profile = set("PROFILE");
    for (name, value) in [
        ("RUSTC", rustc_version()),
        ("OPT_LEVEL", set("OPT_LEVEL")),
        ("CODEGEN_UNITS", codegen_units(&profile)),
        ("FLAGS", set("CARGO_ENCODED_RUSTFLAGS").replace(SEPARATOR, " ")),
        ("FEATURES", set("CARGO_CFG_TARGET_FEATURE")),
        ("PROFILE", profile),
    ] {
        println!("cargo::rustc-env=BENCH_{name}={value}");
    }
    if env::var_os("CARGO_FEATURE_DIGEST_C").is_some() {
        link_digest();
    }
}
