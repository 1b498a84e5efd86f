// Shared by the build scripts: where the proved archives are. `tools/staticlib NAME` writes
// libNAME.a to target/staticlib at the repository's top; the environment variable
// TREWIZLOW_STATICLIB_DIR names another directory.

use std::env;
use std::path::PathBuf;

pub const VARIABLE: &str = "TREWIZLOW_STATICLIB_DIR";

/// The directory of the archives. Cargo runs the script anew where the archive changes.
pub fn directory(archive: &str) -> PathBuf {
    println!("cargo::rerun-if-env-changed={VARIABLE}");
    let package = PathBuf::from(env::var_os("CARGO_MANIFEST_DIR").expect("set by cargo"));
    let default = package.join("../../target/staticlib");
    let directory = env::var_os(VARIABLE).map_or(default, PathBuf::from);
    println!("cargo::rerun-if-changed={}", directory.join(archive).display());
    directory
}

/// What to do where an archive is missing.
pub fn missing(archive: &str, directory: &std::path::Path, library: &str) -> String {
    format!(
        "{archive} is not in {}: run `tools/staticlib {library}` at the repository's top (it \
         proves the library first, which takes minutes), or name its directory in {VARIABLE}",
        directory.display()
    )
}
