//! Links libtrewizlow.a, the proved library.

#[path = "../archive.rs"]
mod archive;

const ARCHIVE: &str = "libtrewizlow.a";
const LIBRARY: &str = "trewizlow";

fn main() {
    let directory = archive::directory(ARCHIVE);
    if !directory.join(ARCHIVE).exists() {
        println!("cargo::error={}", archive::missing(ARCHIVE, &directory, LIBRARY));
        return;
    }
    println!("cargo::rustc-link-search=native={}", directory.display());
    println!("cargo::rustc-link-lib=static={LIBRARY}");
}
