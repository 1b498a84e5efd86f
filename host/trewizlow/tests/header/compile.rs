//! C and C++ sources compiled against the header and linked with the proved archive.

// The rule by which the build scripts find the archive.
#[allow(dead_code)]
#[path = "../../../archive.rs"]
mod archive;

use std::path::{Path, PathBuf};
use std::process::{Command, Stdio};

/// What every source must be clean under.
const STRICT: [&str; 4] = ["-Wall", "-Wextra", "-Wpedantic", "-Werror"];

/// A file of the repository, by its path from the repository's top.
pub fn in_repository(path: &str) -> PathBuf {
    Path::new(env!("CARGO_MANIFEST_DIR")).join("../..").join(path)
}

/// A compiler with the language that it takes its sources for.
#[derive(Clone, Copy, Debug)]
pub struct Compiler {
    program: &'static str,
    language: &'static str,
    standard: &'static str,
}

pub const fn c(standard: &'static str) -> Compiler {
    Compiler { program: "cc", language: "c", standard }
}

pub const fn cpp(standard: &'static str) -> Compiler {
    Compiler { program: "c++", language: "c++", standard }
}

/// The compilers of a standard: the system's, which must be there, and clang where it is.
pub fn installed(standard: &'static str) -> Vec<Compiler> {
    let (system, clang) =
        if standard.contains("++") { (cpp(standard), "clang++") } else { (c(standard), "clang") };
    let there = Command::new(clang).arg("--version").output().is_ok();
    let clang = there.then_some(Compiler { program: clang, ..system });
    [system].into_iter().chain(clang).collect()
}

impl Compiler {
    /// Compiles and links a program, with the header in this directory; the compiler's
    /// messages where it fails.
    pub fn program(self, include: &Path, sources: &[&Path], out: &str) -> Result<(), String> {
        let library = archive::directory("libtrewizlow.a").join("libtrewizlow.a");
        let done = Command::new(self.program)
            .args(STRICT)
            .args([self.standard, "-x", self.language, "-I"])
            .arg(include)
            .args(sources)
            .args(["-x", "none"])
            .arg(library)
            .args(["-o", out])
            .output()
            .unwrap_or_else(|error| panic!("{}: {error}", self.program));
        let messages = String::from_utf8_lossy(&done.stderr).into_owned();
        done.status.success().then_some(()).ok_or(messages)
    }

    /// The same with the repository's header; it must succeed.
    pub fn build(self, sources: &[&Path], out: &str) {
        let built = self.program(&in_repository("include"), sources, out);
        built.unwrap_or_else(|messages| panic!("{self:?}: {messages}"));
    }
}

/// Exit status and standard output of a program. What it says on standard error is shown
/// where the test fails.
pub fn run(program: &str, arguments: &[&str]) -> (i32, String) {
    let done = Command::new(program).args(arguments).stdin(Stdio::null()).output().unwrap();
    eprint!("{}", String::from_utf8_lossy(&done.stderr));
    (done.status.code().expect("no signal"), String::from_utf8(done.stdout).unwrap())
}
