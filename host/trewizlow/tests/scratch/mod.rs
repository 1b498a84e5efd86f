//! Runs of the tool, the samples, and a directory for files of one test.

// Each test file uses a part of this.
#![allow(dead_code)]

use std::os::unix::fs::symlink;
use std::path::{Path, PathBuf};
use std::process::{Command, Output, Stdio};

use reference::make::DirectoryPlan;

pub const TOOL: &str = env!("CARGO_BIN_EXE_trewizlow");

pub fn sample(name: &str) -> String {
    format!("{}/../../samples/{name}", env!("CARGO_MANIFEST_DIR"))
}

/// What a check of `signature.bin` prints.
pub const ACCEPTED: &str = "0 6 accepted: trust cache entry 6 lists the directory's hash\n";

/// Status, standard output and standard error.
pub type Run = (i32, String, String);

pub fn ended(done: Output) -> Run {
    let text = |bytes| String::from_utf8(bytes).unwrap();
    (done.status.code().expect("no signal"), text(done.stdout), text(done.stderr))
}

pub fn tool(list: &[&str]) -> Command {
    let mut command = Command::new(TOOL);
    command.args(list).stdin(Stdio::null());
    command
}

/// The tool, ended after a while: a test of what makes it wait fails then, and does not hang.
pub fn limited(list: &[&str]) -> Command {
    let mut command = Command::new("timeout");
    command.args(["30", TOOL]).args(list).stdin(Stdio::null());
    command
}

pub fn run(list: &[&str]) -> Run {
    ended(tool(list).output().unwrap())
}

/// A run in a directory, where relative names are looked up.
pub fn run_in(directory: &Path, list: &[&str]) -> Run {
    ended(tool(list).current_dir(directory).output().unwrap())
}

/// The arguments of a check of these files.
pub fn check<'a>(signature: &'a str, image: &'a str, cache: &'a str) -> Vec<&'a str> {
    vec!["check", "--signature", signature, "--image", image, "--cache", cache]
}

/// The arguments of a recheck of these files.
pub fn recheck<'a>(
    signature: &'a str,
    [start, length]: [&'a str; 2],
    pages: &'a str,
    marks: &'a str,
) -> Vec<&'a str> {
    let mut list = vec!["recheck", "--signature", signature, "--start", start];
    list.extend(["--length", length, "--pages", pages, "--marks", marks]);
    list
}

/// The samples' signature with another directory.
pub fn with_directory(scratch: &Scratch, change: impl Fn(&mut DirectoryPlan)) -> String {
    let mut plan = reference::samples::plan();
    change(&mut plan.directory);
    scratch.file("signature", &plan.covered().build().signature)
}

/// Standard error with one note.
pub fn noted(note: &str) -> String {
    format!("trewizlow: note: {note}\n")
}

/// Every command that tests a signature refuses this one with this line and this note.
pub fn refused_by_all(scratch: &Scratch, signature: &str, refused: &str, note: &str) {
    let (image, cache) = (sample("image.bin"), sample("cache.bin"));
    let marks = scratch.file("marks", &[0, 1, 1]);
    for command in [
        vec!["show", signature],
        check(signature, &image, &cache),
        recheck(signature, ["0", "1"], &image, &marks),
    ] {
        let (status, out, err) = run(&command);
        assert!(status == 1 && out.ends_with(&format!("{refused}\n")), "{out}");
        assert_eq!(err, noted(note));
    }
    assert_eq!(scratch.read("marks"), [0, 1, 1]);
}

/// A check of the samples that writes marks.
pub fn check_to(marks: &str) -> Command {
    let names = ["signature.bin", "image.bin", "cache.bin"].map(sample);
    let mut list = check(&names[0], &names[1], &names[2]);
    list.extend(["--marks", marks]);
    tool(&list)
}

/// A recheck of page 0 of the sample.
pub fn recheck_of(scratch: &Scratch, marks: &str) -> Command {
    let page = &std::fs::read(sample("image.bin")).unwrap()[..4096];
    let (signature, page) = (sample("signature.bin"), scratch.file("page", page));
    tool(&recheck(&signature, ["0", "1"], &page, marks))
}

/// A directory that goes with its files when the test ends.
pub struct Scratch(pub PathBuf);

impl Scratch {
    pub fn new(name: &str) -> Scratch {
        let path = std::env::temp_dir().join(format!("trewizlow-{}-{name}", std::process::id()));
        std::fs::create_dir_all(&path).unwrap();
        Scratch(path)
    }

    pub fn path(&self, name: &str) -> String {
        self.0.join(name).to_str().unwrap().to_string()
    }

    pub fn file(&self, name: &str, bytes: &[u8]) -> String {
        std::fs::write(self.0.join(name), bytes).unwrap();
        self.path(name)
    }

    /// A file that is all hole.
    pub fn sparse(&self, name: &str, length: u64) -> String {
        std::fs::File::create(self.0.join(name)).unwrap().set_len(length).unwrap();
        self.path(name)
    }

    pub fn pipe(&self, name: &str) -> String {
        assert!(Command::new("mkfifo").arg(self.0.join(name)).status().unwrap().success());
        self.path(name)
    }

    pub fn symlink(&self, to: &str, name: &str) -> String {
        symlink(to, self.0.join(name)).unwrap();
        self.path(name)
    }

    pub fn hard_link(&self, to: &str, name: &str) -> String {
        std::fs::hard_link(to, self.0.join(name)).unwrap();
        self.path(name)
    }

    pub fn read(&self, name: &str) -> Vec<u8> {
        std::fs::read(self.0.join(name)).unwrap()
    }

    pub fn exists(&self, name: &str) -> bool {
        self.0.join(name).exists()
    }

    /// The names of all files, so that one left behind is seen.
    pub fn names(&self) -> Vec<String> {
        let entries = std::fs::read_dir(&self.0).unwrap();
        let mut names: Vec<String> =
            entries.map(|entry| entry.unwrap().file_name().into_string().unwrap()).collect();
        names.sort();
        names
    }
}

impl Drop for Scratch {
    fn drop(&mut self) {
        let _ = std::fs::remove_dir_all(&self.0);
    }
}
