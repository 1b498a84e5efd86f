//! README's recipe for a Mach-O file: the signature that is cut out is the file's.

mod scratch;

use std::fs;
use std::process::Command;

use reference::inputs::InputsPlan;
use scratch::{ended, run, Scratch, TOOL};

const README: &str = concat!(env!("CARGO_MANIFEST_DIR"), "/../../README.md");
const LC_CODE_SIGNATURE: u32 = 0x1D;

/// The recipe's lines of shell, without the indentation.
fn recipe() -> Vec<String> {
    let readme = fs::read_to_string(README).unwrap();
    let (_, rest) = readme.split_once("## A Mach-O file's signature\n").unwrap();
    let section = rest.split("\n## ").next().unwrap();
    section.lines().filter_map(|line| line.strip_prefix("    ")).map(String::from).collect()
}

/// The word behind this one in the first of the lines that has it.
fn after<'a>(lines: &'a [String], word: &str) -> &'a str {
    let behind = |line: &'a String| {
        let mut words = line.split_whitespace();
        words.find(|one| *one == word).and(words.next())
    };
    lines.iter().find_map(behind).unwrap()
}

/// A 64-bit Mach-O file up to its signature: the head and one load command.
fn unsigned(offset: u32, size: u32) -> Vec<u8> {
    let head = [0xFEED_FACF, 0x0100_000C, 0, 2, 1, 16, 0, 0];
    let words = head.into_iter().chain([LC_CODE_SIGNATURE, 16, offset, size]);
    let mut file: Vec<u8> = words.flat_map(u32::to_le_bytes).collect();
    file.resize(offset as usize, 0x5A);
    file
}

/// The file has the numbers that the recipe shows, and the name that it gives the thin file.
/// Then every line that follows is run as it stands.
#[test]
fn as_it_stands() {
    let scratch = Scratch::new("recipe");
    let lines = recipe();
    let [offset, size] = ["dataoff", "datasize"].map(|word| after(&lines, word).parse().unwrap());
    let inputs = InputsPlan::new(0x20400, unsigned(offset, size), 12).build();
    let mut file = [inputs.image, inputs.signature.clone()].concat();
    // Room for the signature, as a linker leaves it: more than it takes.
    assert!(file.len() <= (offset + size) as usize);
    file.resize((offset + size) as usize, 0);
    let thin = scratch.file(after(&lines, "-output"), &file);
    assert_eq!(run(&["show", &thin]).0, 1);
    scratch.file("cache.bin", &inputs.cache);
    fs::create_dir(scratch.path("bin")).unwrap();
    scratch.symlink(TOOL, "bin/trewizlow");
    let from = lines.iter().position(|line| line.starts_with("dataoff=")).unwrap();
    let script = lines[from..].join("\n");
    let mut shell = Command::new("sh");
    let run = shell.args(["-euc", &script]).current_dir(&scratch.0).output().unwrap();
    let (status, out, err) = ended(run);
    assert!(status == 0 && err.is_empty(), "{out} {err}");
    assert!(out.starts_with("blobs\n") && out.contains("\n0 0 accepted: "), "{out}");
    let signature = scratch.read("signature.bin");
    assert_eq!(signature.len(), size as usize);
    assert!(signature.starts_with(&inputs.signature));
}
