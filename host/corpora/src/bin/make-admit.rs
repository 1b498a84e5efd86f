//! Writes the inputs of document 01's small program and what it must print, by the
//! reference: make-admit CRATES, into three folders of CRATES.

use std::fs;
use std::io;
use std::path::Path;
use std::process::ExitCode;

use corpora::admit::{files, runs, ACCEPTED, TOO_MANY, USAGE};
use corpora::file::Writer;
use reference::small;

/// Writes some of the files into a folder's data.
fn write_files(data: &Path, wanted: impl Fn(&str) -> bool) -> io::Result<()> {
    fs::create_dir_all(data)?;
    let wanted = files().into_iter().filter(|(name, _)| wanted(name));
    wanted.into_iter().try_for_each(|(name, bytes)| fs::write(data.join(name), bytes))
}

/// What the program prints where these files lie.
fn printed(data: &Path, files: [&str; 3]) -> String {
    let [signature, image, cache] = files.map(|name| data.join(name));
    small::run(&signature, &image, &cache)
}

/// Arguments, a line each.
fn lines(arguments: &[&str]) -> String {
    arguments.iter().map(|argument| format!("{argument}\n")).collect()
}

/// The accepted run.
fn write_accepted(folder: &Path) -> io::Result<()> {
    let data = folder.join("data");
    write_files(&data, |name| ACCEPTED.contains(&name))?;
    fs::write(folder.join("args"), lines(&ACCEPTED))?;
    fs::write(folder.join("stdout"), printed(&data, ACCEPTED))
}

/// A run with one argument too many.
fn write_usage(folder: &Path) -> io::Result<()> {
    fs::create_dir_all(folder)?;
    fs::write(folder.join("args"), lines(&TOO_MANY))?;
    fs::write(folder.join("stdout"), USAGE)
}

/// All other cases, from one corpus.
fn write_cases(folder: &Path) -> io::Result<()> {
    let data = folder.join("data");
    write_files(&data, |_| true)?;
    let (mut writer, mut corpus, mut stdout) = (Writer::default(), Vec::new(), String::new());
    for run in runs() {
        writer.write(&run.case(), &mut corpus);
        stdout += &format!("{}: {}", run.name, printed(&data, run.files));
    }
    fs::write(data.join("corpus"), corpus)?;
    fs::write(folder.join("stdout"), stdout)
}

fn write(crates: &Path) -> io::Result<()> {
    write_accepted(&crates.join("admit"))?;
    write_usage(&crates.join("admit_usage"))?;
    write_cases(&crates.join("admit_cases"))
}

fn main() -> ExitCode {
    let arguments: Vec<_> = std::env::args_os().skip(1).collect();
    let [crates] = arguments.as_slice() else {
        eprintln!("usage: make-admit CRATES");
        return ExitCode::from(2);
    };
    match write(Path::new(crates)) {
        Ok(()) => ExitCode::SUCCESS,
        Err(error) => {
            eprintln!("make-admit: {}: {error}", crates.to_string_lossy());
            ExitCode::FAILURE
        }
    }
}
