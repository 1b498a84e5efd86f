//! The files of crates/admit, crates/admit_usage and crates/admit_cases are those that
//! make-admit writes, and the reference's small program prints the lines that go with them.

use std::collections::BTreeSet;
use std::path::{Path, PathBuf};

use corpora::admit::{files, runs, Run, ACCEPTED, TOO_MANY, USAGE};
use corpora::case::{CACHE, IMAGE, SIGNATURE};
use corpora::file::Reader;
use reference::cache::ENTRY;
use reference::small::{self, CACHE_MOST, IMAGE_MOST, SIGNATURE_MOST};

fn folder(name: &str) -> PathBuf {
    Path::new(env!("CARGO_MANIFEST_DIR")).join("../../crates").join(name)
}

#[test]
fn files_are_as_made() {
    for (name, bytes) in files() {
        let read = |crate_name| std::fs::read(folder(crate_name).join("data").join(name)).unwrap();
        assert!(read("admit_cases") == bytes, "{name} differs");
        assert!(!ACCEPTED.contains(&name) || read("admit") == bytes, "admit's {name} differs");
    }
}

/// Reads the corpus as the program does, and runs what its fields name.
#[test]
fn cases_print_their_lines() {
    let data = folder("admit_cases").join("data");
    let corpus = std::fs::read(data.join("corpus")).unwrap();
    let stdout = std::fs::read_to_string(folder("admit_cases").join("stdout")).unwrap();
    let (mut reader, mut at) = (Reader::default(), 0);
    for (line, run) in stdout.split_inclusive('\n').zip(runs()) {
        let (head, next) = reader.read(&corpus, at).expect("a whole case");
        let path = |field: usize| data.join(std::str::from_utf8(reader.fields()[field]).unwrap());
        let printed = small::run(&path(SIGNATURE), &path(IMAGE), &path(CACHE));
        assert_eq!(line, format!("{}: {printed}", head.name));
        assert_eq!(head.name, run.name);
        at = next;
    }
    assert_eq!(at, corpus.len());
    assert_eq!(stdout.lines().count(), runs().len());
}

#[test]
fn accepted_run() {
    let data = folder("admit").join("data");
    let [signature, image, cache] = ACCEPTED.map(|name| data.join(name));
    let printed = small::run(&signature, &image, &cache);
    assert!(printed.starts_with("0 "));
    assert_eq!(std::fs::read_to_string(folder("admit").join("stdout")).unwrap(), printed);
}

/// A program that counts its arguments only up to three would take the first three here.
#[test]
fn usage_run() {
    assert_eq!(TOO_MANY.len(), ACCEPTED.len() + 1);
    let read = |name| std::fs::read_to_string(folder("admit_usage").join(name)).unwrap();
    assert!(read("args").lines().eq(TOO_MANY));
    assert_eq!(read("stdout"), USAGE);
}

/// The lengths of a run's files that the accepted run does not have, each with its limit.
fn lengths(run: &Run) -> Vec<(u64, u64)> {
    let files = files();
    let length = |name| files.iter().find(|(file, _)| *file == name).unwrap().1.len() as u64;
    let limits = [SIGNATURE_MOST, IMAGE_MOST, CACHE_MOST];
    let other = run.files.into_iter().zip(limits).filter(|(name, _)| !ACCEPTED.contains(name));
    other.map(|(name, limit)| (length(name), limit)).collect()
}

/// What a name says of a limit is so.
#[test]
fn names_tell_the_limits() {
    let runs = runs();
    for run in runs.iter().filter(|run| run.name.contains("limit")) {
        let over = u64::from(run.name.ends_with(" over the limit"));
        for (length, limit) in lengths(run) {
            assert_eq!(length, limit + over, "{}", run.name);
        }
    }
    let named = |name: &str| runs.iter().find(|run| run.name == name).expect(name);
    let cache = lengths(named("longest cache that is well formed"));
    assert!(matches!(cache[..], [(length, limit)] if length <= limit && limit < length + ENTRY));
    let all = lengths(named("longest files that are accepted"));
    assert_eq!(all, [(SIGNATURE_MOST, SIGNATURE_MOST), (IMAGE_MOST, IMAGE_MOST), cache[0]]);
}

/// Every file is used, no name is given twice, and the limits are met exactly.
#[test]
fn runs_and_files() {
    let runs = runs();
    let names: BTreeSet<&str> = runs.iter().map(|run| run.name.as_str()).collect();
    assert_eq!(names.len(), runs.len());
    let used: BTreeSet<&str> = runs.iter().flat_map(|run| run.files).collect();
    let unused = files().into_iter().find(|(name, _)| !used.contains(name));
    assert_eq!(unused.map(|(name, _)| name), None);
    for (name, bytes) in files() {
        let stated = name.rsplit('-').next().and_then(|length| length.parse::<usize>().ok());
        assert!(stated.is_none_or(|length| length == bytes.len()), "{name}");
    }
}
