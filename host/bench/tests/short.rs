//! Runs of bench-check itself: short ones of all parts, so that it cannot rot, joined builds, and
//! what is refused.

use std::fs;
use std::path::{Path, PathBuf};
use std::process::Command;

/// Small enough for a test; every part is measured.
const SHORT: [&str; 8] = ["--mib", "2", "--reps", "1", "--short-reps", "1", "--most-mib", "2"];

/// An empty directory for the files of one test.
fn directory(name: &str) -> PathBuf {
    let path = Path::new(env!("CARGO_TARGET_TMPDIR")).join("bench-check").join(name);
    let _ = fs::remove_dir_all(&path);
    fs::create_dir_all(&path).unwrap();
    path
}

fn file(directory: &Path, name: &str) -> String {
    directory.join(name).to_str().unwrap().to_string()
}

/// Status, standard output and standard error.
fn bench_check(list: &[&str]) -> (i32, String, String) {
    let done = Command::new(env!("CARGO_BIN_EXE_bench-check")).args(list).output().unwrap();
    let text = |bytes| String::from_utf8(bytes).unwrap();
    (done.status.code().expect("no signal"), text(done.stdout), text(done.stderr))
}

/// All agree. Whether a limit is met goes by time, which must not fail a test: the machine may
/// be busy, and the Rust side of a test is not built for release.
fn agreed(status: i32) -> bool {
    status == 0 || status == 3
}

/// The words that each line of a table's part starts with, under its head of three lines.
fn rows_of(table: &str) -> Vec<Vec<&str>> {
    table.lines().skip(3).map(|line| line.split_whitespace().collect()).collect()
}

#[test]
fn all_parts() {
    let directory = directory("parts");
    let plot = file(&directory, "growth.svg");
    let (status, out, err) = bench_check(&[&SHORT[..], &["--plot", &plot]].concat());
    assert!(agreed(status), "{status}: {err}");
    let tables: Vec<&str> = out.split("\n\n").collect();
    assert_eq!(tables.len(), 6, "{out}");
    assert!(tables[0].contains("image: 2 MiB, 2,097,152 bytes; not cleared"), "{out}");
    let rows = rows_of(tables[1]);
    let names: Vec<&[&str]> = rows.iter().map(|row| &row[..2]).collect();
    let wanted =
        [["4,096", "SHA-256"], ["16,384", "SHA-256"], ["4,096", "SHA-384"], ["16,384", "SHA-384"]];
    assert_eq!(names, wanted);
    assert!(rows.iter().all(|row| row.ends_with(&["met"])), "{out}");
    // Calls; then sizes 1 and 2 MiB, pages met 1, 4 .. 256 and 512, caches 1, 16 .. 65,536.
    let lengths: Vec<usize> = tables[2..].iter().map(|table| rows_of(table).len()).collect();
    assert_eq!(lengths, [20, 2, 6, 5], "{out}");
    let svg = fs::read_to_string(plot).unwrap();
    assert!(svg.starts_with("<svg ") && svg.ends_with("</svg>\n"));
    assert_eq!(svg.matches("<circle").count(), 2 + 6 + 5 + 1);
    assert_eq!(fs::read_dir(directory).unwrap().count(), 1);
}

/// What two runs save is joined: each row once, with both builds.
#[test]
fn saved_rows_are_joined() {
    let directory = directory("saved");
    let files = ["one.txt", "two.txt"].map(|name| file(&directory, name));
    for save in &files {
        let (status, _, err) =
            bench_check(&[&SHORT[..], &["--part", "rows", "--save", save]].concat());
        assert!(agreed(status), "{status}: {err}");
    }
    let (status, out, err) = bench_check(&["--builds", &files[0], &files[1]]);
    assert!(agreed(status), "{status}: {err}");
    assert!(out.starts_with("Whole checks of 2 MiB in 2 builds\none: rustc "), "{out}");
    for start in ["whole check, pages of ", "one  ", "two  ", "range  ", "least favourable  "] {
        let lines = out.lines().filter(|line| line.starts_with(start)).count();
        assert_eq!(lines, 4, "{start}: {out}");
    }
    let verdicts =
        out.matches("limit 1.5: met").count() + out.matches("limit 1.5: not met").count();
    assert_eq!(verdicts, 4, "{out}");
    assert_eq!(out.contains("not met"), status == 3, "{out}");
}

/// What --save writes where both programs take as long in every row, but for the second's median.
fn saved(ratio: f64) -> String {
    let head = "page_bytes\thash\timage_bytes\tsamples\tlibrary_minimum_seconds\t\
                rust_minimum_seconds\tlibrary_median_seconds\trust_median_seconds\trust_build\n";
    let rows = [(4096, "SHA-256", 1.0), (16384, "SHA-256", ratio)];
    let rows = rows.into_iter().chain([(4096, "SHA-384", 1.0), (16384, "SHA-384", 1.0)]);
    let line = |(page, hash, median)| {
        format!("{page}\t{hash}\t1048576\t9\t0.5\t0.5\t{median}\t1\tsome flags\n")
    };
    head.to_string() + &rows.map(line).collect::<String>()
}

/// A build that is too slow is seen, however fast the others are.
#[test]
fn the_least_favourable_build_counts() {
    let directory = directory("least");
    let [met, missed] = ["met", "missed"].map(|name| file(&directory, name));
    fs::write(&met, saved(1.49)).unwrap();
    fs::write(&missed, saved(1.51)).unwrap();
    let (status, out, _) = bench_check(&["--builds", &met]);
    assert_eq!((status, out.matches("limit 1.5: met").count()), (0, 4), "{out}");
    let (status, out, _) = bench_check(&["--builds", &met, &missed, &met]);
    assert_eq!((status, out.matches("not met").count()), (3, 1), "{out}");
    assert!(out.contains("1.510  limit 1.5: not met"), "{out}");
}

/// Ratios of images of different lengths are not joined.
#[test]
fn builds_of_different_images() {
    let directory = directory("images");
    let [one, other] = ["one", "other"].map(|name| file(&directory, name));
    fs::write(&one, saved(1.0)).unwrap();
    fs::write(&other, saved(1.0).replace("1048576", "2097152")).unwrap();
    let (status, _, err) = bench_check(&["--builds", &one, &other]);
    assert_eq!(status, 2);
    assert!(err.contains("images of different lengths"), "{err}");
}

/// The run ends with status 2, says this, and prints no table.
fn fails(list: &[&str], said: &str) {
    let (status, out, err) = bench_check(list);
    assert_eq!((status, out.as_str()), (2, ""), "{list:?}");
    assert!(err.starts_with("bench-check: ") && err.contains(said), "{err}");
}

#[test]
fn usage_errors() {
    for (list, said) in [
        (vec!["--mib"], "--mib wants a value"),
        (vec!["--reps", "0"], "--reps wants a number above 0, not 0"),
        (vec!["--mib", "4096"], "an image has at most 4095 MiB"),
        (vec!["--most-mib", "4096"], "an image has at most 4095 MiB"),
        (vec!["--part", "row"], "no part row"),
        (vec!["--part", "rows", "--plot", "x"], "--plot goes with the part growth"),
        (vec!["--part", "calls", "--save", "x"], "--save goes with the part rows"),
        (vec!["--builds"], "--builds wants files"),
        (vec!["--mib", "2", "--builds"], "no argument --builds"),
        (vec!["more"], "no argument more"),
    ] {
        fails(&list, &format!("{said}\nusage: bench-check "));
    }
}

#[test]
fn files_that_cannot_be_used() {
    let directory = directory("files");
    let [text, nowhere] = ["text", "nowhere/file"].map(|name| file(&directory, name));
    fs::write(&text, "no rows\n").unwrap();
    fails(&["--builds", &text], "is not what --save writes");
    fails(&["--builds", &nowhere], "cannot be read");
    fails(&["--plot", &nowhere], "cannot be written: no such directory");
    fails(&["--save", directory.to_str().unwrap()], "cannot be written: it is a directory");
}

#[test]
fn help() {
    let (status, out, err) = bench_check(&["--help"]);
    assert_eq!((status, err.as_str()), (0, ""));
    assert!(out.starts_with("usage: bench-check ") && out.contains("Exit status 0;"), "{out}");
}
