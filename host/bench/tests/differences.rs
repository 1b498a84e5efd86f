//! A program that answers or marks otherwise than the other one ends a run with status 1.

mod ran;

use bench::check::{Program, Programs};
use trewizlow::{check, recheck, Answer, Lent, Verdict};

/// Four whole checks, accepted.
const ROWS: [&str; 6] = ["--part", "rows", "--mib", "1", "--reps", "1"];
/// Rechecks come first.
const CALLS: [&str; 8] = ["--part", "calls", "--mib", "1", "--reps", "1", "--short-reps", "1"];

fn wrong_last_mark(lent: &Lent, marks: &mut [u8]) -> Verdict {
    let verdict = check(lent, marks);
    marks.last_mut().into_iter().for_each(|mark| *mark ^= 1);
    verdict
}

fn wrong_place(lent: &Lent, marks: &mut [u8]) -> Verdict {
    let verdict = check(lent, marks);
    Verdict { place: verdict.place + 1, ..verdict }
}

fn wrong_number(lent: &Lent, marks: &mut [u8]) -> Verdict {
    Verdict { number: 31, ..check(lent, marks) }
}

/// Right but where a page differs: page 0 is said to, and marked.
fn wrong_page(lent: &Lent, marks: &mut [u8]) -> Verdict {
    let verdict = check(lent, marks);
    if verdict.number != 31 {
        return verdict;
    }
    marks.fill(0);
    marks[0] = 1;
    Verdict { place: 0, ..verdict }
}

fn wrong_recheck(
    signature: &[u8],
    start: u64,
    length: u64,
    pages: &[u8],
    marks: &mut [u8],
) -> Answer {
    let answer = recheck(signature, start, length, pages, marks);
    marks[0] ^= 1;
    answer
}

const LIBRARY: Program = Programs::COMPARED.library;

fn library(library: Program) -> Programs {
    Programs { library, ..Programs::COMPARED }
}

/// The run ends with status 1 and says this.
fn differs(programs: &Programs, list: &[&str], said: &str) {
    let (status, _, progress) = ran::in_process(programs, list);
    assert_eq!(status, 1, "{progress}");
    assert!(progress.lines().last().unwrap().contains(said), "{progress}");
}

#[test]
fn a_wrong_mark() {
    let programs = library(Program { check: wrong_last_mark, ..LIBRARY });
    differs(&programs, &ROWS, "page 255 is marked 1 and 0 (Rust)");
}

#[test]
fn a_wrong_place() {
    differs(&library(Program { check: wrong_place, ..LIBRARY }), &ROWS, "wanted 0");
}

#[test]
fn a_wrong_number() {
    differs(&library(Program { check: wrong_number, ..LIBRARY }), &ROWS, "answers (31, ");
}

#[test]
fn a_wrong_mark_of_a_recheck() {
    let programs = library(Program { recheck: wrong_recheck, ..LIBRARY });
    differs(&programs, &CALLS, "page 0 is marked 1 and 0 (Rust)");
}

/// Both agree that they refuse what is to be accepted.
#[test]
fn both_wrong() {
    let refuses = Program { check: wrong_number, ..LIBRARY };
    differs(&Programs { library: refuses, plain: refuses }, &ROWS, "wanted 0");
}

/// The last page differs: 31 there on both sides. Another page is seen, by one side or by both.
#[test]
fn another_page_differs() {
    let wrong = Program { check: wrong_page, ..LIBRARY };
    let said = "answers (31, 0) and (31, 255) (Rust), wanted 31 at 255";
    differs(&library(wrong), &CALLS, said);
    differs(&Programs { library: wrong, plain: wrong }, &CALLS, "wanted 31 at 255");
}
