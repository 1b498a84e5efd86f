//! The corpus files by subject, in the order in which the test program reads them.

use std::collections::{BTreeMap, BTreeSet};

use reference::answer::NUMBERS;

use crate::answers::answer;
use crate::case::{Case, MARKS};
use crate::cases::signatures::faults::TESTS;
use crate::cases::{caches, checks, readers, signatures, slots};
use crate::file::Writer;

/// The most bytes of a file: one less than the runner's buffer has (crates/case_run).
const MOST_BYTES: usize = 524_287;

/// A file: its name, its cases, and the numbers that they must reach.
struct Subject {
    name: &'static str,
    cases: fn() -> Vec<Case>,
    wanted: Vec<u32>,
}

fn with_0(numbers: &[u32]) -> Vec<u32> {
    [&[0], numbers].concat()
}

fn subjects() -> [Subject; 5] {
    let all = NUMBERS.to_vec();
    [
        Subject { name: "signatures", cases: signatures::corpus, wanted: with_0(&TESTS) },
        Subject { name: "readers", cases: readers::corpus, wanted: with_0(&TESTS) },
        Subject { name: "slots", cases: slots::corpus, wanted: with_0(&[21, 22, 23]) },
        Subject {
            name: "caches",
            cases: caches::corpus,
            wanted: with_0(&[24, 25, 26, 27, 28, 29, 30]),
        },
        Subject { name: "checks", cases: checks::corpus, wanted: all },
    ]
}

/// A subject's file, the lines that go with it, and how often each number was reached.
pub struct Made {
    pub name: &'static str,
    pub data: Vec<u8>,
    pub lines: Vec<String>,
    pub reached: BTreeMap<u32, usize>,
    wanted: Vec<u32>,
}

impl Made {
    /// What speaks against the file: wanted numbers that no case reached, or its length.
    pub fn fault(&self) -> Option<String> {
        let missing: Vec<&u32> =
            self.wanted.iter().filter(|number| !self.reached.contains_key(number)).collect();
        if !missing.is_empty() {
            return Some(format!("{}: no case reaches {missing:?}", self.name));
        }
        let too_long = self.data.len() > MOST_BYTES;
        too_long.then(|| format!("{}: more than {MOST_BYTES} bytes", self.name))
    }
}

/// What all subjects share: the arena, the marks that the last call left, the names so far.
#[derive(Default)]
struct Maker {
    writer: Writer,
    marks: Vec<u8>,
    names: BTreeSet<String>,
}

impl Maker {
    fn make(&mut self, subject: Subject) -> Made {
        let Subject { name, cases, wanted } = subject;
        let mut made =
            Made { name, data: Vec::new(), lines: Vec::new(), reached: BTreeMap::new(), wanted };
        for case in cases() {
            assert!(self.names.insert(case.name.clone()), "two cases are {:?}", case.name);
            self.writer.write(&case, &mut made.data);
            if let Some(marks) = case.field(MARKS) {
                self.marks = marks.to_vec();
            }
            let (answer, printed) = answer(case.operation, &case.lent(), &mut self.marks);
            made.lines.push(format!("{}: {printed}\n", case.name));
            *made.reached.entry(answer.number).or_default() += 1;
        }
        made
    }
}

/// All files.
pub fn make() -> Vec<Made> {
    let mut maker = Maker::default();
    subjects().into_iter().map(|subject| maker.make(subject)).collect()
}

#[cfg(test)]
mod tests {
    use super::*;
    use crate::case::{operation, SIGNATURE, TYPES};

    /// An empty signature, which is refused with 1.
    fn empty(name: &str) -> Case {
        let fields = vec![(SIGNATURE, Vec::new()), (TYPES, Vec::new())];
        Case { name: name.to_string(), operation: operation::SIGNATURE, fields }
    }

    #[test]
    fn numbers_that_are_not_reached() {
        let cases = || vec![empty("a")];
        let made = Maker::default().make(Subject { name: "few", cases, wanted: vec![1] });
        assert_eq!(made.fault(), None);
        assert_eq!(made.lines, ["a: 1 0 | - | 1 0 - |\n"]);
        let made = Maker::default().make(Subject { name: "few", cases, wanted: vec![1, 46] });
        assert_eq!(made.fault().unwrap(), "few: no case reaches [46]");
    }

    #[test]
    #[should_panic(expected = "two cases are \"a\"")]
    fn names_are_different_over_all_files() {
        let mut maker = Maker::default();
        let subject = || Subject { name: "few", cases: || vec![empty("a")], wanted: Vec::new() };
        maker.make(subject());
        maker.make(subject());
    }
}
