//! What a call answers: a number of the table of refusals and a place.

use std::fmt;

use crate::rules::Rule;

/// The answer of a recheck, a lookup or a reading. Number 0 says that every test of that call
/// passed, with place 0; it does not say that the image may run.
#[repr(C)]
#[derive(Clone, Copy, Debug, PartialEq, Eq)]
pub struct Answer {
    pub number: u32,
    pub place: usize,
}

/// The answer of a whole check. Number 0 is accepted; its place is the cache entry.
#[repr(C)]
#[derive(Clone, Copy, Debug, PartialEq, Eq)]
pub struct Verdict {
    pub number: u32,
    pub place: usize,
}

/// The refusal that comes after every mark was written.
const PAGE_DIFFERS: u32 = 31;

/// What failed and where. The library may be newer than this table and know more numbers.
fn sentence(number: u32, place: usize) -> String {
    match Rule::of(number) {
        Some(rule) => rule.sentence(place),
        None => format!("number {number} is not in this tool's table"),
    }
}

fn wrote_marks(number: u32) -> bool {
    matches!(number, 0 | PAGE_DIFFERS)
}

/// `NUMBER PLACE WORD: ..`, the word being `refused` where the number is not 0.
fn line(number: u32, place: usize, passed: &str, sentence: &str) -> String {
    let word = if number == 0 { passed } else { "refused" };
    format!("{number} {place} {word}: {sentence}")
}

impl Answer {
    /// True where the number is 0.
    pub fn accepted(&self) -> bool {
        self.number == 0
    }

    /// What failed and where, in words.
    pub fn sentence(&self) -> String {
        sentence(self.number, self.place)
    }

    /// True where a recheck wrote the marks of the pages met.
    pub fn wrote_marks(&self) -> bool {
        wrote_marks(self.number)
    }
}

impl Verdict {
    pub fn accepted(&self) -> bool {
        self.number == 0
    }

    /// What failed and where, in words; or which cache entry lists the image.
    pub fn sentence(&self) -> String {
        match self.number {
            0 => format!("trust cache entry {} lists the directory's hash", self.place),
            number => sentence(number, self.place),
        }
    }

    /// True where the check wrote every mark.
    pub fn wrote_marks(&self) -> bool {
        wrote_marks(self.number)
    }
}

impl fmt::Display for Answer {
    fn fmt(&self, f: &mut fmt::Formatter) -> fmt::Result {
        f.write_str(&line(self.number, self.place, "passed", &self.sentence()))
    }
}

impl fmt::Display for Verdict {
    fn fmt(&self, f: &mut fmt::Formatter) -> fmt::Result {
        f.write_str(&line(self.number, self.place, "accepted", &self.sentence()))
    }
}

impl std::error::Error for Answer {}
impl std::error::Error for Verdict {}

#[cfg(test)]
mod tests {
    use super::*;

    /// A number that the table does not have is a sentence as well.
    #[test]
    fn unknown_numbers() {
        let said = "number 4000000000 is not in this tool's table";
        let number = 4_000_000_000;
        assert_eq!(Answer { number, place: 1 }.sentence(), said);
        assert_eq!(Verdict { number, place: 1 }.sentence(), said);
        let line = format!("{number} 1 refused: {said}");
        assert_eq!(Verdict { number, place: 1 }.to_string(), line);
    }

    #[test]
    fn lines_of_the_number_0() {
        let answer = Answer { number: 0, place: 0 }.to_string();
        assert_eq!(answer, "0 0 passed: every test of the call passes");
        let verdict = Verdict { number: 0, place: 4 }.to_string();
        assert_eq!(verdict, "0 4 accepted: trust cache entry 4 lists the directory's hash");
    }
}
