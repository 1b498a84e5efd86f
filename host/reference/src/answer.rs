//! What a call answers: a number of the table (documents 01 and 02) and a place.

/// The numbers of the table. They need not follow each other without gaps.
pub const NUMBERS: [u32; 37] = [
    0, 1, 2, 3, 4, 5, 6, 7, 8, 9, 10, 11, 12, 13, 14, 15, 16, 17, 18, 19, 20, 21, 22, 23, 24, 25,
    26, 27, 28, 29, 30, 31, 32, 33, 34, 35, 46,
];

/// Number 0 of a whole check is accepted, of any other call that its tests pass; every other
/// number is a refusal.
#[derive(Clone, Copy, Debug, PartialEq, Eq)]
pub struct Answer {
    pub number: u32,
    pub place: u64,
}

/// The answer 0 with place 0.
pub const DONE: Answer = Answer { number: 0, place: 0 };

/// A refusal for which the table states no place.
pub fn refuse<T>(number: u32) -> Result<T, Answer> {
    refuse_at(number, 0)
}

/// A refusal for which the table states a place.
pub fn refuse_at<T>(number: u32, place: u64) -> Result<T, Answer> {
    Err(Answer { number, place })
}
