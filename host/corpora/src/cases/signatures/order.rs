//! Cases with two faults: the order of the tests decides, and one test runs over all
//! positions before the next.

use reference::kinds::CS_HASHTYPE_SHA256;

use super::faults::{Subject, TESTS};
use super::{one_page_of, signature_of, Cases};

/// A good signature of five blobs, the directory of a hash kind in the middle.
pub fn base_of(kind: u8) -> Subject {
    let directory = one_page_of(kind, 0x20400, 2);
    let mut plan = signature_of(&[2, 5, 0, 7, 0x1000]);
    plan.blobs[DIRECTORY].bytes = directory.bytes();
    Subject::new(plan, &directory)
}

/// The same of SHA-256.
fn base() -> Subject {
    base_of(CS_HASHTYPE_SHA256)
}

/// The position of the directory in `base_of`.
pub const DIRECTORY: usize = 2;

pub fn add(cases: &mut Cases) {
    cases.add("five blobs", base().bytes());
    two_numbers(cases);
    two_positions(cases);
    cut_with_fault(cases);
}

/// Each pair of numbers, faults over positions at the directory and away from it.
fn two_numbers(cases: &mut Cases) {
    for (at, &one) in TESTS.iter().enumerate().skip(1) {
        for &other in &TESTS[at..] {
            for position in if one < 10 { [1, 3] } else { [DIRECTORY; 2] } {
                let mut bytes = base().bytes();
                base().damage(&mut bytes, other, position);
                base().damage(&mut bytes, one, position);
                cases.add(format!("faults {one} and {other} at position {position}"), bytes);
            }
        }
    }
}

/// Tests 5 to 9 against each other, the later test at the lower position and the other
/// way round; the same test at two positions too.
fn two_positions(cases: &mut Cases) {
    for one in 5..=9 {
        for other in 5..=9 {
            for (low, high) in [(0, 1), (0, 4), (1, 3), (3, 4)] {
                let mut bytes = base().bytes();
                base().damage(&mut bytes, one, low);
                base().damage(&mut bytes, other, high);
                let name = format!("fault {one} at position {low}, {other} at position {high}");
                cases.add(name, bytes);
            }
        }
    }
}

/// A fault behind the point where the signature ends: the cut is met first or not.
fn cut_with_fault(cases: &mut Cases) {
    for &number in &TESTS[1..] {
        let mut bytes = base().bytes();
        base().damage(&mut bytes, number, 1);
        for length in [11, 52, bytes.len() - 1] {
            cases.add(format!("fault {number}, cut to {length}"), bytes[..length].to_vec());
        }
    }
}
