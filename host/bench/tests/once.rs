//! The straightforward checker hashes each page once: it makes no digest but those of the pages,
//! of the directory and of what filled special slots cover. Digests are counted in builds with
//! debug assertions alone.
#![cfg(debug_assertions)]

use bench::checker;
use bench::plain::{count, Kind};
use reference::inputs::{Inputs, InputsPlan};
use reference::samples;
use trewizlow::Lent;

const VERSION: u32 = 0x20400;

/// The digests of a whole check, which is accepted.
fn of_check(inputs: &Inputs) -> usize {
    let lent = Lent::new(&inputs.signature, &inputs.image, &inputs.cache);
    let mut marks = vec![1; inputs.pages];
    let mut number = u32::MAX;
    let digests = count::during(|| number = checker::check(&lent, &mut marks).number);
    assert_eq!((number, marks), (0, vec![0; inputs.pages]));
    digests
}

/// The digests of a recheck that meets the pages which these bytes are of.
fn of_recheck(inputs: &Inputs, start: usize, length: usize, bytes: &[u8]) -> usize {
    let (start, length) = (start as u64, length as u64);
    let mut marks = vec![0; inputs.pages];
    let mut number = u32::MAX;
    let digests = count::during(|| {
        number = checker::recheck(&inputs.signature, start, length, bytes, &mut marks).number;
    });
    assert_eq!(number, 0);
    digests
}

/// Five pages, the last of one byte, by each page size that has many.
#[test]
fn a_page_is_hashed_once() {
    for kind in Kind::ALL {
        for (shift, page) in [(12, 4096), (14, 16384)] {
            let image = vec![7; 4 * page + 1];
            let inputs = InputsPlan::of_kind(kind as u8, VERSION, image, shift).build();
            assert_eq!(inputs.pages, 5);
            assert_eq!(of_check(&inputs), 5 + 1, "{kind:?}, {page}");
            // The last byte of page 0 and the first of page 2.
            let met = &inputs.image[..3 * page];
            assert_eq!(of_recheck(&inputs, page - 1, page + 2, met), 3, "{kind:?}, {page}");
            assert_eq!(of_recheck(&inputs, 4 * page, 1, &[7]), 1, "{kind:?}, {page}");
            assert_eq!(of_recheck(&inputs, 0, 0, &[]), 0, "{kind:?}, {page}");
        }
    }
}

/// The sample has three pages, and fills the slots of requirements and entitlements.
#[test]
fn a_special_slot_is_one_more() {
    for (_, kind) in samples::SIGNATURES {
        assert_eq!(of_check(&samples::plan_of(kind).build()), 3 + 1 + 2, "kind {kind}");
    }
}
