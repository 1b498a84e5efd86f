//! Pages enough for the library to hash four at a time, and some left over.

use reference::inputs::InputsPlan;
use reference::kinds::KINDS;
use reference::recheck::Range;

use super::{striped, Call};

const PAGE: usize = 4096;

pub fn add(calls: &mut Vec<Call>) {
    for kind in KINDS {
        // Twice four; twice four and one; twice four with a short last page.
        for length in [8 * PAGE, 9 * PAGE, 8 * PAGE - 1] {
            each_page_changed(calls, kind, length);
        }
        ranges(calls, kind);
    }
}

fn plan(kind: u8, length: usize) -> InputsPlan {
    InputsPlan::of_kind(kind, 0x20400, striped(length), 12)
}

/// The image as it is, and with the last byte of each page changed in turn.
fn each_page_changed(calls: &mut Vec<Call>, kind: u8, length: usize) {
    let name = format!("fours, kind {kind}, {length} bytes");
    let good = plan(kind, length).build();
    calls.push(Call::whole(format!("{name}, accepted"), &good, 7));
    for page in 0..good.pages {
        let mut inputs = good.clone();
        inputs.image[length.min((page + 1) * PAGE) - 1] ^= 1;
        calls.push(Call::whole(format!("{name}, page {page} changed"), &inputs, 7));
    }
}

/// Rechecks of three to nine pages from the second on, the third of them changed.
fn ranges(calls: &mut Vec<Call>, kind: u8) {
    let inputs = plan(kind, 10 * PAGE).build();
    let mut changed = inputs.image.clone();
    changed[3 * PAGE] ^= 1;
    for pages in 3..=9 {
        let (start, length) = (PAGE, pages * PAGE);
        let bytes = &changed[start..start + length];
        let range = Range { start: start as u64, length: length as u64, bytes };
        let name = format!("fours, kind {kind}, recheck of {pages} pages");
        calls.push(Call::recheck(name, &inputs, &range, &vec![0; inputs.pages]));
    }
}
