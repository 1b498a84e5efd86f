//! Single rechecks.

use reference::inputs::{Inputs, InputsPlan};
use reference::recheck::Range;

use super::super::paged;
use super::{faults, full, lent_part, striped, Call};

pub fn add(calls: &mut Vec<Call>) {
    ranges(calls);
    limits(calls);
    sums_above_64_bits(calls);
    refused(calls);
    turned_down(calls);
}

/// Rechecks of ranges on both sides of page ends, on good and on altered bytes.
fn ranges(calls: &mut Vec<Call>) {
    for (limit, shift) in [(8193, 12), (16385, 14), (8193, 0), (4096, 12), (0, 12), (0, 0)] {
        let inputs = InputsPlan::new(0x20400, striped(limit as usize), shift).build();
        for (from, start) in starts(limit) {
            for (size, length) in lengths(limit, start) {
                let name = format!("recheck {limit}/{shift} from {from}, {size}");
                one_range(calls, &name, &inputs, start, length);
            }
        }
    }
}

/// Starts about the ends of pages and about the code limit, and what names call them.
fn starts(limit: u64) -> [(&'static str, u64); 9] {
    [
        ("0", 0),
        ("1", 1),
        ("4095", 4095),
        ("4096", 4096),
        ("4097", 4097),
        ("8192", 8192),
        ("limit - 1", limit.saturating_sub(1)),
        ("limit", limit),
        ("limit + 1", limit + 1),
    ]
}

/// The same for lengths.
fn lengths(limit: u64, start: u64) -> [(&'static str, u64); 7] {
    [
        ("0 bytes", 0),
        ("1 byte", 1),
        ("2 bytes", 2),
        ("4096 bytes", 4096),
        ("to the limit", limit.saturating_sub(start)),
        ("limit + 1 bytes", limit + 1),
        ("to 2^64 - 1", u64::MAX - start),
    ]
}

/// The same range with the right bytes, with a changed byte and with a byte too many.
fn one_range(calls: &mut Vec<Call>, name: &str, inputs: &Inputs, start: u64, length: u64) {
    let (from, to) = lent_part(inputs, start, length).unwrap_or((0, 0));
    let bytes = &inputs.image[from..to];
    let marks: Vec<u8> = (0..inputs.pages).map(|page| (page % 2) as u8).collect();
    calls.push(Call::recheck(name, inputs, &Range { start, length, bytes }, &marks));
    if start % 2 == 1 && to > from {
        let mut changed = bytes.to_vec();
        *changed.last_mut().unwrap() ^= 1;
        let range = Range { start, length, bytes: &changed };
        let zeros = vec![0; inputs.pages];
        calls.push(Call::recheck(format!("{name}, changed"), inputs, &range, &zeros));
        changed.push(0);
        let range = Range { start, length, bytes: &changed };
        calls.push(Call::recheck(format!("{name}, a byte more"), inputs, &range, &marks));
    }
}

/// Test 32 by one at both ends. Where the range ends behind the code limit, the whole image
/// is lent.
fn limits(calls: &mut Vec<Call>) {
    let limit = 9000;
    for shift in [12, 14, 0] {
        let inputs = InputsPlan::new(0x20400, striped(limit as usize), shift).build();
        for (start, length) in [
            (limit - 1, 1),
            (limit - 1, 2),
            (limit, 0),
            (limit, 1),
            (limit + 1, 0),
            (limit + 1, 1),
            (0, limit),
            (0, limit + 1),
        ] {
            let (from, to) = lent_part(&inputs, start, length).unwrap_or((0, limit as usize));
            let range = Range { start, length, bytes: &inputs.image[from..to] };
            let name = format!("recheck 9000 of {}, {start} + {length}", paged(shift));
            calls.push(Call::recheck(name, &inputs, &range, &vec![0; inputs.pages]));
        }
    }
}

/// Test 32 where start + length passes 2^64: modulo 2^64 the sum is 1, below the code limit.
fn sums_above_64_bits(calls: &mut Vec<Call>) {
    let inputs = InputsPlan::new(0x20400, striped(8193), 12).build();
    for (name, start, length) in [
        ("recheck, 2 + (2^64 - 1)", 2, u64::MAX),
        ("recheck, (2^64 - 1) + 2", u64::MAX, 2),
        ("recheck, (2^64 - 1) + (2^64 - 1)", u64::MAX, u64::MAX),
        ("recheck, 2^63 + 2^63", 1 << 63, 1 << 63),
    ] {
        for (what, bytes) in [("", &inputs.image[..0]), (", a page lent", &inputs.image[..4096])] {
            let range = Range { start, length, bytes };
            calls.push(Call::recheck(format!("{name}{what}"), &inputs, &range, &[0; 3]));
        }
    }
}

/// The code limit of `full` is 8193; one byte more is asked for.
const OVER: Range = Range { start: 8193, length: 1, bytes: &[1] };

/// Rechecks with a fault in the signature, and one in the range and in the marks.
fn refused(calls: &mut Vec<Call>) {
    for (name, fault) in faults::SIGNATURE {
        let mut inputs = full().build();
        fault(&mut inputs);
        calls.push(Call::recheck(format!("recheck, {name}"), &inputs, &OVER, &[0, 2]));
    }
}

/// Rechecks with faults in the number of marks, in the marks, and in the range.
fn turned_down(calls: &mut Vec<Call>) {
    let inputs = full().build();
    let page = &inputs.image[4096..8192];
    let middle = Range { start: 5000, length: 1, bytes: page };
    let ranges = [
        ("past the limit", OVER),
        ("of page 1", middle),
        ("of nothing at the limit", Range { start: 8193, length: 0, bytes: &[] }),
        ("of page 1, a byte short", Range { bytes: &page[1..], ..middle }),
    ];
    let marks: [&[u8]; 10] = [
        &[],
        &[0, 0],
        &[0, 0, 0, 0],
        &[2, 0, 0],
        &[0, 2, 0],
        &[0, 1, 255],
        &[3, 3, 3],
        &[1, 1, 1],
        &[1, 0, 0],
        &[0, 0, 1],
    ];
    for (marks, (what, range)) in marks.iter().flat_map(|marks| ranges.map(|r| (*marks, r))) {
        let name = format!("recheck {what}, marks {marks:?}");
        calls.push(Call::recheck(name, &inputs, &range, marks));
    }
}
