//! Code limits of 64 bits in whole checks and in rechecks.

use reference::directory::MOST_CODE_LIMIT;
use reference::inputs::{Inputs, InputsPlan};
use reference::recheck::Range;

use super::{lent_part, striped, Call};

pub fn add(calls: &mut Vec<Call>) {
    small_limits(calls);
    older(calls);
    large_limits(calls);
    ranges_of_large_limits(calls);
}

/// Bytes of each image.
const IMAGE: usize = 16_390;

/// The code limit is codeLimit64, below codeLimit, at it and above.
const BOTH: [(u32, u64); 8] = [
    (9000, 5000),
    (5000, 9000),
    (9000, 9000),
    (0, 9000),
    (9000, 1),
    (u32::MAX, 8192),
    (1, 16_385),
    (16_390, 8193),
];

/// An image signed up to codeLimit64, with a codeLimit that says something else.
fn signed(version: u32, (limit, limit_64): (u32, u64), shift: u8) -> Inputs {
    let mut plan = InputsPlan::new(version, striped(limit_64 as usize), shift);
    (plan.directory.code_limit, plan.directory.code_limit64) = (limit, limit_64);
    plan.image = striped(IMAGE);
    plan.build()
}

/// Whole checks by codeLimit64, and rechecks about both limits.
fn small_limits(calls: &mut Vec<Call>) {
    for shift in [12, 14, 0] {
        for limits in BOTH {
            let inputs = signed(0x20300, limits, shift);
            let name = format!("limits {}/{}/{shift}", limits.0, limits.1);
            wholes(calls, &name, &inputs, limits.1 as usize - 1);
            let other = Inputs { pages: pages_of(limits.0, shift), ..inputs.clone() };
            calls.push(Call::whole(format!("check, {name}, codeLimit's marks"), &other, 7));
            ranges(calls, &name, &inputs, limits);
        }
    }
}

/// The image, the same with its last byte below the code limit changed or the next one, and one that
/// ends before it.
fn wholes(calls: &mut Vec<Call>, name: &str, inputs: &Inputs, last: usize) {
    calls.push(Call::whole(format!("check, {name}"), inputs, 7));
    for (what, at) in [("last", last), ("next", last + 1)] {
        let mut changed = inputs.clone();
        changed.image[at] ^= 1;
        calls.push(Call::whole(format!("check, {name}, {what} byte changed"), &changed, 7));
    }
    let mut short = inputs.clone();
    short.image.truncate(last);
    calls.push(Call::whole(format!("check, {name}, byte missing"), &short, 7));
}

/// The pages that codeLimit makes, or as many as a case may lend marks.
fn pages_of(limit: u32, shift: u8) -> usize {
    let page = if shift == 0 { limit.max(1) } else { 1 << shift };
    limit.div_ceil(page).min(16) as usize
}

/// Rechecks that end at each of the limits and one byte above.
fn ranges(calls: &mut Vec<Call>, name: &str, inputs: &Inputs, (limit, limit_64): (u32, u64)) {
    let marks: Vec<u8> = (0..inputs.pages).map(|page| (page % 2) as u8).collect();
    for (what, end) in [("codeLimit", u64::from(limit)), ("codeLimit64", limit_64)] {
        for (by, end) in [("", end), (" + 1", end + 1)] {
            let start = end.saturating_sub(2);
            let length = end - start;
            let part = lent_part(inputs, start, length).unwrap_or((0, 0));
            let range = Range { start, length, bytes: &inputs.image[part.0..part.1] };
            let name = format!("recheck, {name}, to {what}{by}");
            calls.push(Call::recheck(name, inputs, &range, &marks));
        }
    }
}

/// The last version without codeLimit64: the number there lies in the identifier.
fn older(calls: &mut Vec<Call>) {
    for number in [1, 5000, 1 << 32, MOST_CODE_LIMIT + 1, u64::MAX] {
        let mut plan = InputsPlan::new(0x202FF, striped(9000), 12);
        plan.directory.identifier = [&b"id: "[..], &number.to_be_bytes(), b" behind"].concat();
        let inputs = plan.build();
        let range = Range { start: 8192, length: 808, bytes: &inputs.image[8192..] };
        Call::both(calls, &format!("version 0x202ff, {number:#x} at 56"), &inputs, &range, &[0; 3]);
    }
}

/// Limits about 2^32 and 2^34.
const LARGE: [(&str, u64); 6] = [
    ("2^32 - 1", (1 << 32) - 1),
    ("2^32", 1 << 32),
    ("2^32 + 1", (1 << 32) + 1),
    ("2^34 - 1", MOST_CODE_LIMIT - 1),
    ("2^34", MOST_CODE_LIMIT),
    ("2^34 + 1", MOST_CODE_LIMIT + 1),
];

/// A directory of one page with a large limit; the image is as long as codeLimit.
fn one_large_page(limit_64: u64) -> Inputs {
    let mut plan = InputsPlan::new(0x20400, striped(100), 0);
    plan.directory.code_limit64 = limit_64;
    plan.build()
}

/// 19 by the chosen limit, before 20, where codeLimit is met; 15 above the largest.
fn large_limits(calls: &mut Vec<Call>) {
    for (name, limit_64) in LARGE {
        for pages in [0, 1, 2] {
            let inputs = Inputs { pages, ..one_large_page(limit_64) };
            calls.push(Call::whole(
                format!("check, one page of {name}, {pages} marks"),
                &inputs,
                7,
            ));
        }
    }
}

/// Rechecks about 2^32 and about the limit, and 20 for other marks.
fn ranges_of_large_limits(calls: &mut Vec<Call>) {
    for (limit, limit_64) in LARGE {
        let inputs = one_large_page(limit_64);
        let name = format!("recheck, page of {limit}");
        let starts = [("2^32 - 1", u64::from(u32::MAX)), ("2^32", 1 << 32), ("limit", limit_64)];
        for (from, start) in starts {
            short_ranges(calls, &format!("{name}, {from}"), &inputs, start);
        }
        let range = Range { start: 0, length: 0, bytes: b"" };
        for marks in [&[][..], &[0, 0]] {
            calls.push(Call::recheck(
                format!("{name}, {} marks", marks.len()),
                &inputs,
                &range,
                marks,
            ));
        }
    }
}

/// 32 above the limit, 33 where the bytes of the one page are not lent, and an empty range.
fn short_ranges(calls: &mut Vec<Call>, name: &str, inputs: &Inputs, start: u64) {
    for length in [0, 1, 2] {
        for (lent, bytes) in [("none", &b""[..]), ("1 byte", b"1")] {
            let range = Range { start, length, bytes };
            calls.push(Call::recheck(format!("{name} + {length}, {lent}"), inputs, &range, &[1]));
        }
    }
}
