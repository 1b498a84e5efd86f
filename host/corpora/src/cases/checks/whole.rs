//! Whole checks.

use reference::inputs::{Inputs, InputsPlan, SYSTEM_SERVICE};
use reference::launch::Launch;
use reference::make::{CacheEntry, CachePlan};
use reference::superblob::MOST_SIDE_FILE;

use super::super::{paged, SideFile};
use super::{faults, full, striped, Call};

pub fn add(calls: &mut Vec<Call>) {
    every_fault(calls);
    slots(calls);
    caches(calls);
    images(calls);
    side_files_at_the_limit(calls);
    one_long_side_file(calls);
}

/// Every fault alone, and every fault upon all before it.
fn every_fault(calls: &mut Vec<Call>) {
    let good = full().build();
    calls.push(Call::whole("check, accepted", &good, 9));
    let mut damaged = good.clone();
    for (name, fault) in faults::OUTSIDE.into_iter().chain(faults::SIGNATURE) {
        let mut alone = good.clone();
        fault(&mut alone);
        calls.push(Call::whole(format!("check, {name}"), &alone, 9));
        fault(&mut damaged);
        calls.push(Call::whole(format!("check, {name}, with later faults"), &damaged, 0));
    }
}

/// Each slot empty, and each with a wrong digest.
fn slots(calls: &mut Vec<Call>) {
    for k in 1..=11 {
        let mut plan = full();
        plan.directory.special[k - 1].fill(0);
        calls.push(Call::whole(format!("check, slot {k} empty"), &plan.build(), 1));
        plan.directory.special[k - 1].fill(1);
        calls.push(Call::whole(format!("check, slot {k} wrong"), &plan.build(), 1));
    }
}

/// Categories with launch facts, and neighbours of the directory's entry.
fn caches(calls: &mut Vec<Call>) {
    for (category, launch, what) in [
        (0, Launch::default(), "no facts"),
        (1, Launch::default(), "no facts"),
        (2, SYSTEM_SERVICE, "system service"),
    ] {
        let inputs = InputsPlan { category, launch, ..full() }.build();
        calls.push(Call::whole(format!("check, category {category}, {what}"), &inputs, 2));
    }
    for (what, neighbours) in [
        ("alone in the cache", vec![]),
        ("last of two entries", vec![[0; 20]]),
        ("first of two entries", vec![[0xFF; 20]]),
        ("last of four entries", vec![[0; 20], [1; 20], [2; 20]]),
    ] {
        let inputs = InputsPlan { neighbours, ..full() }.build();
        calls.push(Call::whole(format!("check, {what}"), &inputs, 2));
    }
    let mut inputs = InputsPlan::new(0x20001, striped(5000), 12).build();
    inputs.cache = CachePlan::new(vec![CacheEntry::new([7; 20], 0); 2]).bytes();
    calls.push(Call::whole("check, two equal entries", &inputs, 3));
}

/// Images of many lengths under each page size.
fn images(calls: &mut Vec<Call>) {
    for shift in [12, 14, 0] {
        for length in [0, 1, 4095, 4096, 4097, 8193, 16384, 16385, 20480] {
            image(calls, length, shift);
        }
    }
}

/// One image: right, with a byte changed at the ends of pages, with bytes past the code
/// limit, one byte short, one mark too few or too many.
fn image(calls: &mut Vec<Call>, length: usize, shift: u8) {
    let inputs = InputsPlan::new(0x20001, striped(length), shift).build();
    let name = |what: String| format!("image {length} of {}{what}", paged(shift));
    calls.push(Call::whole(name(String::new()), &inputs, 0xEE));
    for at in [0, 4095, 4096, 8192, 16383, 16384].into_iter().filter(|&at| at < length) {
        let mut changed = inputs.clone();
        changed.image[at] ^= 0x80;
        calls.push(Call::whole(name(format!(", byte {at} changed")), &changed, 0));
    }
    let mut longer = inputs.clone();
    longer.image.extend([0, 1, 2]);
    calls.push(Call::whole(name(", three bytes more".to_string()), &longer, 1));
    let mut shorter = inputs.clone();
    shorter.image.pop();
    calls.push(Call::whole(name(", last byte left out".to_string()), &shorter, 1));
    for pages in [inputs.pages + 1, inputs.pages.saturating_sub(1)] {
        let inputs = Inputs { pages, ..inputs.clone() };
        calls.push(Call::whole(name(format!(", {pages} marks")), &inputs, 0));
    }
}

/// Lengths of a side file on both sides of test 1's limit.
const SIDE_FILES: [usize; 2] = [MOST_SIDE_FILE as usize, MOST_SIDE_FILE as usize + 1];

/// A whole check of one byte without side files.
fn one_byte(name: String) -> Call {
    Call::whole(name, &InputsPlan::new(0x20400, striped(1), 12).build(), 7)
}

fn zeros(length: usize, there: bool) -> SideFile {
    SideFile { there, bytes: vec![0; length] }
}

/// Test 1's side files: on both sides of the limit, and before test 2.
fn side_files_at_the_limit(calls: &mut Vec<Call>) {
    for length in SIDE_FILES {
        let mut call = one_byte(format!("check, Info.plist of {length}"));
        call.info = zeros(length, true);
        calls.push(call.clone());
        call.name = format!("check, both side files of {length}");
        call.resources = call.info.clone();
        calls.push(call.clone());
        call.name += ", magic wrong";
        call.signature[0] = 0;
        calls.push(call);
    }
}

/// Test 1's side files: CodeResources alone at fault, and a file that is not there.
fn one_long_side_file(calls: &mut Vec<Call>) {
    for length in SIDE_FILES {
        let mut call = one_byte(format!("check, CodeResources of {length}"));
        call.resources = zeros(length, true);
        calls.push(call.clone());
        call.name += ", short Info.plist";
        call.info = zeros(1, true);
        calls.push(call);
        let mut call = one_byte(format!("check, CodeResources of {length} not there"));
        call.resources = zeros(length, false);
        calls.push(call);
        let mut call = one_byte(format!("check, Info.plist of {length} not there"));
        call.info = zeros(length, false);
        calls.push(call);
    }
}
