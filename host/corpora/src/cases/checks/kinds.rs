//! Whole checks and rechecks by the hash kind.

use reference::directory::cut;
use reference::inputs::{Inputs, InputsPlan};
use reference::kinds::{digest, KINDS};
use reference::make::{width, Slot};
use reference::random::Random;
use reference::recheck::Range;

use super::super::paged;
use super::chains::one_chain;
use super::{full_of, striped, Call};

const SEED: u64 = 0x6B69_6E64_7300_0001;
const CHAIN_LENGTH: usize = 4;

pub fn add(calls: &mut Vec<Call>) {
    let mut random = Random::new(SEED);
    for kind in KINDS {
        accepted(calls, kind);
        page_sizes(calls, kind, &mut random);
        block_ends(calls, kind);
        types_and_sizes(calls, kind);
        widths(calls, kind);
        pages_by_other_kinds(calls, kind);
        things_by_other_kinds(calls, kind);
        special_slots(calls, kind);
        code_slots(calls, kind);
        entries(calls, kind);
        hashes_by_other_kinds(calls, kind);
        two_faults(calls, kind);
    }
}

/// A check of what `full_of` builds, after a change of its plan.
fn changed(calls: &mut Vec<Call>, name: String, kind: u8, change: impl Fn(&mut InputsPlan)) {
    let mut plan = full_of(kind);
    change(&mut plan);
    calls.push(Call::whole(name, &plan.build(), 9));
}

/// A check and a recheck of the same.
fn changed_in_both(calls: &mut Vec<Call>, name: &str, kind: u8, change: impl Fn(&mut InputsPlan)) {
    let mut plan = full_of(kind);
    change(&mut plan);
    let inputs = plan.build();
    let range = Range { start: 8192, length: 1, bytes: &inputs.image[8192..] };
    Call::both(calls, name, &inputs, &range, &[0, 0, 1]);
}

fn others(kind: u8) -> impl Iterator<Item = u8> {
    KINDS.into_iter().filter(move |&other| other != kind)
}

/// A digest by a kind, cut or filled with zeros to another kind's width.
fn at_width(by: u8, kind: u8, message: &[u8]) -> Slot {
    let mut slot = digest(u64::from(by), message);
    slot.resize(width(kind), 0);
    slot
}

fn accepted(calls: &mut Vec<Call>, kind: u8) {
    changed_in_both(calls, &format!("kind {kind}"), kind, |_| {});
    changed(calls, format!("check, kind {kind}, page 1 changed"), kind, |p| p.image[4096] ^= 1);
}

/// Whole checks and chains of rechecks under each page size.
fn page_sizes(calls: &mut Vec<Call>, kind: u8, random: &mut Random) {
    for (length, shift) in [(8193, 12), (20_479, 14), (4097, 0)] {
        let plan = InputsPlan::of_kind(kind, 0x20500, striped(length), shift);
        let name = format!("kind {kind}, {}", paged(shift));
        calls.push(Call::whole(format!("{name}, accepted"), &plan.build(), 4));
        one_chain(calls, &name, plan, CHAIN_LENGTH, random);
    }
}

/// Images of no byte, and about the ends of both block sizes.
fn block_ends(calls: &mut Vec<Call>, kind: u8) {
    for length in [0, 56, 64, 111, 112, 128] {
        let inputs = InputsPlan::of_kind(kind, 0x20001, striped(length), 0).build();
        calls.push(Call::whole(format!("check, kind {kind}, image of {length}"), &inputs, 7));
    }
}

/// Test 13: each other kind with this kind's size, and this kind with each other kind's size.
fn types_and_sizes(calls: &mut Vec<Call>, kind: u8) {
    for other in others(kind) {
        let name = format!("kind {kind}, type of kind {other}");
        changed_in_both(calls, &name, kind, |p| p.directory.hash_type = other);
        let name = format!("kind {kind}, size of kind {other}");
        changed_in_both(calls, &name, kind, |p| p.directory.hash_size = width(other) as u8);
    }
}

/// Test 17: special slots that begin with the head's end, and a byte before it; code slots that
/// end with the directory, and a byte behind it.
fn widths(calls: &mut Vec<Call>, kind: u8) {
    let lowest = 88 + 11 * width(kind) as u32;
    for offset in [lowest - 1, lowest] {
        let name = format!("kind {kind}, hashOffset {offset}");
        changed_in_both(calls, &name, kind, |p| p.directory.hash_offset = Some(offset));
    }
    let highest = full_of(kind).directory.slots_start() as u32;
    let name = format!("kind {kind}, hashOffset {}", highest + 1);
    changed_in_both(calls, &name, kind, |p| p.directory.hash_offset = Some(highest + 1));
}

/// Code slots by another kind.
fn pages_by_other_kinds(calls: &mut Vec<Call>, kind: u8) {
    for other in others(kind) {
        changed(calls, format!("check, kind {kind}, pages by kind {other}"), kind, |plan| {
            plan.directory.code =
                plan.image.chunks(4096).map(|page| at_width(other, kind, page)).collect();
        });
    }
}

/// The entitlements' slot and the one of Info.plist by another kind.
fn things_by_other_kinds(calls: &mut Vec<Call>, kind: u8) {
    for other in others(kind) {
        let entitlements = full_of(kind).blobs[1].1.clone();
        for (what, k, thing) in [("entitlements", 5, &entitlements[..]), ("Info.plist", 1, b"info")]
        {
            let name = format!("check, kind {kind}, {what} by kind {other}");
            changed(calls, name, kind, |plan| {
                plan.directory.special[k - 1] = at_width(other, kind, thing);
            });
        }
    }
}

/// A slot that is zero but for its last byte, where nothing can be there, and one of zeros.
fn special_slots(calls: &mut Vec<Call>, kind: u8) {
    let name = format!("check, kind {kind}, slot 4 zeros but its last byte");
    changed(calls, name, kind, |p| p.directory.special[3][width(kind) - 1] = 1);
    let name = format!("check, kind {kind}, slot 5 of zeros");
    changed(calls, name, kind, |p| p.directory.special[4].fill(0));
}

/// Code slots that differ in one byte, about the ends of all widths, and one of zeros.
fn code_slots(calls: &mut Vec<Call>, kind: u8) {
    for at in [0, 19, 20, 31, 32, 47].into_iter().filter(|&at| at < width(kind)) {
        let name = format!("check, kind {kind}, code slot 1 wrong at {at}");
        changed(calls, name, kind, |p| p.directory.code[1][at] ^= 0x80);
    }
    let name = format!("kind {kind}, code slot 2 wrong in its last byte");
    changed_in_both(calls, &name, kind, |p| p.directory.code[2][width(kind) - 1] ^= 1);
    let name = format!("kind {kind}, code slot 2 of zeros");
    changed_in_both(calls, &name, kind, |p| p.directory.code[2].fill(0));
}

/// Tests 26 and 27: the check with a change of the directory's own entry.
fn with_entry(kind: u8, change: impl Fn(&mut Inputs, usize)) -> Inputs {
    let mut inputs = full_of(kind).build();
    change(&mut inputs, 24 + 24);
    inputs
}

/// Test 27: the entry's type, of each kind.
fn entries(calls: &mut Vec<Call>, kind: u8) {
    for hash_type in KINDS {
        let inputs = with_entry(kind, |s, entry| s.cache[entry + 20] = hash_type);
        let name = format!("check, kind {kind}, entry of type {hash_type}");
        calls.push(Call::whole(name, &inputs, 9));
    }
}

/// Test 26: the cache lists the directory's hash by another kind.
fn hashes_by_other_kinds(calls: &mut Vec<Call>, kind: u8) {
    for other in others(kind) {
        let hash = cut(&digest(u64::from(other), &full_of(kind).directory.bytes()));
        let inputs = with_entry(kind, |s, entry| s.cache[entry..entry + 20].copy_from_slice(&hash));
        calls.push(Call::whole(format!("check, kind {kind}, hash by kind {other}"), &inputs, 9));
    }
}

/// Faults 13, 17, 22, 26, 27 and 31 with their neighbours in the table.
fn two_faults(calls: &mut Vec<Call>, kind: u8) {
    let slot = width(kind) as u32;
    let both = [("13 and 14", 12, 13), ("14 and 17", slot, 13), ("17 and 18", slot, 12)];
    for (name, size, shift) in both {
        changed_in_both(calls, &format!("kind {kind}, faults {name}"), kind, |plan| {
            plan.directory.hash_size = size as u8;
            plan.directory.page_shift = shift;
            plan.directory.hash_offset = Some(plan.directory.head() as u32 + 11 * slot - 1);
            plan.directory.ident_offset = Some(0);
        });
    }
    type Change = fn(&mut Inputs, usize);
    let outside: [(&str, Change); 4] = [
        ("31", |s, _| s.image[0] ^= 1),
        ("28", |s, entry| s.cache[entry + 22] = 9),
        ("27", |s, entry| s.cache[entry + 20] ^= 7),
        ("26", |s, entry| s.cache[entry + 19] ^= 1),
    ];
    for count in 2..=outside.len() {
        let change = |s: &mut Inputs, entry| outside[..count].iter().for_each(|c| c.1(s, entry));
        let name = format!("check, kind {kind}, faults {} and up", outside[count - 1].0);
        calls.push(Call::whole(name, &with_entry(kind, change), 9));
    }
}
