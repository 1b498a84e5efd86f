//! Cases by the hash kind: test 13, test 17 at each kind's width, and the directory's own hash.

use reference::kinds::{
    CS_HASHTYPE_SHA1, CS_HASHTYPE_SHA256, CS_HASHTYPE_SHA256_TRUNCATED, CS_HASHTYPE_SHA384, KINDS,
};
use reference::make::{width, with32, with8, DirectoryPlan};
use reference::random::Random;

use super::directory::START;
use super::faults::TESTS;
use super::order::{base_of, DIRECTORY};
use super::{one_page_of, signature_of, single, slots_of, Cases};

/// The kinds beside SHA-256, of which `directory` and `order` have cases.
const OTHERS: [u8; 3] = [CS_HASHTYPE_SHA1, CS_HASHTYPE_SHA256_TRUNCATED, CS_HASHTYPE_SHA384];

pub fn add(cases: &mut Cases) {
    types_and_sizes(cases);
    KINDS.into_iter().for_each(|kind| slot_bounds(cases, kind));
    KINDS.into_iter().for_each(|kind| far_slots(cases, kind));
    OTHERS.into_iter().for_each(|kind| many_slots(cases, kind));
    OTHERS.into_iter().for_each(|kind| two_faults(cases, kind));
    other_directories(cases);
    real_digests(cases);
}

/// Test 13: types and sizes about those of each kind. The slots are as wide as the type's.
fn types_and_sizes(cases: &mut Cases) {
    for hash_type in [0, 1, 2, 3, 4, 5, 255] {
        let kind = if KINDS.contains(&hash_type) { hash_type } else { CS_HASHTYPE_SHA256 };
        let mut plan = one_page_of(kind, 0x20400, 2);
        plan.identifier = b"kinds".to_vec();
        let good = with8(&single(&plan), START + 37, hash_type);
        for size in [0, 19, 20, 21, 31, 32, 33, 47, 48, 49, 64] {
            let name = format!("kind {hash_type} of {size} bytes");
            cases.add(name, with8(&good, START + 36, size));
        }
    }
}

/// A directory of version 0x20001 with so many slots, and bytes behind them.
fn with_slots(kind: u8, special: usize, code: usize) -> DirectoryPlan {
    let mut plan = one_page_of(kind, 0x20001, special);
    plan.code = slots_of(kind, 0xC0, code);
    plan.code_limit = 4096 * code as u32;
    plan.tail = vec![0xEE; 7];
    plan
}

/// Test 17: hashOffset beside the lowest and the highest that passes. The lowest for one special
/// slot is 44 and the width.
fn slot_bounds(cases: &mut Cases, kind: u8) {
    for (special, code) in [(1, 0), (0, 1), (1, 1), (11, 3)] {
        let plan = with_slots(kind, special, code);
        let lowest = (plan.head() + width(kind) * special) as u32;
        let highest = (plan.bytes().len() - width(kind) * code) as u32;
        let good = single(&plan);
        for offset in [lowest - 1, lowest, highest, highest + 1] {
            let slots = format!("{special} special and {code} code slots");
            let name = format!("kind {kind}, {slots}, hashOffset {offset}");
            cases.add(name, with32(&good, START + 16, offset));
        }
    }
}

/// Test 17: offsets below a slot's width, and one whose slot would end at 2^32.
fn far_slots(cases: &mut Cases, kind: u8) {
    let good = single(&with_slots(kind, 1, 1));
    let width = width(kind) as u32;
    for offset in [0, width - 1, width, 0u32.wrapping_sub(width)] {
        let name = format!("kind {kind}, one of each slot, hashOffset {offset}");
        cases.add(name, with32(&good, START + 16, offset));
    }
}

/// 65,536 code slots, the last one whole and a byte short.
fn many_slots(cases: &mut Cases, kind: u8) {
    let mut plan = one_page_of(kind, 0x20400, 0);
    plan.code = vec![vec![0xC7; width(kind)]; 65_536];
    plan.code_limit = 4096 * 65_536;
    cases.add(format!("kind {kind}, 65536 code slots"), single(&plan));
    plan.code[65_535].pop();
    cases.add(format!("kind {kind}, 65536 code slots but a byte"), single(&plan));
}

/// Faults 13 and 17 with each other one of a directory: the earlier decides.
fn two_faults(cases: &mut Cases, kind: u8) {
    let subject = base_of(kind);
    let by_kind = |number: u32| matches!(number, 13 | 17);
    for (at, &one) in TESTS.iter().enumerate().skip(9) {
        for &other in TESTS[at + 1..].iter().filter(|&&other| by_kind(one) || by_kind(other)) {
            let mut bytes = subject.bytes();
            subject.damage(&mut bytes, other, DIRECTORY);
            subject.damage(&mut bytes, one, DIRECTORY);
            cases.add(format!("kind {kind}, faults {one} and {other}"), bytes);
        }
    }
}

/// A kind that is not the directory's: no test reads it.
fn other_directories(cases: &mut Cases) {
    for (kind, alternate) in [(1, 4), (4, 1), (2, 5)] {
        let mut other = one_page_of(CS_HASHTYPE_SHA256, 0x20400, 1);
        other.hash_type = alternate;
        let mut plan = signature_of(&[0, 0x1000]);
        plan.blobs[0].bytes = one_page_of(kind, 0x20400, 1).bytes();
        plan.blobs[1].bytes = other.bytes();
        cases.add(format!("kind {kind}, alternate of kind {alternate}"), plan.bytes());
    }
}

/// Directories over real images, as a signer writes them: their own hashes by their kinds.
fn real_digests(cases: &mut Cases) {
    let image = Random::new(0x6B696E64).bytes(8193);
    for kind in KINDS {
        for (length, shift) in [(4097, 12), (8193, 0)] {
            let plan = one_page_of(kind, 0x20500, 2).over(&image[..length], shift);
            let name = format!("kind {kind}, random image of {length}, pageSize {shift}");
            cases.add(name, single(&plan));
        }
    }
}
