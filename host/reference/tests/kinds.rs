//! Document 02, item 2: the tests that go by the hash kind.

use reference::answer::Answer;
use reference::directory::{cut, read};
use reference::inputs::{Inputs, InputsPlan};
use reference::kinds::{self, KINDS};
use reference::make::{blob_of, width, CachePlan, DirectoryPlan, SignaturePlan};

/// Three pages; requirements, entitlements and a side file, which the slots cover.
fn plan(kind: u8) -> InputsPlan {
    let mut plan =
        InputsPlan::of_kind(kind, 0x20400, (0..8193).map(|i| (i / 7) as u8).collect(), 12);
    plan.blobs = vec![(2, blob_of(2, &[0; 4])), (5, blob_of(5, b"data"))];
    plan.resources = Some(b"resources".to_vec());
    plan.covered()
}

fn answered(inputs: &Inputs, number: u32, place: u64) {
    assert_eq!(inputs.check(9).0, Answer { number, place });
}

/// The answer of tests 1 to 18 to a directory.
fn tested(directory: &DirectoryPlan) -> u32 {
    let signature = SignaturePlan::new(vec![(0, directory.bytes())]).bytes();
    read(&signature, false).map_or_else(|refusal| refusal.number, |_| 0)
}

#[test]
fn accepted_and_page_differs() {
    for kind in KINDS {
        let mut inputs = plan(kind).build();
        assert_eq!(inputs.check(9), (Answer { number: 0, place: 0 }, vec![0, 0, 0]));
        inputs.image[4096] ^= 1;
        assert_eq!(inputs.check(9), (Answer { number: 31, place: 1 }, vec![0, 1, 0]));
    }
}

/// Test 13 over every type and every size.
#[test]
fn types_and_sizes() {
    let passes = |hash_type, hash_size| {
        tested(&DirectoryPlan { hash_type, hash_size, ..DirectoryPlan::new(0x20001) }) == 0
    };
    let pairs = (0..=255).flat_map(|hash_type| (0..=255).map(move |size| (hash_type, size)));
    let passed: Vec<(u8, u8)> = pairs.filter(|&(kind, size)| passes(kind, size)).collect();
    assert_eq!(passed, [(1, 20), (2, 32), (3, 20), (4, 48)]);
}

/// Test 17 at both ends: a special slot at the head's end, a code slot at the directory's end.
#[test]
fn slots_inside() {
    for (kind, lowest) in KINDS.into_iter().zip([64, 76, 64, 92]) {
        let mut plan = DirectoryPlan::of_kind(0x20001, kind).with_special(1, vec![1; width(kind)]);
        plan.tail = vec![0; 48];
        for (offset, number) in [(lowest, 0), (lowest - 1, 17)] {
            plan.hash_offset = Some(offset);
            assert_eq!(tested(&plan), number, "kind {kind}");
        }
        let mut plan = DirectoryPlan::of_kind(0x20001, kind).over(&[7; 4097], 12);
        let start = plan.slots_start() as u32;
        for (offset, number) in [(start, 0), (start + 1, 17)] {
            plan.hash_offset = Some(offset);
            assert_eq!(tested(&plan), number, "kind {kind}");
        }
    }
}

/// A special slot is empty where all bytes of its width are zero, and no other byte counts.
#[test]
fn empty_slots() {
    for kind in KINDS {
        let mut without = plan(kind);
        without.directory.special[4].fill(0);
        answered(&without.build(), 23, 5);
        without.blobs.remove(1);
        answered(&without.build(), 0, 0);
        for at in [0, width(kind) - 1] {
            let mut filled = without.clone();
            filled.directory.special[4][at] = 1;
            answered(&filled.build(), 21, 5);
        }
    }
}

/// A thing that is hashed by another kind does not agree, be it as wide.
#[test]
fn things_by_the_kind() {
    for (kind, other) in [(1, 3), (3, 1), (2, 4), (4, 2), (4, 1)] {
        let mut plan = plan(kind);
        let mut slot = kinds::digest(other, b"resources");
        slot.resize(width(kind), 0);
        plan.directory.special[2] = slot;
        answered(&plan.build(), 22, 3);
    }
    let mut cut = plan(3);
    cut.directory.special[2] = kinds::digest(2, b"resources")[..20].to_vec();
    answered(&cut.build(), 0, 0);
}

/// Slots are compared whole; an all-zero code slot is compared as any other.
#[test]
fn slots_differ() {
    for kind in KINDS {
        let mut last = plan(kind);
        *last.directory.code[2].last_mut().unwrap() ^= 1;
        answered(&last.build(), 31, 2);
        let mut zeros = plan(kind);
        zeros.directory.code[1].fill(0);
        answered(&zeros.build(), 31, 1);
    }
}

/// 26 and 27: the entry has the directory's hash by its kind, and that kind.
#[test]
fn cache_entries() {
    for kind in KINDS {
        let plan = plan(kind);
        let with = |change: &dyn Fn(&mut CachePlan)| {
            let mut cache = plan.cache();
            change(&mut cache);
            Inputs { cache: cache.bytes(), ..plan.build() }
        };
        for hash_type in 0..=255 {
            let number = if hash_type == kind { 0 } else { 27 };
            answered(&with(&|c| c.entries[0].hash_type = hash_type), number, 0);
        }
        let bytes = plan.directory.bytes();
        for other in KINDS {
            let hash = cut(&kinds::digest(u64::from(other), &bytes));
            let same = hash == plan.directory.cdhash();
            assert_eq!(same, kind == other || [kind, other] == [2, 3] || [kind, other] == [3, 2]);
            let number = if same { 0 } else { 26 };
            answered(&with(&|c| c.entries[0].hash = hash), number, 0);
        }
    }
}
