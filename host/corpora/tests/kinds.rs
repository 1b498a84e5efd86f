//! What the cases by hash kind are meant to show, by the answers of document 02's item 2.

mod lines;

use lines::{answered, lines_of};

const KINDS: [u8; 4] = [1, 2, 3, 4];

/// Every case is answered so.
fn all_answer(lines: &[String], cases: &[(&str, &str)]) {
    for (name, wanted) in cases {
        assert_eq!(&answered(lines, name), wanted, "{name}");
    }
}

/// Of all types and sizes the four kinds with their own sizes pass test 13.
#[test]
fn types_and_sizes() {
    let lines = lines_of("signatures");
    let mut passed = Vec::new();
    for hash_type in [0, 1, 2, 3, 4, 5, 255] {
        for size in [0, 19, 20, 21, 31, 32, 33, 47, 48, 49, 64] {
            match answered(lines, &format!("kind {hash_type} of {size} bytes")).as_str() {
                "0 0" => passed.push((hash_type, size)),
                said => assert_eq!(said, "13 0"),
            }
        }
    }
    assert_eq!(passed, [(1, 20), (2, 32), (3, 20), (4, 48)]);
}

/// Test 17 on both sides of the lowest and of the highest hashOffset.
#[test]
fn slot_bounds() {
    let lines = lines_of("signatures");
    for (kind, lowest) in KINDS.into_iter().zip([64, 76, 64, 92]) {
        for (offset, wanted) in [(lowest, "0 0"), (lowest - 1, "17 0")] {
            let name = format!("kind {kind}, 1 special and 0 code slots, hashOffset {offset}");
            assert_eq!(answered(lines, &name), wanted, "{name}");
        }
        // Head, identifier and the bytes behind the slots: 44 + 3 + 7.
        for (offset, wanted) in [(54, "0 0"), (55, "17 0")] {
            let name = format!("kind {kind}, 0 special and 1 code slots, hashOffset {offset}");
            assert_eq!(answered(lines, &name), wanted, "{name}");
        }
    }
    for kind in [1, 3, 4] {
        let name = format!("kind {kind}, 65536 code slots");
        assert_eq!(answered(lines, &name), "0 0");
        assert_eq!(answered(lines, &format!("{name} but a byte")), "17 0");
    }
}

/// The earlier of two faults decides.
#[test]
fn two_faults() {
    let lines = lines_of("signatures");
    for kind in [1, 3, 4] {
        for (one, other) in [(10, 13), (12, 13), (13, 14), (13, 17), (16, 17), (17, 18)] {
            let name = format!("kind {kind}, faults {one} and {other}");
            assert_eq!(answered(lines, &name), format!("{one} 0"), "{name}");
        }
    }
}

/// Emptiness and agreement of special slots at the kind's width.
#[test]
fn special_slots() {
    let lines = lines_of("slots");
    for kind in KINDS {
        let said = |what: &str| answered(lines, &format!("kind {kind}, {what}"));
        assert_eq!(said("every thing there"), "0 0");
        assert_eq!(said("slot 5 empty, thing there"), "23 5");
        assert_eq!(said("slot 5 empty, thing missing"), "0 0");
        assert_eq!(said("slot 5 filled, thing missing"), "21 5");
        assert_eq!(said("slot 5 zeros but 19, thing missing"), "21 5");
        assert_eq!(said("slot 5 wrong at 19, thing there"), "22 5");
        for k in [1, 2, 3, 8, 9, 10, 11] {
            assert_eq!(said(&format!("slot {k} empty between filled")), "0 0");
        }
    }
    let cases = [
        ("kind 2, slot 5 zeros but 31, thing missing", "21 5"),
        ("kind 4, slot 5 zeros but 32, thing missing", "21 5"),
        ("kind 4, slot 5 zeros but 47, thing missing", "21 5"),
        ("kind 4, slot 5 wrong at 47, thing there", "22 5"),
        ("kind 1, slot 3 by kind 3", "22 3"),
        ("kind 3, slot 3 by kind 1", "22 3"),
        ("kind 3, slot 7 by kind 2", "0 0"),
        ("kind 2, slot 7 by kind 3", "22 7"),
        ("kind 4, slot 7 by kind 2", "22 7"),
    ];
    all_answer(lines, &cases);
}

/// Test 27 over all pairs of kinds, and 26 where the hash is by another kind.
#[test]
fn entries() {
    let lines = lines_of("checks");
    for (kind, listed) in KINDS.into_iter().flat_map(|kind| KINDS.map(|listed| (kind, listed))) {
        let wanted = if kind == listed { "0 1" } else { "27 1" };
        let name = format!("check, kind {kind}, entry of type {listed}");
        assert_eq!(answered(lines, &name), wanted, "{name}");
    }
    let cases = [
        ("check, kind 1, hash by kind 2", "26 0"),
        ("check, kind 4, hash by kind 2", "26 0"),
        ("check, kind 4, hash by kind 1", "26 0"),
        // The cut of SHA-256 is the same for both.
        ("check, kind 3, hash by kind 2", "0 1"),
        ("check, kind 1, faults 27 and up", "27 1"),
        ("check, kind 4, faults 26 and up", "26 0"),
    ];
    all_answer(lines, &cases);
}

/// Pages and things are hashed by the directory's kind, and compared whole.
#[test]
fn checks() {
    let lines = lines_of("checks");
    for kind in KINDS {
        let said = |what: &str| answered(lines, &format!("check, kind {kind}, {what}"));
        assert_eq!(said("slot 4 zeros but its last byte"), "21 4");
        assert_eq!(said("slot 5 of zeros"), "23 5");
        assert_eq!(said("code slot 1 wrong at 0"), "31 1");
        assert_eq!(said("code slot 2 wrong in its last byte"), "31 2");
        assert_eq!(said("code slot 2 of zeros"), "31 2");
        for pages in ["4096-byte pages", "16384-byte pages", "one page"] {
            assert_eq!(answered(lines, &format!("kind {kind}, {pages}, accepted")), "0 0");
        }
    }
    let cases = [
        ("check, kind 3, pages by kind 1", "31 0"),
        ("check, kind 1, pages by kind 3", "31 0"),
        ("check, kind 4, pages by kind 2", "31 0"),
        ("check, kind 3, pages by kind 2", "0 1"),
        ("check, kind 1, entitlements by kind 2", "22 5"),
        ("check, kind 3, entitlements by kind 2", "0 1"),
        ("check, kind 4, entitlements by kind 2", "22 5"),
        ("check, kind 1, Info.plist by kind 4", "22 1"),
        ("check, kind 3, size of kind 2", "13 0"),
        ("recheck, kind 3, size of kind 2", "13 0"),
        ("check, kind 1, type of kind 3", "22 1"),
        ("recheck, kind 1, type of kind 3", "31 2"),
        ("check, kind 4, type of kind 2", "13 0"),
        ("check, kind 4, faults 17 and 18", "17 0"),
    ];
    all_answer(lines, &cases);
}
