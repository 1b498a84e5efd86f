//! What the cases are meant to show: fields that differ, numbers that are not places, limits
//! on both sides.

use std::collections::BTreeSet;

use corpora::case::{Case, SIGNATURE, TYPES};
use corpora::cases::readers;
use corpora::cases::signatures::faults::TESTS;
use corpora::subjects;
use reference::answer::Answer;
use reference::directory;

mod lines;

use lines::{answered, lines_of};

fn signature(case: &Case) -> &[u8] {
    case.field(SIGNATURE).unwrap()
}

/// Nine signatures have fifteen different fields; only where the whole image is one page may the
/// page size be the code limit.
#[test]
fn fields_of_readers_differ() {
    let cases = readers::corpus();
    let mut different = 0;
    for directory in cases.iter().filter_map(|case| directory::read(signature(case), false).ok()) {
        let values: BTreeSet<u64> = directory.fields().into_iter().collect();
        let one_page = directory.page_shift() == 0;
        assert_eq!(values.len(), if one_page { 14 } else { 15 }, "{:?}", directory.fields());
        different += usize::from(!one_page);
    }
    assert_eq!(different, 9);
}

/// Refused readers: every number, and where a number has a place it is another number, not 0.
#[test]
fn places_of_readers_differ_from_numbers() {
    let cases = readers::corpus();
    let refused = cases.iter().filter_map(|case| directory::read(signature(case), false).err());
    let refused: Vec<Answer> = refused.collect();
    let numbers: BTreeSet<u32> = refused.iter().map(|answer| answer.number).collect();
    assert_eq!(numbers, BTreeSet::from(TESTS));
    for answer in refused.into_iter().filter(|answer| (5..=9).contains(&answer.number)) {
        assert!(answer.place != 0 && answer.place != u64::from(answer.number), "{answer:?}");
    }
}

/// All known types and more are looked up in every reader.
#[test]
fn readers_look_all_types_up() {
    for case in readers::corpus() {
        let types: BTreeSet<&[u8]> = case.field(TYPES).unwrap().chunks(4).collect();
        assert!(types.len() > 14 && types.contains(&[0, 0, 0x10, 4][..]));
    }
}

/// Of the 32 bits alone nine pass, in each call that makes test 46.
#[test]
fn bits_alone() {
    for (file, call) in
        [("signatures", "version 0x20001"), ("checks", "check"), ("checks", "recheck")]
    {
        let answers = (0..32).map(|bit| {
            let name = format!("{call}, flags {:#x}", 1u32 << bit);
            answered(lines_of(file), &name)
        });
        let passed: Vec<usize> =
            answers.enumerate().filter(|(_, said)| said == "0 0").map(|(bit, _)| bit).collect();
        assert_eq!(passed, [1, 8, 9, 10, 11, 12, 13, 16, 17], "{call}");
        for flags in ["0x0", "0x33f02"] {
            assert_eq!(answered(lines_of(file), &format!("{call}, flags {flags}")), "0 0");
        }
        for flags in ["0x1", "0x33f03", "0xffffffff"] {
            assert_eq!(answered(lines_of(file), &format!("{call}, flags {flags}")), "46 0");
        }
    }
}

const OLDER: [u32; 2] = [0x20001, 0x200FF];
const WITH_SCATTER: [u32; 11] = [
    0x20100, 0x201FF, 0x20200, 0x202FF, 0x20300, 0x203FF, 0x20400, 0x204FF, 0x20500, 0x205FF,
    0x20600,
];

/// Each byte at 44 to 47 is 35 from version 0x20100 on and free before, in whole checks and in
/// rechecks.
#[test]
fn scatter_offset_of_each_version() {
    let lines = lines_of("checks");
    let older = OLDER.map(|version| (version, "0 0"));
    let later = WITH_SCATTER.map(|version| (version, "35 0"));
    for (version, wanted) in older.into_iter().chain(later) {
        for number in [0, 1, 0x100, 0x10000, 0x1000000, 0xFFFFFFFFu32] {
            for call in ["check", "recheck"] {
                let name = format!("{call}, version {version:#x}, {number:#x} at byte 44");
                let wanted = if number == 0 { "0 0" } else { wanted };
                assert_eq!(answered(lines, &name), wanted, "{name}");
            }
        }
    }
}

/// What lies at bytes 44 to 47 of an older directory is free, and so are bytes 43 and 48 of every
/// other; byte 56 makes codeLimit64 too large from version 0x20300 on.
#[test]
fn bytes_about_scatter_offset() {
    let lines = lines_of("signatures");
    for version in WITH_SCATTER {
        for at in 43..49 {
            let name = format!("version {version:#x}, byte {at} set");
            let wanted = if (44..48).contains(&at) { "35 0" } else { "0 0" };
            assert_eq!(answered(lines, &name), wanted, "{name}");
        }
        let name = format!("version {version:#x}, scatterOffset 0x80000000");
        let with_limit = if version < 0x20300 { "35 0" } else { "15 0" };
        assert_eq!(answered(lines, &format!("{name}, byte 56 set")), with_limit, "{name}");
        assert_eq!(answered(lines, &format!("{name}, byte 63 set")), "35 0", "{name}");
        assert_eq!(answered(lines, &format!("{name}, cut to its head")), "35 0", "{name}");
    }
    for (version, what) in OLDER.into_iter().flat_map(|v| [(v, "identifier"), (v, "a code slot")]) {
        for number in [0, 1, 0x100, 0x10000, 0x1000000] {
            let name = format!("version {version:#x}, {what} at byte 44, {number:#x} there");
            assert_eq!(answered(lines, &name), "0 0", "{name}");
        }
    }
    for kind in ["0x1000", "0x1004"] {
        let name = format!("scatterOffset in the directory of type {kind}");
        assert_eq!(answered(lines, &name), "0 0", "{name}");
    }
}

/// A lookup makes neither 46 nor 35: it finds the directory where the other readers refuse.
#[test]
fn lookup_in_a_directory_that_is_refused() {
    let lines = lines_of("signatures");
    for (name, number) in [
        ("version 0x20001, flags 0xffffffff", 46),
        ("version 0x20100, scatterOffset 0xffffffff", 35),
    ] {
        let line = lines.iter().find(|line| line.starts_with(&format!("{name}: ")));
        let wanted = format!(": {number} 0 | - | {number} 0 - | 0 0 0:20+");
        assert!(line.unwrap().contains(&wanted), "{name}");
    }
}

/// 46 and 35 against their neighbours in the table: readers.
#[test]
fn another_fault_beside() {
    let lines = lines_of("signatures");
    for (one, other, wanted) in [
        (13, 46, "13 0"),
        (14, 46, "14 0"),
        (46, 15, "46 0"),
        (46, 16, "46 0"),
        (46, 17, "46 0"),
        (46, 18, "46 0"),
        (13, 35, "13 0"),
        (14, 35, "14 0"),
        (46, 35, "46 0"),
        (15, 35, "15 0"),
        (35, 16, "35 0"),
        (35, 17, "35 0"),
        (35, 18, "35 0"),
    ] {
        let name = format!("faults {one} and {other} at position 2");
        assert_eq!(answered(lines, &name), wanted, "{name}");
    }
}

/// The same of whole checks and rechecks.
#[test]
fn another_fault_beside_in_checks() {
    let lines = lines_of("checks");
    for (one, other, wanted) in [
        ("flags 0x80000002", "hash size 20", "13 0"),
        ("flags 0x80000002", "pageSize 1", "14 0"),
        ("flags 0x80000002", "limit 2^34 + 1", "46 0"),
        ("flags 0x80000002", "scatterOffset 1", "46 0"),
        ("flags 0x80000002", "two code slots", "46 0"),
        ("flags 0x80000002", "hashOffset 439", "46 0"),
        ("flags 0x80000002", "identOffset 87", "46 0"),
        ("scatterOffset 1", "pageSize 1", "14 0"),
        ("scatterOffset 1", "limit 2^34 + 1", "15 0"),
        ("scatterOffset 1", "two code slots", "35 0"),
        ("limit 2^34 + 1", "pageSize 1", "14 0"),
        ("limit 2^34 + 1", "two code slots", "15 0"),
        ("limit 2^34 + 1", "hashOffset 439", "15 0"),
        ("limit 2^34 + 1", "identOffset 87", "15 0"),
        ("scatterOffset 1", "hashOffset 439", "35 0"),
        ("scatterOffset 1", "identOffset 87", "35 0"),
    ] {
        for call in ["check", "recheck"] {
            let name = format!("{call}, {one} and {other}");
            assert_eq!(answered(lines, &name), wanted, "{name}");
        }
    }
}

/// The code limit is codeLimit64 where that is present and not 0, be it the smaller one, and 15
/// from 2^34 + 1 on alone: readers.
#[test]
fn limits_of_readers() {
    let lines = lines_of("signatures");
    for (name, wanted) in [
        ("limits 4096/0/14, codeLimit's count", "0 0"),
        ("limits 2^32 - 1/0/0, codeLimit's count", "0 0"),
        ("limits 4096/1/12, codeLimit64's count", "0 0"),
        ("limits 4096/8193/12, codeLimit64's count", "0 0"),
        ("limits 4096/8193/12, codeLimit's count", "16 0"),
        ("limits 2^32 - 1/4097/12, codeLimit64's count", "0 0"),
        ("limits 2^32 - 1/4097/12, codeLimit's count", "16 0"),
        ("limits 0/5/12, codeLimit64's count", "0 0"),
        ("limits 0/5/12, codeLimit's count", "16 0"),
        ("limits 0/2^32/12, codeLimit64's count", "17 0"),
        ("limits 0/2^32 + 1/12, codeLimit64's count", "16 0"),
        ("limits 0/2^34/14, codeLimit64's count", "17 0"),
        ("limits 0/2^34/0, codeLimit64's count", "0 0"),
        ("limits 0/2^34 + 1/0, codeLimit64's count", "15 0"),
        ("limits 4096/2^64 - 1/12, codeLimit64's count", "15 0"),
        ("version 0x202ff, 2^64 - 1 at byte 56, one page", "0 0"),
        ("version 0x20600, 2^64 - 1 at byte 56, one page", "15 0"),
        ("version 0x20600, 2^34 at byte 56, one page", "0 0"),
    ] {
        assert_eq!(answered(lines, name), wanted, "{name}");
    }
}

/// The same of whole checks and rechecks.
#[test]
fn limits_of_checks() {
    let lines = lines_of("checks");
    for (name, wanted) in [
        ("check, limits 9000/5000/12", "0 0"),
        ("check, limits 9000/5000/12, next byte changed", "0 0"),
        ("check, limits 9000/5000/12, last byte changed", "31 1"),
        ("check, limits 9000/5000/12, codeLimit's marks", "20 0"),
        ("check, limits 5000/9000/12", "0 0"),
        ("check, limits 5000/9000/12, byte missing", "19 0"),
        ("check, limits 5000/9000/0, last byte changed", "31 0"),
        ("recheck, limits 9000/5000/12, to codeLimit", "32 0"),
        ("recheck, limits 5000/9000/0, to codeLimit64 + 1", "32 0"),
        ("check, version 0x202ff, 0x1388 at 56", "0 0"),
        ("recheck, version 0x202ff, 0xffffffffffffffff at 56", "0 0"),
        ("check, one page of 2^34, 1 marks", "19 0"),
        ("check, one page of 2^34, 0 marks", "19 0"),
        ("check, one page of 2^34 + 1, 1 marks", "15 0"),
        ("recheck, page of 2^34, limit + 0, none", "31 0"),
        ("recheck, page of 2^34, limit + 1, none", "32 0"),
        ("recheck, page of 2^34, 2^32 + 1, none", "33 0"),
        ("recheck, page of 2^32, 2^32 + 1, none", "32 0"),
        ("recheck, page of 2^34, 2 marks", "20 0"),
    ] {
        assert_eq!(answered(lines, name), wanted, "{name}");
    }
}

/// Cases whose answers document 01 gives.
#[test]
fn answers_at_limits() {
    for (name, wanted) in [
        ("check, Info.plist of 4194304", "23 1"),
        ("check, Info.plist of 4194305", "1 0"),
        ("check, CodeResources of 4194304", "23 3"),
        ("check, CodeResources of 4194305", "1 0"),
        ("check, CodeResources of 4194305, short Info.plist", "1 0"),
        ("check, CodeResources of 4194305 not there", "0 0"),
        ("check, Info.plist of 4194305 not there", "0 0"),
        ("recheck, 2 + (2^64 - 1)", "32 0"),
        ("recheck, (2^64 - 1) + 2", "32 0"),
        ("recheck 9000 of 4096-byte pages, 8999 + 1", "0 0"),
        ("recheck 9000 of 4096-byte pages, 8999 + 2", "32 0"),
        ("recheck 9000 of 4096-byte pages, 9000 + 0", "0 0"),
        ("recheck 9000 of 4096-byte pages, 9000 + 1", "32 0"),
        ("recheck 9000 of 4096-byte pages, 9001 + 0", "32 0"),
        ("recheck 9000 of 4096-byte pages, 9001 + 1", "32 0"),
    ] {
        assert_eq!(answered(lines_of("checks"), name), wanted, "{name}");
    }
    for (name, wanted) in [
        ("65536 entries in order, hash of none", "26 0"),
        ("65536 entries in order, hash of the last", "0 65535"),
        ("65536 entries in order, hash of entry 40000", "0 40000"),
        ("65537 entries in order, hash of the first", "24 0"),
        ("category 1, volumes 01, launch 1, validation 1, init 1", "0 0"),
        ("category 1, volumes 10, launch 1, validation 1, init 1", "0 0"),
        ("category 1, volumes 00, launch 1, validation 1, init 1", "29 0"),
        ("category 1, volumes 01, launch 1, validation 2, init 1", "29 0"),
        ("category 1, volumes 01, launch 1, validation 1, init 0", "30 0"),
    ] {
        assert_eq!(answered(lines_of("caches"), name), wanted, "{name}");
    }
}

/// No case is left out.
#[test]
fn number_of_cases() {
    let made = subjects::make();
    let counts: Vec<(&str, usize)> =
        made.iter().map(|made| (made.name, made.lines.len())).collect();
    let wanted =
        [("signatures", 3531), ("readers", 245), ("slots", 826), ("caches", 435), ("checks", 2352)];
    assert_eq!(counts, wanted);
}
