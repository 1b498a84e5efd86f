//! Cases for the code limit and the number of code slots: tests 15 and 16.

use reference::directory::MOST_CODE_LIMIT;
use reference::make::{put64, with32, with8, DirectoryPlan};

use super::super::WITH_CODE_LIMIT_64;
use super::directory::START;
use super::{one_page, single, slots, Cases};

pub fn add(cases: &mut Cases) {
    code_limits_64(cases);
    code_limits(cases);
    many_slots(cases);
    code_counts(cases);
    chosen_limits(cases);
    limits_by_version(cases);
}

/// Each byte of codeLimit64 alone, where the version has it and where it has not.
fn code_limits_64(cases: &mut Cases) {
    for version in [0x202FF, 0x20300, 0x203FF, 0x20400, 0x205FF, 0x20600] {
        let plan = one_page(version, 1);
        let good = single(&plan);
        let first = if version < WITH_CODE_LIMIT_64 { 55 } else { 52 };
        for at in first..66 {
            let name = format!("version {version:#x}, byte {at} set");
            cases.add(name, with8(&good, START + at, 1 + at as u8));
        }
    }
    for version in [0x20001, 0x200FF, 0x20100, 0x20200, 0x202FF] {
        let mut plan = one_page(version, 0);
        plan.identifier = vec![b'i'; 30];
        let name = format!("version {version:#x}, identifier over byte 56");
        cases.add(name.as_str(), single(&plan));
        cases.add(name + ", zeros there", with32(&single(&plan), START + 56, 0));
    }
}

/// Test 16: the slots that each code limit wants, one less and one more.
fn code_limits(cases: &mut Cases) {
    let limits = [0u32, 1, 4095, 4096, 4097, 8192, 8193, 16383, 16384, 16385, 32769];
    for shift in [12u8, 14, 0] {
        for limit in limits {
            for change in [0, 1, -1] {
                let count = i64::from(wanted(limit, shift)) + change;
                if count >= 0 {
                    add_limit(cases, &with_limit(limit, shift, count as usize));
                }
            }
        }
    }
    for limit in [0x7FFFFFFF, 0x80000000, 0xFFFFF000, 0xFFFFFFFF] {
        for count in [0, 1, 2] {
            add_limit(cases, &with_limit(limit, 0, count));
            add_limit(cases, &with_limit(limit, 12, count));
        }
    }
}

/// A directory named by its code limit, page size and code slots.
fn add_limit(cases: &mut Cases, plan: &DirectoryPlan) {
    let (limit, shift, count) = (plan.code_limit, plan.page_shift, plan.code.len());
    let name = format!("code limit {limit}, pageSize {shift}, {count} code slots");
    cases.add(name, single(plan));
}

fn wanted(limit: u32, shift: u8) -> u32 {
    match shift {
        0 => u32::from(limit > 0),
        _ => limit.div_ceil(1 << shift),
    }
}

fn with_limit(limit: u32, shift: u8, count: usize) -> DirectoryPlan {
    let mut plan = one_page(0x20100, 1);
    plan.code_limit = limit;
    plan.page_shift = shift;
    plan.code = slots(0xC0, count);
    plan
}

/// 65,536 code slots, the most of document 01, and one more. The slots are one run of equal bytes.
fn many_slots(cases: &mut Cases) {
    let many = 65_536u32;
    for (shift, limit, count) in [
        (12, many << 12, many),
        (12, (many << 12) + 1, many + 1),
        (12, (many << 12) - 4095, many),
        (12, (many << 12) - 4096, many - 1),
        (14, many << 14, many),
        (14, (many << 14) + 1, many + 1),
    ] {
        let mut plan = with_limit(limit, shift, 0);
        plan.code = vec![vec![0xC7; 32]; count as usize];
        add_limit(cases, &plan);
    }
    // Right by the arithmetic, and without the slots.
    for (shift, limit) in
        [(12, (many << 12) + 1), (12, 0xFFFFFFFF), (14, 0xFFFFFFFF), (12, 0x80000000)]
    {
        let mut plan = with_limit(limit, shift, 1);
        plan.code_count = Some(wanted(limit, shift));
        let name = format!("code limit {limit}, pageSize {shift}, right count, no slots");
        cases.add(name, single(&plan));
    }
}

/// Test 16: the count's field alone.
fn code_counts(cases: &mut Cases) {
    for plan in [one_page(0x20400, 1), with_limit(8193, 12, 3), with_limit(0, 12, 0)] {
        let good = single(&plan);
        for count in
            (0..=4).chain([257, 65536, 65537, 1_048_576, 1_048_577, 0x01000000, 0xFFFFFFFF])
        {
            let name = format!("code limit {}, code slot count {count}", plan.code_limit);
            cases.add(name, with32(&good, START + 28, count));
        }
    }
}

/// Code limits that border on something, as names call them.
const LIMITS: [(&str, u64); 17] = [
    ("0", 0),
    ("1", 1),
    ("5", 5),
    ("4095", 4095),
    ("4096", 4096),
    ("4097", 4097),
    ("8193", 8193),
    ("2^31", 1 << 31),
    ("2^32 - 1", (1 << 32) - 1),
    ("2^32", 1 << 32),
    ("2^32 + 1", (1 << 32) + 1),
    ("2^32 + 4096", (1 << 32) + 4096),
    ("2^34 - 1", MOST_CODE_LIMIT - 1),
    ("2^34", MOST_CODE_LIMIT),
    ("2^34 + 1", MOST_CODE_LIMIT + 1),
    ("2^63", 1 << 63),
    ("2^64 - 1", u64::MAX),
];

/// The slots that a limit wants, or as many as the count's field can say.
fn wanted_64(limit: u64, shift: u8) -> u32 {
    let page = if shift == 0 { limit.max(1) } else { 1 << shift };
    limit.div_ceil(page).min(u32::MAX.into()) as u32
}

/// Tests 15 and 16 of both limits: each codeLimit64 beside a codeLimit, with the count that each of
/// them wants. No more than three slots are there.
fn chosen_limits(cases: &mut Cases) {
    for shift in [12u8, 14, 0] {
        for (small, limit) in [("0", 0), ("4096", 4096), ("2^32 - 1", u32::MAX)] {
            for (large, limit_64) in LIMITS {
                let counts = [wanted_64(limit_64, shift), wanted(limit, shift)];
                for (whose, count) in ["codeLimit64", "codeLimit"].into_iter().zip(counts) {
                    let mut plan = with_limit(limit, shift, count.min(3) as usize);
                    (plan.version, plan.code_limit64) = (WITH_CODE_LIMIT_64, limit_64);
                    plan.code_count = Some(count);
                    let name = format!("limits {small}/{large}/{shift}, {whose}'s count");
                    cases.add(name, single(&plan));
                }
            }
        }
    }
}

/// The last version without codeLimit64, whatever is there, and versions that have it.
fn limits_by_version(cases: &mut Cases) {
    for version in [0x202FF, 0x203FF, 0x20400, 0x205FF, 0x20600] {
        for (large, limit_64) in LIMITS {
            for (pages, shift) in [("4096 bytes", 12), ("one page", 0)] {
                let mut plan = one_page(version, 1);
                plan.page_shift = shift;
                let mut bytes = single(&plan);
                put64(&mut bytes, START + 56, limit_64);
                cases.add(format!("version {version:#x}, {large} at byte 56, {pages}"), bytes);
            }
        }
    }
}
