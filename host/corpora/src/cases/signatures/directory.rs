//! Cases for tests 10 to 18; those of the code limit and of the code slots' number are in `limits`.

use reference::make::{blob_of, put32, with32, with8, DirectoryPlan, SignaturePlan};
use reference::random::Random;

use super::super::{VERSIONS, WITH_SCATTER};
use super::{common, one_page, short_blob, signature_of, single, slots, Cases, EDGES, KNOWN};

/// Where a signature of one blob has its directory.
pub const START: usize = 20;

pub fn add(cases: &mut Cases) {
    no_directory(cases);
    versions(cases);
    short_directories(cases);
    hash_kinds(cases);
    page_shifts(cases);
    flags(cases);
    other_flags(cases);
    scatter_offsets(cases);
    older_than_scatter(cases);
    other_scatter_offsets(cases);
    special_counts(cases);
    slot_bounds(cases);
    no_slots(cases);
    far_slots(cases);
    identifiers(cases);
    identifier_ends(cases);
    last_bytes(cases);
    free_fields(cases);
    real_digests(cases);
}

/// A signature whose directory is the second of three blobs; names call it `second`.
fn second(plan: &DirectoryPlan) -> Vec<u8> {
    SignaturePlan::new(vec![(2, short_blob(2)), (0, plan.bytes()), (5, short_blob(5))]).bytes()
}

/// Test 10: every known type alone, alternate directories, and all types but 0.
fn no_directory(cases: &mut Cases) {
    for kind in KNOWN {
        cases.add(format!("type {kind:#x} alone"), signature_of(&[kind]).bytes());
    }
    for kind in [0x1000, 0x1001, 0x1004] {
        let directory = one_page(0x20400, 0).bytes();
        let name = format!("directory as type {kind:#x}");
        cases.add(name, SignaturePlan::new(vec![(kind, directory)]).bytes());
    }
    for count in [2, 5, 13] {
        cases.add(format!("{count} types without 0"), signature_of(&KNOWN[1..=count]).bytes());
    }
    cases.add("four blobs, directory as type 0x1000", with32(&common().bytes(), 12, 0x1000));
}

/// Test 11: versions beside every range, on a directory that is long enough for all.
fn versions(cases: &mut Cases) {
    for version in VERSIONS {
        cases.add(format!("version {version:#x}"), single(&one_page(version, 1)));
        cases.add(format!("version {version:#x}, second"), second(&one_page(version, 0)));
    }
    let good = single(&one_page(0x20600, 1));
    let outside =
        [0, 1, 0x10001, 0x1FFFF, 0x20000, 0x20601, 0x20602, 0x206FF, 0x20700, 0x21000, 0x2FFFF];
    let wide = [0x30001, 0x120001, 0x1020001, 0x80020400, 0xFFFFFFFF, 0x01000200, 0x00010002];
    for version in outside.into_iter().chain(wide).chain(VERSIONS) {
        let name = format!("version {version:#x} on a long directory");
        cases.add(name, with32(&good, START + 8, version));
    }
}

/// Test 12: directories cut below their heads, and the cut before the version.
fn short_directories(cases: &mut Cases) {
    for version in [0x20000, 0x20001, 0x20400, 0x20600, 0x20601] {
        let mut bytes = one_page(0x20600, 0).bytes();
        put32(&mut bytes, 8, version);
        for length in (8..=12).chain([43, 44]) {
            let name = format!("version {version:#x} on a long directory, cut to {length}");
            cases.add(name, cut_directory(&bytes, length));
        }
    }
    for version in VERSIONS {
        let plan = one_page(version, 1);
        let bytes = plan.bytes();
        for length in [plan.head() - 1, plan.head(), plan.head() + 1] {
            let name = format!("version {version:#x}, directory cut to {length}");
            cases.add(name, cut_directory(&bytes, length));
        }
    }
}

/// A signature whose directory is cut, and says so.
fn cut_directory(directory: &[u8], length: usize) -> Vec<u8> {
    let mut cut = directory[..length].to_vec();
    put32(&mut cut, 4, length as u32);
    SignaturePlan::new(vec![(0, cut)]).bytes()
}

/// Test 13.
fn hash_kinds(cases: &mut Cases) {
    for plan in [one_page(0x20001, 1), one_page(0x20400, 2)] {
        let good = single(&plan);
        let types = (0..=5).chain([32, 34, 130, 255]).map(|hash_type| (32, hash_type));
        let sizes = [0, 2, 20, 31, 33, 48, 64, 160, 255].map(|size| (size, 2));
        let both = [(20, 1), (48, 4), (2, 32), (31, 1)];
        for (size, hash_type) in types.chain(sizes).chain(both) {
            let name =
                format!("version {:#x}, hash size {size}, hash type {hash_type}", plan.version);
            cases.add(name, with8(&with8(&good, START + 36, size), START + 37, hash_type));
        }
    }
}

/// Test 14. The code limit is at most one page of any of the sizes.
fn page_shifts(cases: &mut Cases) {
    let good = single(&one_page(0x20200, 1));
    for shift in (0..=17).chain([31, 32, 44, 46, 64, 76, 78, 128, 140, 255]) {
        cases.add(format!("pageSize {shift}"), with8(&good, START + 39, shift));
    }
}

/// CS_ALLOWED_MACHO.
const ALLOWED: u32 = 0x33F02;

/// Test 46: each bit alone, with all that are allowed, and left out of them; numbers about the
/// mask, and the mask's bytes in another order.
fn flags(cases: &mut Cases) {
    for (version, special) in [(0x20001, 1), (0x20400, 0)] {
        let mut plan = one_page(version, special);
        plan.identifier = b"flags".to_vec();
        let good = single(&plan);
        let bits = (0..32).map(|bit| 1 << bit);
        let masks = [0, ALLOWED - 1, ALLOWED, ALLOWED + 1, !ALLOWED, !0, ALLOWED.swap_bytes()];
        let with = bits.clone().map(|bit| ALLOWED | bit);
        let without = bits.clone().map(|bit| ALLOWED & !bit);
        for flags in bits.chain(masks).chain(with).chain(without) {
            let name = format!("version {version:#x}, flags {flags:#x}");
            cases.add(name, with32(&good, START + 12, flags));
        }
    }
}

/// Flags that are not the directory's: test 46 does not read them.
fn other_flags(cases: &mut Cases) {
    let mut alternate = one_page(0x20400, 1);
    alternate.flags = !0;
    for kind in [0x1000, 0x1004] {
        let blobs = vec![(0, one_page(0x20400, 1).bytes()), (kind, alternate.bytes())];
        let name = format!("all flags in the directory of type {kind:#x}");
        cases.add(name, SignaturePlan::new(blobs).bytes());
    }
}

/// Test 35: each byte of scatterOffset and its neighbours, every version that has it; the first and
/// the last byte of codeLimit64 beside it, and a directory that ends with its head.
fn scatter_offsets(cases: &mut Cases) {
    for version in VERSIONS.into_iter().filter(|version| *version >= WITH_SCATTER) {
        let plan = one_page(version, 1);
        let good = single(&plan);
        for at in 43..49 {
            let name = format!("version {version:#x}, byte {at} set");
            cases.add(name, with8(&good, START + at, 1));
        }
        for offset in [0x80000000, 0xFFFFFFFF] {
            let name = format!("version {version:#x}, scatterOffset {offset:#x}");
            let scattered = with32(&good, START + 44, offset);
            cases.add(name.as_str(), scattered.clone());
            for at in [56, 63] {
                let name = format!("{name}, byte {at} set");
                cases.add(name, with8(&scattered, START + at, 1));
            }
            let cut = cut_directory(&scattered[START..], plan.head());
            cases.add(name + ", cut to its head", cut);
        }
    }
}

/// Directories of versions that have no scatterOffset, with each byte at 44 to 47 set: they lie
/// in the identifier or in a slot.
fn older_than_scatter(cases: &mut Cases) {
    for version in [0x20001, 0x200FF] {
        let mut named = one_page(version, 1);
        named.identifier = vec![b'i'; 8];
        let mut slot = named.clone();
        (slot.hash_offset, slot.special_count) = (Some(44), Some(0));
        slot.tail = b"behind\0".to_vec();
        slot.ident_offset = Some(slot.bytes().len() as u32 - 7);
        for (what, plan) in [("identifier", named), ("a code slot", slot)] {
            let name = format!("version {version:#x}, {what} at byte 44");
            let good = single(&plan);
            cases.add(name.as_str(), good.clone());
            for number in [0, 1, 0x100, 0x10000, 0x1000000] {
                let name = format!("{name}, {number:#x} there");
                cases.add(name, with32(&good, START + 44, number));
            }
        }
    }
}

/// A scatterOffset that is not the directory's: test 35 does not read it.
fn other_scatter_offsets(cases: &mut Cases) {
    let mut alternate = one_page(0x20400, 1);
    alternate.scatter_offset = 1;
    for kind in [0x1000, 0x1004] {
        let blobs = vec![(0, one_page(0x20400, 1).bytes()), (kind, alternate.bytes())];
        let name = format!("scatterOffset in the directory of type {kind:#x}");
        cases.add(name, SignaturePlan::new(blobs).bytes());
    }
}

/// Test 16: special slots, with room for them.
fn special_counts(cases: &mut Cases) {
    for version in [0x20001, 0x20600] {
        for special in 0..=12 {
            let name = format!("version {version:#x}, {special} special slots");
            cases.add(name, single(&one_page(version, special)));
        }
    }
    let good = single(&one_page(0x20400, 11));
    for count in (9..=13).chain([256, 257, 0x0B000000]).chain(EDGES) {
        let name = format!("eleven special slots, count {count}");
        cases.add(name, with32(&good, START + 24, count));
    }
}

/// Test 17: hashOffset beside the lowest and the highest that passes.
fn slot_bounds(cases: &mut Cases) {
    for version in VERSIONS {
        for (special, code) in [(0, 1), (1, 1), (1, 0)] {
            let mut plan = one_page(version, special);
            plan.code = slots(0xC0, code);
            plan.code_limit = 4096 * code as u32;
            plan.tail = vec![0xEE; 5];
            let lowest = (plan.head() + 32 * special) as u32;
            let highest = plan.bytes().len() as u32 - 32 * code as u32;
            let good = single(&plan);
            for offset in [lowest - 1, lowest, highest, highest + 1] {
                let slots = format!("{special} special and {code} code slots");
                let name = format!("version {version:#x}, {slots}, hashOffset {offset}");
                cases.add(name, with32(&good, START + 16, offset));
            }
        }
    }
}

/// Test 17 without slots: hashOffset is free.
fn no_slots(cases: &mut Cases) {
    let mut plan = one_page(0x20400, 0);
    plan.code_limit = 0;
    plan.code = Vec::new();
    let good = single(&plan);
    for offset in [31, 87, 88].into_iter().chain(EDGES) {
        let name = format!("no slots, hashOffset {offset}");
        let bytes = with32(&good, START + 16, offset);
        cases.add(name.as_str(), bytes.clone());
        cases.add(name + ", pageSize 0", with8(&bytes, START + 39, 0));
    }
}

/// Test 17: offsets far below the head and numbers whose sum would wrap in 32 bits.
fn far_slots(cases: &mut Cases) {
    for (special, code) in [(0, 1), (11, 2), (3, 0)] {
        let mut plan = one_page(0x20300, special);
        plan.code = slots(0xC0, code);
        plan.code_limit = 4096 * code as u32;
        let good = single(&plan);
        let length = plan.bytes().len() as u32;
        let near = [31, 32, 63, 64, 95, 96, length - 32, length - 31, length, length + 1];
        let far = [0xFFFFFFC0, 0xFFFFFFDF, 0xFFFFFFE0, 0xFFFFFFE1, 0xFFFFFE9F, 0xFFFFFEA0];
        for offset in near.into_iter().chain(far).chain(EDGES) {
            let name = format!("{special} special and {code} code slots, hashOffset {offset}");
            cases.add(name, with32(&good, START + 16, offset));
        }
    }
}

/// Test 18: identOffset beside the head's end and the directory's end.
fn identifiers(cases: &mut Cases) {
    for version in VERSIONS {
        let mut plan = one_page(version, 1);
        plan.tail = b"behind\0".to_vec();
        let (head, length) = (plan.head() as u32, plan.bytes().len() as u32);
        let good = single(&plan);
        let near =
            [0, head - 1, head, head + 2, head + 3, length - 7, length - 1, length, length + 1];
        for offset in near {
            let name = format!("version {version:#x}, identOffset {offset}");
            cases.add(name, with32(&good, START + 20, offset));
        }
    }
    let good = single(&one_page(0x20400, 1));
    for offset in [0x10000, 0x80000000, 0xFFFFFFEC, 0xFFFFFFFF] {
        cases.add(format!("identOffset {offset:#x}"), with32(&good, START + 20, offset));
    }
}

/// Test 18: identifiers of several lengths; the zero byte lies in a slot.
fn identifier_ends(cases: &mut Cases) {
    for length in [0, 1, 2, 31, 32, 33, 300] {
        let mut plan = one_page(0x20400, 1);
        plan.identifier = vec![b'n'; length];
        cases.add(format!("identifier of {length} bytes"), single(&plan));
        cases.add(format!("identifier of {length} bytes, second"), second(&plan));
    }
    for at in [0, 1, 31, 32, 63] {
        let mut plan = one_page(0x20200, 1);
        plan.identifier = Vec::new();
        plan.ident_offset = Some(plan.head() as u32 + 1);
        let name = format!("identifier ends at byte {at} of the slots");
        let start = START + plan.head() + 1;
        cases.add(name.as_str(), with8(&single(&plan), start + at, 0));
        let start = second_start() + plan.head() + 1;
        cases.add(name + ", second", with8(&second(&plan), start + at, 0));
    }
}

/// Test 18: the zero byte is the last byte, is missing, or lies just behind the directory.
fn last_bytes(cases: &mut Cases) {
    for last in [0, 1, 0x80, 0xFF] {
        let mut plan = one_page(0x20200, 1);
        plan.identifier = Vec::new();
        plan.tail = vec![b't', b't', last];
        plan.ident_offset = Some(plan.head() as u32 + 1);
        let name = |what| format!("identifier's last byte {last:#x}{what}");
        let mut whole = SignaturePlan::new(vec![(0, plan.bytes())]);
        cases.add(name(""), whole.bytes());
        whole.padding = vec![0; 8];
        cases.add(name(", zeros behind the SuperBlob"), whole.bytes());
        let mut followed = SignaturePlan::new(vec![(0, plan.bytes()), (2, blob_of(2, &[0; 4]))]);
        followed.blobs[1].gap = vec![0; 3];
        cases.add(name(", zeros in a gap"), followed.bytes());
    }
}

/// Where `second` lays its directory.
fn second_start() -> usize {
    12 + 8 * 3 + short_blob(2).len()
}

/// Fields that nothing up to 18 examines.
fn free_fields(cases: &mut Cases) {
    for version in [0x20001, 0x20300, 0x20600] {
        let plan = one_page(version, 2);
        let good = single(&plan);
        let name = |what: String| format!("version {version:#x}, {what}");
        for platform in [1, 255] {
            cases.add(name(format!("platform {platform}")), with8(&good, START + 38, platform));
        }
        let tested = |at: &usize| (44..48).contains(at) || (56..64).contains(at);
        for at in (40..plan.head()).step_by(3).filter(|at| !tested(at)) {
            cases.add(name(format!("byte {at} 0xff")), with8(&good, START + at, 0xFF));
        }
    }
}

/// Directories over real images, as a signer writes them.
fn real_digests(cases: &mut Cases) {
    let image = Random::new(0x7265616C).bytes(16385);
    for (length, shift) in [(1, 12), (4097, 12), (8193, 12), (16385, 14), (16385, 0), (16385, 12)] {
        let plan = one_page(0x20500, 2).over(&image[..length], shift);
        let name = format!("random image of {length}, pageSize {shift}");
        cases.add(name.as_str(), single(&plan));
        cases.add(name + ", second", second(&plan));
    }
}
