//! Cases for tests 1 to 9.

use reference::make::{blob_of, put32, with32, SignaturePlan};
use reference::superblob::magic_of;

use super::{common, one_page, several, short_blob, signature_of, single, Cases, EDGES, KNOWN};

pub fn add(cases: &mut Cases) {
    lengths(cases);
    long(cases);
    magics(cases);
    counts(cases);
    superblob_lengths(cases);
    kinds(cases);
    repeats(cases);
    offsets(cases);
    far_offsets(cases);
    blob_lengths(cases);
    ends(cases);
    bare_heads(cases);
    blob_magics(cases);
    touching_and_overlapping(cases);
    nested(cases);
    laid_otherwise(cases);
    gaps_and_padding(cases);
}

/// Test 1, lower side, and every cut of a good signature near a boundary.
fn lengths(cases: &mut Cases) {
    cases.add("empty signature", Vec::new());
    let good = single(&one_page(0x20001, 1));
    cases.add("one blob", good.clone());
    for length in (0..=24).chain((25..good.len()).step_by(23)).chain([good.len() - 1]) {
        cases.add(format!("one blob, cut to {length}"), good[..length].to_vec());
    }
    let good = common().bytes();
    cases.add("four blobs", good.clone());
    for length in (20..good.len()).step_by(31) {
        cases.add(format!("four blobs, cut to {length}"), good[..length].to_vec());
    }
    for length in [0, 11, 12, 20] {
        cases.add(format!("{length} bytes of 0x00"), vec![0; length]);
        cases.add(format!("{length} bytes of 0xff"), vec![0xFF; length]);
    }
}

/// Signatures of document 01's longest length and one byte more, which test 1 lets pass: padding up
/// to there, and a blob that fills it. Test 1's own limit is above what a program can hold.
fn long(cases: &mut Cases) {
    for length in [4_194_304, 4_194_305] {
        let mut padded = single(&one_page(0x20001, 1));
        padded.resize(length, 0x55);
        cases.add(format!("padded to {length}"), padded.clone());
        cases.add(format!("padded to {length}, magic wrong"), with32(&padded, 0, 0xFADE0CC1));
        let mut plan = signature_of(&[0, 0x10000]);
        let room = length - plan.bytes().len();
        plan.blobs[1].bytes = blob_of(0x10000, &vec![0x33; room + 4]);
        cases.add(format!("blob that fills {length}"), plan.bytes());
    }
}

/// Test 2: every third bit of the magic, other magics, and the magic's bytes turned round.
fn magics(cases: &mut Cases) {
    let good = common().bytes();
    let bits = (0..32).step_by(3).map(|bit| 0xFADE0CC0 ^ (1 << bit));
    for magic in bits.chain([0, 0xFFFFFFFF, 0xC00CDEFA, 0xFADE0C02, 0xFADE0B01, 0xFADE7171]) {
        cases.add(format!("magic {magic:#010x}"), with32(&good, 0, magic));
    }
}

/// Test 3: counts on a signature with room for 65 index entries, and the good ones.
fn counts(cases: &mut Cases) {
    for count in 1..=KNOWN.len() {
        cases.add(format!("the first {count} known types"), signature_of(&KNOWN[..count]).bytes());
    }
    let mut roomy = signature_of(&KNOWN);
    roomy.padding = vec![0; 600];
    let roomy = roomy.bytes();
    let others = [32, 62, 63, 64, 65, 66, 127, 128, 255, 256, 320, 0x10000, 0x1000001];
    for count in (0..=18).chain(others).chain(EDGES) {
        cases.add(format!("fourteen blobs, count {count}"), with32(&roomy, 8, count));
    }
    for count in [63u32, 64, 65] {
        index_of(cases, count);
    }
}

/// A SuperBlob that is all index, of types known and not, each once or not.
fn index_of(cases: &mut Cases, count: u32) {
    let end = 12 + 8 * count;
    let mut bytes = vec![0; end as usize];
    put32(&mut bytes, 0, 0xFADE0CC0);
    put32(&mut bytes, 4, end);
    put32(&mut bytes, 8, count);
    let name = |what: &str| format!("index of {count}, {what}");
    cases.add(name("type 0 alone"), bytes.clone());
    cases.add(name("SuperBlob a byte shorter"), with32(&bytes, 4, end - 1));
    cases.add(name("SuperBlob a byte longer"), with32(&bytes, 4, end + 1));
    for position in 0..count {
        put32(&mut bytes, 12 + 8 * position as usize, KNOWN[position as usize % KNOWN.len()]);
        put32(&mut bytes, 16 + 8 * position as usize, end);
    }
    cases.add(name("known types, repeated"), bytes.clone());
    for position in 14..count {
        put32(&mut bytes, 12 + 8 * position as usize, 0x2000 + position);
    }
    cases.add(name("unknown types from position 14"), bytes);
}

/// Test 4: the stated length beside the index's end, the blobs' end and the lent end.
fn superblob_lengths(cases: &mut Cases) {
    for (name, plan) in several() {
        for padding in [0, 16] {
            let mut plan = plan.clone();
            plan.padding = vec![0x77; padding];
            let bytes = plan.bytes();
            let (index_end, lent) = (12 + 8 * plan.blobs.len() as u32, bytes.len() as u32);
            let near_index = [0, 12, index_end - 1, index_end, index_end + 7, index_end + 8];
            let near_end = [lent - 17, lent - 16, lent - 1, lent, lent + 1];
            for length in near_index.into_iter().chain(near_end) {
                let name = format!("{name}, padding {padding}, SuperBlob length {length}");
                cases.add(name, with32(&bytes, 4, length));
            }
        }
    }
    let bytes = common().bytes();
    for length in EDGES {
        cases.add(format!("four blobs, SuperBlob length {length}"), with32(&bytes, 4, length));
    }
}

/// Test 5: types beside the known ones, alone and at each of four positions.
fn kinds(cases: &mut Cases) {
    let unknown =
        [255, 256, 0xFFF, 0x1005, 0x1006, 0xFFFF, 0x10001, 0x110000, 0x01000000, 0xFFFFFFFF];
    for kind in (0..=13).chain(unknown).chain([0x1000, 0x1004, 0x10000, 0x80000000, 0x80000002]) {
        let bytes = with32(&signature_of(&[0]).bytes(), 12, kind);
        cases.add(format!("directory alone, type {kind:#x}"), bytes);
    }
    for kind in [1, 3, 4, 6, 12, 0xFFF, 0x1005, 0xFFFF, 0x10001, 0xFFFFFFFF] {
        for position in 0..4 {
            let name = format!("four blobs, type {kind:#x} at position {position}");
            cases.add(name, with32(&common().bytes(), 12 + 8 * position, kind));
        }
    }
    let all = signature_of(&KNOWN).bytes();
    for position in 0..KNOWN.len() {
        let name = format!("fourteen blobs, type 0xc at position {position}");
        cases.add(name, with32(&all, 12 + 8 * position, 12));
    }
}

/// Test 6: each position repeats each earlier one, and several repeats at once.
fn repeats(cases: &mut Cases) {
    let all = signature_of(&KNOWN).bytes();
    for later in 1..KNOWN.len() {
        for earlier in [0, later - 1] {
            let name = format!("fourteen blobs, position {later} repeats type of {earlier}");
            cases.add(name, with32(&all, 12 + 8 * later, KNOWN[earlier]));
        }
    }
    for later in 1..4 {
        for earlier in 0..later {
            let name = |what| format!("four blobs, position {later} repeats {what} of {earlier}");
            let mut plan = common();
            let bytes = with32(&plan.bytes(), 12 + 8 * later, plan.blobs[earlier].kind);
            cases.add(name("type"), bytes);
            plan.blobs[later] = plan.blobs[earlier].clone();
            cases.add(name("blob"), plan.bytes());
        }
    }
    for kind in KNOWN {
        let name = format!("type {kind:#x} at positions 0 and 2");
        cases.add(name, signature_of(&[kind, 0x1003, kind]).bytes());
    }
}

/// Test 7: offsets beside the index's end and beside the SuperBlob's end, by position.
fn offsets(cases: &mut Cases) {
    let mut plans = several();
    plans[1] = ("directory and one blob", signature_of(&[0, 2]));
    for (name, plan) in plans {
        let bytes = plan.bytes();
        let (index_end, length) = (12 + 8 * plan.blobs.len() as u32, bytes.len() as u32);
        let near_index = [0, 12, index_end - 1, index_end, index_end + 1];
        let near_end = [length - 9, length - 8, length - 7, length - 1, length, length + 1];
        for position in [0, plan.blobs.len() - 1] {
            for offset in near_index.into_iter().chain(near_end) {
                let name = format!("{name}, offset {offset} at position {position}");
                cases.add(name, with32(&bytes, 16 + 8 * position, offset));
            }
        }
    }
    beside_the_index(cases);
}

/// Test 7: blobs that start one byte behind the index, or with its last byte.
fn beside_the_index(cases: &mut Cases) {
    let mut shifted = single(&one_page(0x20001, 1));
    shifted.insert(20, 0);
    let shifted = with32(&shifted, 4, shifted.len() as u32);
    for offset in [19, 20, 21, 22] {
        cases.add(format!("blob laid at 21, offset {offset}"), with32(&shifted, 16, offset));
    }
    // All but the first byte of the blob's magic is right.
    for (name, mut plan) in several() {
        plan.blobs[0].bytes.remove(0);
        plan.blobs[0].offset = Some(11 + 8 * plan.blobs.len() as u32);
        cases.add(format!("{name}, blob over the index's last byte"), plan.bytes());
    }
}

/// Test 7: numbers whose sum would wrap in 32 bits.
fn far_offsets(cases: &mut Cases) {
    let good = common().bytes();
    let starts = common().starts();
    for position in [0, 1, 3] {
        for far in [0x7FFFFFFF, 0x80000000, 0xFFFFFFF7, 0xFFFFFFF8, 0xFFFFFFF9, 0xFFFFFFFF] {
            let name = |what| format!("four blobs, {what} {far:#x} at position {position}");
            let offset = with32(&good, 16 + 8 * position, far);
            cases.add(name("offset"), offset.clone());
            cases.add(name("blob length"), with32(&good, starts[position] + 4, far));
            cases.add(name("offset and length"), with32(&offset, starts[position] + 4, far));
        }
        // Offset + length is 0, 1 or the SuperBlob's length modulo 2^32.
        let start = starts[position] as u32;
        for sum in [0, 1, start, good.len() as u32] {
            let name = format!("four blobs, end wraps to {sum} at position {position}");
            cases.add(name, with32(&good, starts[position] + 4, sum.wrapping_sub(start)));
        }
    }
}

/// Test 7: blob lengths about 8 and about what the blob has, by position.
fn blob_lengths(cases: &mut Cases) {
    let plans = [("four blobs", common(), 1), ("fourteen blobs", signature_of(&KNOWN), 4)];
    for (name, plan, step) in plans {
        let good = plan.bytes();
        for (position, start) in plan.starts().into_iter().enumerate().step_by(step) {
            let own = plan.blobs[position].bytes.len() as u32;
            for length in [0, 1, 7, 8, 9, own - 1, own + 1, own + 8] {
                let name = format!("{name}, blob length {length} at position {position}");
                cases.add(name, with32(&good, start + 4, length));
            }
        }
    }
}

/// Test 7: the last blob's end, and its head's end, beside the SuperBlob's end, while the
/// lent bytes go on.
fn ends(cases: &mut Cases) {
    for kinds in [&[0, 2][..], &[2, 0], &[0, 0x10000], &[0, 5, 7]] {
        let mut plan = signature_of(kinds);
        plan.padding = vec![0x66; 24];
        let good = plan.bytes();
        let last = *plan.starts().last().unwrap() as u32;
        let end = good.len() as u32 - 24;
        let name = |what: String| format!("types {kinds:x?}, {what}");
        for length in [last, last + 7, last + 8, last + 9].into_iter().chain(end - 1..=end + 1) {
            cases.add(name(format!("SuperBlob length {length}")), with32(&good, 4, length));
        }
        for extra in [1, 24, 25] {
            let longer = with32(&good, last as usize + 4, end - last + extra);
            cases.add(name(format!("last blob longer by {extra}")), longer.clone());
            let both = with32(&longer, 4, end + extra);
            cases.add(name(format!("last blob and SuperBlob longer by {extra}")), both);
        }
    }
}

/// Test 7: a last blob that is only its head, and the SuperBlob's end beside it.
fn bare_heads(cases: &mut Cases) {
    for kind in [2, 5, 11, 0x1000, 0x10000] {
        let mut plan = signature_of(&[0, kind]);
        plan.blobs[1].bytes = blob_of(kind, &[]);
        cases.add(format!("type {kind:#x} a bare head"), plan.bytes());
        plan.padding = vec![0; 4];
        let good = plan.bytes();
        let end = good.len() as u32 - 4;
        for length in [end - 1, end, end + 1] {
            let name = format!("type {kind:#x} a bare head, SuperBlob length {length}");
            cases.add(name, with32(&good, 4, length));
        }
    }
}

/// Test 8: each type with the magic of each other, and with one bit changed.
fn blob_magics(cases: &mut Cases) {
    let plan = signature_of(&KNOWN);
    let good = plan.bytes();
    let magics = [0xFADE0C02, 0xFADE0C01, 0xFADE7171, 0xFADE7172, 0xFADE8181, 0xFADE0B01];
    for (position, start) in plan.starts().into_iter().enumerate() {
        let own = magic_of(u64::from(KNOWN[position])).unwrap() as u32;
        let changed = [own ^ (1 << (2 * position)), own ^ (1 << (31 - position))];
        for magic in magics.into_iter().chain(changed) {
            let name = format!("fourteen blobs, magic {magic:#x} at position {position}");
            cases.add(name, with32(&good, start, magic));
        }
    }
}

/// Test 9: a blob that ends at another's start, or one byte behind it, whatever stands
/// between the two in the index.
fn touching_and_overlapping(cases: &mut Cases) {
    let orders: [&[usize]; 6] =
        [&[0, 1, 2, 3], &[3, 2, 1, 0], &[1, 3, 0, 2], &[2, 0, 3, 1], &[0, 3, 1, 2], &[3, 0, 2, 1]];
    for order in orders {
        let mut plan = common();
        plan.order = order.to_vec();
        let good = plan.bytes();
        cases.add(format!("four blobs laid as {order:?}"), good.clone());
        for position in 0..4 {
            let start = plan.starts()[position] + 4;
            let own = plan.blobs[position].bytes.len() as u32;
            let room = good.len() as u32 - plan.starts()[position] as u32;
            for length in [own + 1, own + 13, room].map(|length| length.min(room)) {
                let name =
                    format!("laid as {order:?}, blob length {length} at position {position}");
                cases.add(name, with32(&good, start, length));
            }
        }
    }
}

/// Test 9: a blob inside another, at the same place, and sharing only a byte at an end.
fn nested(cases: &mut Cases) {
    for (outer, inner) in [(0x10000, 2), (2, 0x10000), (5, 7), (0x1000, 5), (8, 0x1004)] {
        for inside in [0, 1] {
            let mut contents = vec![0x44; inside];
            contents.extend_from_slice(&short_blob(inner));
            let mut plan = signature_of(&[0, outer, 11]);
            plan.blobs[1].bytes = blob_of(outer, &contents);
            let within = plan.starts()[1] as u32 + 8 + inside as u32;
            for kinds in [[0, outer, inner], [inner, 0, outer], [outer, inner, 0]] {
                let name = format!("{inner:#x} {inside} bytes into {outer:#x}, types {kinds:x?}");
                cases.add(name, reindexed(&plan, kinds, outer, within));
            }
        }
    }
    for (one, other) in [(8, 9), (8, 11), (0x1000, 0x1004), (10, 9), (0, 0x1002), (0x1001, 0)] {
        let mut plan = signature_of(&[one, other]);
        let start = plan.starts()[0] as u32;
        plan.blobs[1].offset = Some(start);
        cases.add(format!("types {one:#x} and {other:#x} at the same place"), plan.bytes());
    }
}

/// The blobs of `plan` under an index of other types: type 0 where position 0 is laid,
/// `outer` where position 1 is, the third type at `within`.
fn reindexed(plan: &SignaturePlan, kinds: [u32; 3], outer: u32, within: u32) -> Vec<u8> {
    let mut bytes = plan.bytes();
    let starts = plan.starts();
    for (position, kind) in kinds.into_iter().enumerate() {
        let offset = match kind {
            0 => starts[0] as u32,
            _ if kind == outer => starts[1] as u32,
            _ => within,
        };
        put32(&mut bytes, 12 + 8 * position, kind);
        put32(&mut bytes, 16 + 8 * position, offset);
    }
    bytes
}

/// Good signatures whose index has other orders than their bytes.
fn laid_otherwise(cases: &mut Cases) {
    for shift in (0..KNOWN.len()).step_by(3) {
        let mut kinds = KNOWN.to_vec();
        kinds.rotate_left(shift);
        let mut plan = signature_of(&kinds);
        cases.add(format!("fourteen blobs, index rotated by {shift}"), plan.bytes());
        plan.order = (0..KNOWN.len()).rev().collect();
        cases.add(format!("fourteen blobs, rotated by {shift}, laid backwards"), plan.bytes());
    }
}

/// Good signatures with bytes of no blob before, between and behind.
fn gaps_and_padding(cases: &mut Cases) {
    for length in [1, 40] {
        for position in 0..4 {
            let mut plan = common();
            plan.blobs[position].gap = vec![0x99; length];
            cases.add(format!("four blobs, gap of {length} before {position}"), plan.bytes());
        }
        let mut plan = common();
        plan.padding = vec![0xFA; length];
        cases.add(format!("four blobs, padding of {length}"), plan.bytes());
    }
}
