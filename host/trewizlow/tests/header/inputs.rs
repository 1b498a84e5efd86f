//! What the calls are lent, built so that no two fields of an answer have the same value.

use reference::inputs::{InputsPlan, SYSTEM_SERVICE};
use reference::make::{blob_of, put32, SignaturePlan};

/// Two pages of 4,096 bytes and one of 1,809.
const IMAGE_BYTES: usize = 10_001;

/// The directory at position 0 of the index, then blobs of types 2, 5, 7 and 0x10000.
pub fn plan() -> InputsPlan {
    let image = (0..IMAGE_BYTES).map(|i| (i * i / 7) as u8).collect();
    let mut plan = InputsPlan::new(0x20400, image, 12);
    plan.directory.flags = 0x1_0002;
    plan.directory.platform = 6;
    plan.directory.identifier = b"com.example.header".to_vec();
    plan.directory.tail = vec![0; 5];
    plan.blobs = vec![
        (2, blob_of(2, &[1; 4])),
        (5, blob_of(5, &[2; 9])),
        (7, blob_of(7, &[3; 16])),
        (0x10000, blob_of(0x10000, &[4; 25])),
    ];
    plan.info = Some(b"Info.plist".to_vec());
    plan.resources = Some(b"CodeResources".to_vec());
    plan.neighbours = (1..6).map(|i| [i * 50; 20]).collect();
    plan.category = 1;
    plan.launch = SYSTEM_SERVICE;
    plan.covered()
}

/// The directory's fields as `plan` lays them down: a head of 88 bytes, an identifier of 18
/// with its zero byte, seven special slots, three code slots, a tail of 5 bytes.
pub const DIRECTORY: [(&str, u64); 15] = [
    ("start", 12 + 8 * 5),
    ("length", 88 + 19 + 32 * (7 + 3) + 5),
    ("version", 0x20400),
    ("flags", 0x1_0002),
    ("hash_offset", 88 + 19 + 32 * 7),
    ("ident_offset", 88),
    ("special_slots", 7),
    ("code_slots", 3),
    ("hash_size", 32),
    ("hash_type", 2),
    ("platform", 6),
    ("page_shift", 12),
    ("code_limit", IMAGE_BYTES as u64),
    ("page_size", 4_096),
    ("ident_length", 18),
];

/// The blobs as `plan` lays them down: type, start, length.
pub const BLOBS: [(u32, u64, u64); 5] =
    [(0, 52, 432), (2, 484, 12), (5, 496, 17), (7, 513, 24), (0x10000, 537, 33)];

/// Types that are known and have no blob in `plan`, then types that are not known.
pub const ABSENT: [u32; 6] = [8, 0x1000, 1, 6, 0x1_0001, u32::MAX];

/// A signature with the number and the place of its refusal.
pub struct Refused {
    pub number: u32,
    pub place: usize,
    pub signature: Vec<u8>,
}

/// One for each of tests 5 to 9, at a position that is neither 0 nor the number.
pub fn refused() -> [Refused; 5] {
    let refused = |number, place, damage: &dyn Fn(&mut SignaturePlan)| {
        let mut plan = plan().signature();
        damage(&mut plan);
        Refused { number, place, signature: plan.bytes() }
    };
    [
        refused(5, 2, &|plan| plan.blobs[2].kind = 6),
        refused(6, 3, &|plan| plan.blobs[3].kind = plan.blobs[1].kind),
        refused(7, 4, &|plan| plan.blobs[4].offset = Some(0)),
        refused(8, 1, &|plan| plan.blobs[1].bytes[0] ^= 1),
        // One byte longer than it is laid, so that it shares one with the next.
        refused(9, 2, &|plan| put32(&mut plan.blobs[1].bytes, 4, 13)),
    ]
}

/// A whole check with its answer and the marks after it, which hold [`BEFORE`] at first.
pub struct Whole {
    pub plan: InputsPlan,
    pub number: u32,
    pub place: usize,
    pub marks: [u8; 3],
}

/// What no call writes.
pub const BEFORE: u8 = 7;

/// Checks that pass tests 1 to 20, with side files, blobs, cache and image changed in turn.
pub fn whole_checks() -> Vec<Whole> {
    let whole = |number, place, marks, change: &dyn Fn(&mut InputsPlan)| {
        let mut plan = plan();
        change(&mut plan);
        Whole { plan, number, place, marks }
    };
    let kept = [BEFORE; 3];
    let entry = plan().cache().entries.iter().position(|entry| entry.category == 1);
    vec![
        whole(0, entry.expect("its own entry"), [0; 3], &|_| {}),
        whole(21, 4, kept, &|plan| plan.directory.special[3] = vec![1; 32]),
        whole(21, 3, kept, &|plan| plan.resources = None),
        whole(21, 1, kept, &|plan| plan.info = None),
        whole(22, 3, kept, &|plan| plan.resources = plan.info.clone()),
        whole(22, 1, kept, &|plan| plan.info = plan.resources.clone()),
        whole(23, 5, kept, &|plan| plan.directory.special[4] = plan.directory.empty()),
        whole(28, 9, kept, &|plan| plan.category = 9),
        whole(31, 2, [0, 0, 1], &|plan| plan.image[9_000] ^= 1),
    ]
}
