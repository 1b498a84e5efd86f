//! Inputs that a whole check accepts.

use reference::directory::CS_ALLOWED_MACHO;
use reference::inputs::{InputsPlan, SYSTEM_SERVICE};
use reference::kinds::{
    CS_HASHTYPE_SHA1, CS_HASHTYPE_SHA256, CS_HASHTYPE_SHA256_TRUNCATED, CS_HASHTYPE_SHA384,
};
use reference::make::blob_of;
use reference::random::Random;

const VERSIONS: [u32; 12] = [
    0x20001, 0x200FF, 0x20100, 0x201FF, 0x20200, 0x202FF, 0x20300, 0x203FF, 0x20400, 0x20500,
    0x205FF, 0x20600,
];

/// Lengths at the ends of hash blocks of both sizes and of pages.
const LENGTHS: [usize; 20] = [
    0, 1, 55, 56, 63, 64, 111, 112, 127, 128, 4095, 4096, 4097, 8192, 8193, 12289, 16383, 16384,
    16385, 20480,
];

/// Hash kinds: SHA-256 is the common one.
const KINDS: [u8; 5] = [
    CS_HASHTYPE_SHA1,
    CS_HASHTYPE_SHA256,
    CS_HASHTYPE_SHA256,
    CS_HASHTYPE_SHA256_TRUNCATED,
    CS_HASHTYPE_SHA384,
];

/// The types of blobs beside the directory.
pub const OTHERS: [u32; 13] =
    [2, 5, 7, 8, 9, 10, 11, 0x1000, 0x1001, 0x1002, 0x1003, 0x1004, 0x10000];

/// Up to `most` bytes.
pub fn some_bytes(most: u64, random: &mut Random) -> Vec<u8> {
    let count = random.below(most + 1) as usize;
    random.bytes(count)
}

fn image(random: &mut Random) -> Vec<u8> {
    let length = match random.below(3) {
        0 => random.below(24_000) as usize,
        _ => *random.pick(&LENGTHS),
    };
    random.bytes(length)
}

/// Some of the other blobs, in some order.
fn blobs(random: &mut Random) -> Vec<(u32, Vec<u8>)> {
    let share = random.below(4);
    let mut blobs: Vec<(u32, Vec<u8>)> = Vec::new();
    for kind in OTHERS {
        if random.below(4) < share {
            let at = random.below(blobs.len() as u64 + 1) as usize;
            blobs.insert(at, (kind, blob_of(kind, &some_bytes(140, random))));
        }
    }
    blobs
}

fn side_file(random: &mut Random) -> Option<Vec<u8>> {
    (random.below(3) == 0).then(|| some_bytes(300, random))
}

fn hash(random: &mut Random) -> [u8; 20] {
    std::array::from_fn(|_| random.byte())
}

pub fn good(random: &mut Random) -> InputsPlan {
    let (version, kind) = (*random.pick(&VERSIONS), *random.pick(&KINDS));
    let image = image(random);
    let mut plan = InputsPlan::of_kind(kind, version, image, *random.pick(&[12, 12, 14, 0]));
    plan.directory.flags = random.number() as u32 & CS_ALLOWED_MACHO as u32;
    plan.directory.platform = random.byte();
    plan.directory.identifier = some_bytes(30, random).into_iter().map(|b| b | 1).collect();
    plan.directory.tail = some_bytes(20, random);
    plan.blobs = blobs(random);
    plan.info = side_file(random);
    plan.resources = side_file(random);
    plan.neighbours = (0..random.below(9)).map(|_| hash(random)).collect();
    plan.category = random.below(2) as u8;
    plan.launch = SYSTEM_SERVICE;
    plan.covered()
}
