//! Faults in a good signature: one for each of tests 1 to 18.

use reference::directory::MOST_CODE_LIMIT;
use reference::kinds::{
    CS_HASHTYPE_SHA1, CS_HASHTYPE_SHA256, CS_HASHTYPE_SHA256_TRUNCATED, CS_HASHTYPE_SHA384,
};
use reference::make::{put32, put64, BlobPlan, DirectoryPlan, SignaturePlan};

/// Tests 1 to 18, in the order in which they are made.
pub const TESTS: [u32; 20] =
    [1, 2, 3, 4, 5, 6, 7, 8, 9, 10, 11, 12, 13, 14, 46, 15, 35, 16, 17, 18];

/// A good signature to damage, with its directory's place.
pub struct Subject {
    plan: SignaturePlan,
    directory: usize,
    /// The directory's head size, and the lowest hashOffset that leaves room for its special slots.
    head: u32,
    lowest: u32,
    /// A hash type that has not the directory's hashSize.
    other_type: u8,
}

/// A kind that is not as wide, another one for each.
fn other_width(kind: u8) -> u8 {
    match kind {
        CS_HASHTYPE_SHA1 => CS_HASHTYPE_SHA256,
        CS_HASHTYPE_SHA256 => CS_HASHTYPE_SHA1,
        CS_HASHTYPE_SHA256_TRUNCATED => CS_HASHTYPE_SHA384,
        _ => CS_HASHTYPE_SHA256_TRUNCATED,
    }
}

impl Subject {
    /// A signature and the plan of its directory.
    pub fn new(plan: SignaturePlan, built: &DirectoryPlan) -> Subject {
        let is_directory = |blob: &BlobPlan| blob.kind == 0;
        let directory = plan.blobs.iter().position(is_directory).expect("a blob of type 0");
        let special: usize = built.special.iter().map(Vec::len).sum();
        let head = built.head() as u32;
        let lowest = head + special as u32;
        Subject { plan, directory, head, lowest, other_type: other_width(built.kind) }
    }

    pub fn bytes(&self) -> Vec<u8> {
        self.plan.bytes()
    }

    /// Makes the fault of a number; at `position` where the test runs over positions.
    pub fn damage(&self, bytes: &mut Vec<u8>, number: u32, position: usize) {
        let starts = self.plan.starts();
        let (start, directory) = (starts[position], starts[self.directory]);
        let (index, blobs) = (12 + 8 * position, &self.plan.blobs);
        let index_end = 12 + 8 * blobs.len() as u32;
        let before = &blobs[(position + blobs.len() - 1) % blobs.len()];
        match number {
            1 => bytes.truncate(11),
            2 => put32(bytes, 0, 0xFADE0CC1),
            3 => put32(bytes, 8, 65),
            4 => put32(bytes, 4, index_end - 1),
            5 => put32(bytes, index, 6),
            6 => put32(bytes, index, before.kind),
            7 => put32(bytes, index + 4, index_end - 1),
            8 => put32(bytes, start, 0xFADE0C03),
            9 => put32(bytes, start + 4, blobs[position].bytes.len() as u32 + 1),
            10 => put32(bytes, 12 + 8 * self.directory, 0x1001),
            11 => put32(bytes, directory + 8, 0x20601),
            12 => put32(bytes, directory + 4, self.head - 1),
            13 => bytes[directory + 37] = self.other_type,
            14 => bytes[directory + 39] = 13,
            46 => put32(bytes, directory + 12, 0x33F03),
            15 => put64(bytes, directory + 56, MOST_CODE_LIMIT + 1),
            35 => bytes[directory + 47] = 1,
            16 => put32(bytes, directory + 24, 12),
            17 => put32(bytes, directory + 16, self.lowest - 1),
            18 => put32(bytes, directory + 20, self.head - 1),
            _ => unreachable!("no such fault"),
        }
    }
}
