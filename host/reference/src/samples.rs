//! The files of samples/: an image of three pages, its signatures by three hash kinds and the
//! trust cache that lists them all, which are accepted, and the same image damaged in page 1.

use crate::inputs::InputsPlan;
use crate::kinds::{CS_HASHTYPE_SHA1, CS_HASHTYPE_SHA256, CS_HASHTYPE_SHA384};
use crate::make::{blob_of, CachePlan};
use crate::random::Random;

const SEED: u64 = 0x7361_6D70_6C65_0001;
/// Two whole pages of 4,096 bytes and a short one.
const IMAGE_BYTES: usize = 10_000;
/// A byte in the middle of page 1.
const DAMAGED: usize = 6_000;
const ENTITLEMENTS: &[u8] = b"<?xml version=\"1.0\"?><plist version=\"1.0\"><dict/></plist>\n";

/// The signatures' files and their hash kinds.
pub const SIGNATURES: [(&str, u8); 3] = [
    ("signature.bin", CS_HASHTYPE_SHA256),
    ("signature-sha1.bin", CS_HASHTYPE_SHA1),
    ("signature-sha384.bin", CS_HASHTYPE_SHA384),
];

/// The plan of the accepted sample by SHA-256: as a common signer writes it, among five
/// neighbours in the cache.
pub fn plan() -> InputsPlan {
    plan_of(CS_HASHTYPE_SHA256)
}

/// The same by a hash kind.
pub fn plan_of(kind: u8) -> InputsPlan {
    let mut random = Random::new(SEED);
    let mut plan = InputsPlan::of_kind(kind, 0x20400, random.bytes(IMAGE_BYTES), 12);
    plan.directory.identifier = b"com.example.solver".to_vec();
    plan.blobs = vec![
        (2, blob_of(2, &[0; 4])),
        (5, blob_of(5, ENTITLEMENTS)),
        (0x10000, blob_of(0x10000, b"")),
    ];
    plan.neighbours = (1..6).map(|i| [i * 50; 20]).collect();
    plan.covered()
}

/// The cache of all signatures: their plans' entries, each hash once.
pub fn cache() -> CachePlan {
    let listed = |(_, kind)| plan_of(kind).cache().entries;
    let mut entries: Vec<_> = SIGNATURES.into_iter().flat_map(listed).collect();
    entries.sort_by_key(|entry| entry.hash);
    entries.dedup_by_key(|entry| entry.hash);
    CachePlan::new(entries)
}

/// Names and contents of the files.
pub fn files() -> Vec<(&'static str, Vec<u8>)> {
    let image = plan().image;
    let mut damaged = image.clone();
    damaged[DAMAGED] ^= 1;
    let signature = |(name, kind)| (name, plan_of(kind).signature().bytes());
    let mut files: Vec<_> = SIGNATURES.into_iter().map(signature).collect();
    files.push(("image.bin", image));
    files.push(("image-damaged.bin", damaged));
    files.push(("cache.bin", cache().bytes()));
    files
}
