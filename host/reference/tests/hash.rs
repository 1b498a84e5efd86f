//! The hash kinds against published vectors, and what the sources print about hashes.

use reference::directory::{cdhash, cut};
use reference::kinds::{digest, width, KINDS};
use reference::make::blob;

const SHA1: u64 = 1;
const SHA256: u64 = 2;
const SHA256_TRUNCATED: u64 = 3;
const SHA384: u64 = 4;

/// 448 bits: with blocks of 512 bits the padding needs a second block.
const BITS_448: &[u8] = b"abcdbcdecdefdefgefghfghighijhijkijkljklmklmnlmnomnopnopq";
/// 896 bits: with blocks of 1,024 bits the padding needs a second block.
const BITS_896: &[u8] = b"abcdefghbcdefghicdefghijdefghijkefghijklfghijklmghijklmn\
    hijklmnoijklmnopjklmnopqklmnopqrlmnopqrsmnopqrstnopqrstu";

fn hex(bytes: &[u8]) -> String {
    bytes.iter().map(|byte| format!("{byte:02x}")).collect()
}

fn agrees(kind: u64, message: &[u8], wanted: &str) {
    assert_eq!(hex(&digest(kind, message)), wanted, "kind {kind}");
}

#[test]
fn sha1() {
    agrees(SHA1, b"", "da39a3ee5e6b4b0d3255bfef95601890afd80709");
    agrees(SHA1, b"abc", "a9993e364706816aba3e25717850c26c9cd0d89d");
    agrees(SHA1, BITS_448, "84983e441c3bd26ebaae4aa1f95129e5e54670f1");
    agrees(SHA1, BITS_896, "a49b2446a02c645bf419f995b67091253a04a259");
    agrees(SHA1, &vec![b'a'; 1_000_000], "34aa973cd4c4daa4f61eeb2bdbad27316534016f");
}

#[rustfmt::skip]
const SHA256_VECTORS: [(&[u8], &str); 4] = [
    (b"", "e3b0c44298fc1c149afbf4c8996fb92427ae41e4649b934ca495991b7852b855"),
    (b"abc", "ba7816bf8f01cfea414140de5dae2223b00361a396177a9cb410ff61f20015ad"),
    (BITS_448, "248d6a61d20638b8e5c026930c3e6039a33ce45964ff2167f6ecedd419db06c1"),
    (&[b'a'; 1_000_000], "cdc76e5c9914fb9281a1c7e284d73e67f1809a48a497200e046d39ccc7112cd0"),
];

#[test]
fn sha256_and_its_cut() {
    for (message, wanted) in SHA256_VECTORS {
        agrees(SHA256, message, wanted);
        agrees(SHA256_TRUNCATED, message, &wanted[..40]);
    }
}

#[rustfmt::skip]
const SHA384_VECTORS: [(&[u8], &str); 4] = [
    (b"", "38b060a751ac96384cd9327eb1b1e36a21fdb71114be07434c0cc7bf63f6e1da274edebfe76f65fbd51ad2f14898b95b"),
    (b"abc", "cb00753f45a35e8bb5a03d699ac65007272c32ab0eded1631a8b605a43ff5bed8086072ba1e7cc2358baeca134c825a7"),
    (BITS_896, "09330c33f71147e83d192fc782cd1b4753111b173b3b05d22fa08086e3b0f712fcc7c71a557e2db966c3e9fa91746039"),
    (&[b'a'; 1_000_000], "9d0e1809716474cb086e834e310a4a1ced149e9c00f248527972cec5704c2a5b07b8b3dc38ecc4ebae97ddd87f3d8985"),
];

#[test]
fn sha384() {
    for (message, wanted) in SHA384_VECTORS {
        agrees(SHA384, message, wanted);
    }
}

#[test]
fn widths() {
    assert_eq!(KINDS, [1, 2, 3, 4]);
    let widths = [0, 1, 2, 3, 4, 5, 255, 257, 258].map(width);
    let (known, unknown) = ([20, 32, 20, 48].map(Some), None);
    assert_eq!(widths[1..5], known);
    assert_eq!([&widths[..1], &widths[5..]].concat(), [unknown; 5]);
}

#[test]
#[should_panic(expected = "no hash kind has the number 5")]
fn digest_of_another_number() {
    digest(5, b"");
}

/// Document 002's empty requirements blob. Its digest is the slot -2 of every image that
/// is signed without requirements.
#[test]
fn empty_requirements() {
    let bytes = blob(0xFADE0C01, &[0; 4]);
    assert_eq!(bytes, [0xFA, 0xDE, 0x0C, 0x01, 0, 0, 0, 0x0C, 0, 0, 0, 0]);
    agrees(SHA256, &bytes, "987920904eab650e75788c054aa0b0524e6a80bfc71aa32df8d237a61743f986");
}

/// Document 000 prints a directory's full hash and its cut.
#[test]
fn cut_hash() {
    let full = "c46e56e9490d93fe35a76199bdb367b3463c91dcdb3c46403ab8ba1c2d13fd86";
    let bytes: Vec<u8> =
        (0..32).map(|i| u8::from_str_radix(&full[2 * i..2 * i + 2], 16).unwrap()).collect();
    assert_eq!(hex(&cut(&bytes)), "c46e56e9490d93fe35a76199bdb367b3463c91dc");
}

/// A directory's own hash is by its kind.
#[test]
fn cut_by_kind() {
    let cut = KINDS.map(|kind| hex(&cdhash(u64::from(kind), b"abc")));
    assert_eq!(cut[0], "a9993e364706816aba3e25717850c26c9cd0d89d");
    assert_eq!(cut[1], "ba7816bf8f01cfea414140de5dae2223b00361a3");
    assert_eq!(cut[2], cut[1]);
    assert_eq!(cut[3], "cb00753f45a35e8bb5a03d699ac65007272c32ab");
}
