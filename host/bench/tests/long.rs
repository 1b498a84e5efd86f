//! Messages above 2^29 bytes, whose length in bits takes more than 32 bits: the digest by each
//! kind is the one that Python's hashlib gave (`tools/digest-vectors --long`).

#[path = "../src/bin/bench-digest/proved.rs"]
mod proved;

/// Lines of a kind's number, a message's length and the digest in hexadecimal.
const EXPECTED: &str = include_str!("long/digests.txt");

/// With the first the padding of words of 4 bytes takes two blocks, with the second that of
/// words of 8.
const LENGTHS: [usize; 2] = [(1 << 29) + 57, (1 << 29) + 113];

/// Byte i of a message is 131 i + 89 modulo 256.
fn message(length: usize) -> Vec<u8> {
    let period: Vec<u8> = (0..256).map(|i: u32| (131 * i + 89) as u8).collect();
    let mut message = period.repeat(length.div_ceil(period.len()));
    message.truncate(length);
    message
}

fn hexadecimal(bytes: &[u8]) -> String {
    bytes.iter().map(|byte| format!("{byte:02x}")).collect()
}

#[test]
fn digests_of_long_messages() {
    let mut cases = Vec::new();
    for line in EXPECTED.lines() {
        let [kind, length, digest] = line.split(' ').collect::<Vec<_>>()[..] else {
            panic!("not a kind, a length and a digest: {line}");
        };
        let (kind, length): (u32, usize) = (kind.parse().unwrap(), length.parse().unwrap());
        let mut out = [0xff; proved::MOST];
        proved::digest(kind, &message(length), &mut out);
        let (found, behind) = out.split_at(digest.len() / 2);
        assert_eq!(hexadecimal(found), digest, "kind {kind}, {length} bytes");
        assert!(behind.iter().all(|&byte| byte == 0), "kind {kind}, {length} bytes");
        cases.push((kind, length));
    }
    let wanted = [1, 2, 3, 4].map(|kind| LENGTHS.map(|length| (kind, length))).concat();
    assert_eq!(cases, wanted);
}
