//! The straightforward hashes give the reference's digests, and kinds their numbers and widths.

use bench::plain::{Kind, MOST};
use reference::kinds;

/// Two blocks of the longer kind and more: every way of padding.
const LENGTHS: std::ops::Range<usize> = 0..300;

#[test]
fn digests_agree() {
    let message: Vec<u8> = LENGTHS.map(|i| (131 * i + 89) as u8).collect();
    for kind in Kind::ALL {
        for length in LENGTHS {
            let (part, mut buffer) = (&message[..length], [0xff; MOST]);
            let found = kind.digest(part, &mut buffer);
            assert_eq!(found, kinds::digest(kind as u64, part), "{kind:?}, {length} bytes");
        }
    }
}

#[test]
fn numbers_and_widths() {
    for number in 0..=u8::MAX {
        let width = Kind::of(number).map(|kind| kind.width() as u64);
        assert_eq!(width, kinds::width(number.into()), "{number}");
    }
}
