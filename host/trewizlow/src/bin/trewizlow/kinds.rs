//! The hash kinds of a code directory, by its hashType.

use crate::found::{bytes, is_since, FIRST_VERSION};
use crate::json::{string, Member};

struct Kind {
    number: u8,
    name: &'static str,
    /// Bytes of a slot: what hashSize has to be.
    width: u8,
    /// Whether two messages with one hash can be made.
    weak: bool,
}

const KINDS: [Kind; 4] = [
    Kind { number: 1, name: "SHA-1", width: 20, weak: true },
    Kind { number: 2, name: "SHA-256", width: 32, weak: false },
    Kind { number: 3, name: "SHA-256 cut to 20 bytes", width: 20, weak: false },
    Kind { number: 4, name: "SHA-384", width: 48, weak: false },
];

fn of(number: u8) -> Option<&'static Kind> {
    KINDS.iter().find(|kind| kind.number == number)
}

/// The name of a hashType. The library may be newer than this table and know more.
pub fn name(number: u8) -> &'static str {
    of(number).map_or("not in this tool's table", |kind| kind.name)
}

/// hashType and hashSize of the signature's directory.
fn found(signature: &[u8]) -> Option<(u8, u8)> {
    let [size, number] = bytes(signature, 36).filter(|_| is_since(signature, FIRST_VERSION))?;
    Some((number, size))
}

/// hashType and hashSize that do not belong together.
pub fn mismatch(signature: &[u8]) -> Option<(u8, u8)> {
    let fits = |number, size| of(number).is_some_and(|kind| kind.width == size);
    found(signature).filter(|&(number, size)| !fits(number, size))
}

/// For somebody who asks what refusal 13 means: which of the two fields it is.
pub fn note(signature: &[u8]) -> Option<String> {
    let (number, size) = mismatch(signature)?;
    let Some(Kind { name, width, .. }) = of(number) else {
        let known: Vec<String> =
            KINDS.iter().map(|kind| format!("{} ({})", kind.number, kind.name)).collect();
        let known = known.join(", ");
        return Some(format!("the directory's hashType, {number}, is none of {known} (13)"));
    };
    Some(format!(
        "the directory's hashType, {number} ({name}), has slots of {width} bytes, and its \
         hashSize is {size} (13)"
    ))
}

/// What the hashes of a weak kind do not say.
pub fn warning(signature: &[u8]) -> Option<String> {
    let (number, size) = found(signature)?;
    let kind = of(number).filter(|kind| kind.weak && kind.width == size)?;
    Some(format!(
        "the directory's hashes are {}, which is weak against collisions: whoever made the \
         image may hold another one with the same hashes; a check says only that the hashes \
         agree",
        kind.name
    ))
}

/// The same as a member of an object.
pub fn warning_member(signature: &[u8]) -> Option<Member> {
    warning(signature).map(|words| ("warning", string(&words)))
}

#[cfg(test)]
mod tests {
    use super::*;

    #[test]
    fn names_of_numbers() {
        let named: Vec<u8> = (0..=u8::MAX).filter(|number| of(*number).is_some()).collect();
        assert_eq!(named, [1, 2, 3, 4]);
        assert_eq!((name(3), name(4)), ("SHA-256 cut to 20 bytes", "SHA-384"));
        assert_eq!(name(5), "not in this tool's table");
    }
}
