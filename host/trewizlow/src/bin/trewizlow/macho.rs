//! Files that hold a signature somewhere inside, which is not looked for here.

use crate::files::Lent;

const MACHO: &str = "a Mach-O file";
const UNIVERSAL: &str = "a universal file, which holds several Mach-O files";

/// The first four bytes of such files, as they stand in the file, and what they are.
const KINDS: [([u8; 4], &str); 6] = [
    ([0xFE, 0xED, 0xFA, 0xCE], MACHO),
    ([0xCE, 0xFA, 0xED, 0xFE], MACHO),
    ([0xFE, 0xED, 0xFA, 0xCF], MACHO),
    ([0xCF, 0xFA, 0xED, 0xFE], MACHO),
    ([0xCA, 0xFE, 0xBA, 0xBE], UNIVERSAL),
    ([0xCA, 0xFE, 0xBA, 0xBF], UNIVERSAL),
];

/// A Java class file starts as a universal file does. Where the one has its version, of which
/// this is the first, the other has the number of its architectures.
const JAVA: u32 = 45;

fn kind(bytes: &[u8]) -> Option<&'static str> {
    let (_, kind) = KINDS.iter().find(|(magic, _)| bytes.starts_with(magic))?;
    let next = bytes.get(4..8)?.try_into().ok()?;
    (*kind != UNIVERSAL || u32::from_be_bytes(next) < JAVA).then_some(kind)
}

/// For somebody who takes the whole file for its signature.
pub fn note(signature: &Lent) -> Option<String> {
    let kind = kind(&signature.bytes)?;
    Some(format!(
        "{:?} is {kind}: its signature has to be cut out first; README.md has the recipe \
         under \"A Mach-O file's signature\"",
        signature.path
    ))
}
