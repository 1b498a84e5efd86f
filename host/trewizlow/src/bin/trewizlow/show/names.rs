//! Names of slot types and of special slots, as Apple's headers have them.

/// The known slot types.
pub const BLOBS: [(u32, &str); 14] = [
    (0, "code directory"),
    (2, "requirements"),
    (5, "entitlements"),
    (7, "DER entitlements"),
    (8, "launch constraint on self"),
    (9, "launch constraint on parent"),
    (10, "launch constraint on responsible process"),
    (11, "library constraint"),
    (0x1000, "alternate code directory 0"),
    (0x1001, "alternate code directory 1"),
    (0x1002, "alternate code directory 2"),
    (0x1003, "alternate code directory 3"),
    (0x1004, "alternate code directory 4"),
    (0x10000, "CMS signature"),
];

/// What a special slot covers.
pub fn covered(k: usize) -> &'static str {
    match k {
        1 => "Info.plist",
        3 => "CodeResources",
        4 | 6 => "nothing",
        _ => BLOBS.iter().find(|(kind, _)| *kind as usize == k).map_or("", |(_, name)| name),
    }
}
