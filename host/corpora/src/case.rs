//! A case of a corpus: a name, an operation, and the fields that the operation is lent.

/// How many fields there are, used or not.
pub const FIELDS: usize = 16;

pub const SIGNATURE: usize = 0;
/// The image, or the lent pages of a recheck.
pub const IMAGE: usize = 1;
pub const CACHE: usize = 2;
pub const INFO: usize = 3;
pub const RESOURCES: usize = 4;
/// Seven bytes: Info.plist there, CodeResources there, on-authorized-volume,
/// on-system-volume, launch-type, validation-category, parent-is-init.
pub const FACTS: usize = 5;
/// Start and length, 8 bytes each, big-endian.
pub const RANGE: usize = 6;
/// Slot types to look up, 4 bytes each, big-endian.
pub const TYPES: usize = 7;
/// The directory's hash, 20 bytes.
pub const HASH: usize = 8;
/// A case without this field goes on with the marks that the call before left.
pub const MARKS: usize = 9;

/// The most characters of a name.
const LONGEST_NAME: usize = 60;

/// What the runner (crates/case_run) does with the fields.
pub mod operation {
    /// The directory's fields, its hash, and lookups.
    pub const SIGNATURE: u8 = 0;
    /// Tests 1 to 18, then 21 to 23.
    pub const SLOTS: u8 = 1;
    /// Tests 24 to 30.
    pub const CACHE: u8 = 2;
    pub const CHECK: u8 = 3;
    pub const RECHECK: u8 = 4;
    /// Document 01's small program; its three fields are names of files.
    pub const SMALL: u8 = 5;
}

/// The bytes of every field; empty where a case has none.
pub type Fields<'a> = [&'a [u8]; FIELDS];

pub struct Case {
    pub name: String,
    pub operation: u8,
    /// The fields that matter, by rising number.
    pub fields: Vec<(usize, Vec<u8>)>,
}

impl Case {
    pub fn field(&self, number: usize) -> Option<&[u8]> {
        self.fields.iter().find(|(field, _)| *field == number).map(|(_, bytes)| bytes.as_slice())
    }

    pub fn lent(&self) -> Fields<'_> {
        std::array::from_fn(|number| self.field(number).unwrap_or_default())
    }
}

/// A name can be printed before a colon.
pub fn is_name(name: &str) -> bool {
    let fits = (1..=LONGEST_NAME).contains(&name.len());
    fits && name.bytes().all(|byte| matches!(byte, b' '..=b'~') && byte != b':')
}
