//! The cases of the corpora, by subject. Neighbours differ in few bytes, which keeps the
//! files small.

use reference::launch::Launch;

pub mod caches;
pub mod checks;
pub mod readers;
pub mod signatures;
pub mod slots;

/// Both ends of each range of versions.
const VERSIONS: [u32; 13] = [
    0x20001, 0x200FF, 0x20100, 0x201FF, 0x20200, 0x202FF, 0x20300, 0x203FF, 0x20400, 0x204FF,
    0x20500, 0x205FF, 0x20600,
];

/// The first versions that have scatterOffset and codeLimit64, and so tests 35 and 15.
const WITH_SCATTER: u32 = 0x20100;
const WITH_CODE_LIMIT_64: u32 = 0x20300;

/// A side file as it is lent. The bytes of one that is not there are not read.
#[derive(Clone, Debug, Default)]
pub struct SideFile {
    pub there: bool,
    pub bytes: Vec<u8>,
}

impl SideFile {
    /// One that is there, or nothing.
    fn of(file: Option<Vec<u8>>) -> SideFile {
        SideFile { there: file.is_some(), bytes: file.unwrap_or_default() }
    }

    /// The bytes where it is there.
    pub fn lent(&self) -> Option<&[u8]> {
        self.there.then_some(&self.bytes)
    }

    /// The bytes that a case lends; none where it says nothing about them.
    fn field(&self) -> Option<Vec<u8>> {
        (self.there || !self.bytes.is_empty()).then(|| self.bytes.clone())
    }
}

/// The bytes of the facts' field.
fn facts(info: bool, resources: bool, launch: &Launch) -> Vec<u8> {
    vec![
        u8::from(info),
        u8::from(resources),
        u8::from(launch.on_authorized_volume),
        u8::from(launch.on_system_volume),
        launch.launch_type,
        launch.validation_category,
        u8::from(launch.parent_is_init),
    ]
}

/// How pages are cut, as a name says it.
fn paged(page_shift: u8) -> String {
    match page_shift {
        0 => "one page".to_string(),
        shift => format!("{}-byte pages", 1u32 << shift),
    }
}
