//! The calls that are lent marks: the whole check and the recheck.

use crate::{Answer, Verdict};

/// The launch facts that a trust cache entry of category 1 puts constraints on.
#[repr(C)]
#[derive(Clone, Copy, Debug, Default, PartialEq, Eq)]
pub struct Launch {
    pub on_authorized_volume: bool,
    pub on_system_volume: bool,
    pub launch_type: u8,
    pub validation_category: u8,
    pub parent_is_init: bool,
}

/// What a whole check is lent, but for the marks.
#[derive(Clone, Copy, Debug)]
pub struct Lent<'a> {
    pub signature: &'a [u8],
    pub image: &'a [u8],
    pub cache: &'a [u8],
    /// The Info.plist, where there is one. An empty file that is there is there.
    pub info_plist: Option<&'a [u8]>,
    /// The CodeResources, where they are there.
    pub code_resources: Option<&'a [u8]>,
    pub launch: Launch,
}

impl<'a> Lent<'a> {
    /// Without side files, every launch fact false or 0.
    pub fn new(signature: &'a [u8], image: &'a [u8], cache: &'a [u8]) -> Lent<'a> {
        let launch = Launch::default();
        Lent { signature, image, cache, info_plist: None, code_resources: None, launch }
    }
}

extern "C" {
    fn trewizlow_check(
        signature: *const u8,
        signature_len: usize,
        image: *const u8,
        image_len: usize,
        marks: *mut u8,
        marks_len: usize,
        cache: *const u8,
        cache_len: usize,
        info_there: bool,
        info: *const u8,
        info_len: usize,
        resources_there: bool,
        resources: *const u8,
        resources_len: usize,
        launch: Launch,
    ) -> Verdict;

    fn trewizlow_recheck(
        signature: *const u8,
        signature_len: usize,
        start: u64,
        length: u64,
        pages: *const u8,
        pages_len: usize,
        marks: *mut u8,
        marks_len: usize,
    ) -> Answer;
}

/// The whole check: tests 1 to 31. Lend one mark for each page, `code_slots` of [`read`].
/// Numbers 0 and 31 write every mark (0 the page agrees, 1 it differs); any other leaves all.
///
/// [`read`]: crate::read
pub fn check(lent: &Lent, marks: &mut [u8]) -> Verdict {
    let info = lent.info_plist.unwrap_or_default();
    let resources = lent.code_resources.unwrap_or_default();
    // SAFETY: each buffer is valid for its length and no pointer is null; the marks overlap
    // no other buffer, since they are borrowed mutably.
    unsafe {
        trewizlow_check(
            lent.signature.as_ptr(),
            lent.signature.len(),
            lent.image.as_ptr(),
            lent.image.len(),
            marks.as_mut_ptr(),
            marks.len(),
            lent.cache.as_ptr(),
            lent.cache.len(),
            lent.info_plist.is_some(),
            info.as_ptr(),
            info.len(),
            lent.code_resources.is_some(),
            resources.as_ptr(),
            resources.len(),
            lent.launch,
        )
    }
}

/// Rechecks the pages that the range meets: tests 1 to 18, 20, 32, 33, 34, then 31. `pages`
/// holds their new bytes, from the start of the first page met to the end of the last.
/// `marks` are those that the call before left. Numbers 0 and 31 write the marks of the
/// pages met and speak of all marks; any other leaves all.
pub fn recheck(
    signature: &[u8],
    start: u64,
    length: u64,
    pages: &[u8],
    marks: &mut [u8],
) -> Answer {
    // SAFETY: as in `check`.
    unsafe {
        trewizlow_recheck(
            signature.as_ptr(),
            signature.len(),
            start,
            length,
            pages.as_ptr(),
            pages.len(),
            marks.as_mut_ptr(),
            marks.len(),
        )
    }
}
