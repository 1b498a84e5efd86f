//! What the timed calls are lent.

use reference::make::{CacheEntry, CachePlan, DirectoryPlan, SignaturePlan};
use reference::samples;
use trewizlow::{MOST_PAGES, MOST_SIGNATURE_BYTES};

use super::measure::Answered;
use crate::plain::{Kind, MOST};

/// A signature over an image, and a trust cache that lists it.
pub struct Scene {
    pub kind: Kind,
    pub signature: Vec<u8>,
    pub cache: Vec<u8>,
    pub pages: usize,
    pub page_size: usize,
    /// The page whose slot is wrong.
    differing: Option<usize>,
}

/// pageSize: pages of 4,096 bytes, pages of 16,384 bytes, one page.
pub const SMALL: u8 = 12;
pub const LARGE: u8 = 14;
pub const WHOLE: u8 = 0;

/// As many entries as a cache may have.
pub const MOST_ENTRIES: usize = 65_536;

const VERSION: u32 = 0x20400;
/// The answer where a page differs.
const PAGE_DIFFERS: u32 = 31;

fn digest(kind: Kind, part: &[u8]) -> Vec<u8> {
    kind.digest(part, &mut [0; MOST]).to_vec()
}

fn page_size(image: &[u8], page_shift: u8) -> usize {
    if page_shift == WHOLE {
        image.len()
    } else {
        1 << page_shift
    }
}

/// The code slots of an image.
pub fn slots(kind: Kind, image: &[u8], page_shift: u8) -> Vec<Vec<u8>> {
    let pages = image.chunks(page_size(image, page_shift).max(1));
    pages.map(|page| digest(kind, page)).collect()
}

/// So many entries in order, a power of two: a rising number in the first two bytes, and the
/// directory's own in the place of the one that it comes next to.
fn cache(kind: Kind, directory: &[u8], entries: usize) -> CachePlan {
    let cdhash: [u8; 20] = digest(kind, directory)[..20].try_into().unwrap();
    let step = MOST_ENTRIES / entries;
    let own = usize::from(u16::from_be_bytes([cdhash[0], cdhash[1]])) / step;
    let entry = |i: usize| {
        let mut hash = [0x55; 20];
        hash[..2].copy_from_slice(&((i * step) as u16).to_be_bytes());
        CacheEntry::of_kind(kind as u8, if i == own { cdhash } else { hash }, 0)
    };
    CachePlan::new((0..entries).map(entry).collect())
}

impl Scene {
    /// The sample: three pages, four blobs, eight cache entries.
    pub fn sample() -> (Scene, Vec<u8>) {
        let inputs = samples::plan().build();
        let (signature, pages) = (inputs.signature, inputs.pages);
        let cache = samples::cache().bytes();
        let (kind, page_size, differing) = (Kind::Sha256, 1 << SMALL, None);
        (Scene { kind, signature, cache, pages, page_size, differing }, inputs.image)
    }

    /// An image among as many cache entries as there may be.
    pub fn new(kind: Kind, image: &[u8], page_shift: u8) -> Scene {
        Scene::with_slots(kind, image, page_shift, slots(kind, image, page_shift))
    }

    /// The same with these code slots.
    pub fn with_slots(kind: Kind, image: &[u8], page_shift: u8, code: Vec<Vec<u8>>) -> Scene {
        let mut directory = DirectoryPlan::of_kind(VERSION, kind as u8);
        directory.page_shift = page_shift;
        directory.code_limit = image.len() as u32;
        directory.code = code;
        Scene::of(kind, &directory, page_size(image, page_shift), MOST_ENTRIES)
    }

    /// The same with a wrong slot of the last page: 31, and every page is hashed all the same.
    pub fn last_page_differs(kind: Kind, image: &[u8], page_shift: u8) -> Scene {
        let mut code = slots(kind, image, page_shift);
        let last = code.len() - 1;
        code[last][0] ^= 1;
        let scene = Scene::with_slots(kind, image, page_shift, code);
        Scene { differing: Some(last), ..scene }
    }

    /// No pages, and a cache of so many entries.
    pub fn among(entries: usize) -> Scene {
        Scene::of(Kind::Sha256, &DirectoryPlan::new(VERSION), 0, entries)
    }

    /// As many pages as there may be, each with the bytes of this one.
    pub fn most_pages(page: &[u8]) -> Scene {
        let mut directory = DirectoryPlan::new(VERSION);
        directory.code_limit64 = (MOST_PAGES * page.len()) as u64;
        directory.code = vec![digest(Kind::Sha256, page); MOST_PAGES];
        Scene::of(Kind::Sha256, &directory, page.len(), MOST_ENTRIES)
    }

    /// No pages, and the longest signature: behind the head its directory has as many bytes as fit.
    /// They are the identifier, or stand behind it.
    pub fn longest(in_identifier: bool) -> Scene {
        let mut directory = DirectoryPlan::new(VERSION);
        let one = SignaturePlan::new(vec![(0, directory.bytes())]).bytes();
        let rest = vec![b'i'; MOST_SIGNATURE_BYTES - one.len()];
        if in_identifier {
            directory.identifier.extend(rest);
        } else {
            directory.tail = rest;
        }
        Scene::of(Kind::Sha256, &directory, 0, MOST_ENTRIES)
    }

    fn of(kind: Kind, directory: &DirectoryPlan, page_size: usize, entries: usize) -> Scene {
        let blob = directory.bytes();
        let cache = cache(kind, &blob, entries).bytes();
        let signature = SignaturePlan::new(vec![(0, blob)]).bytes();
        let pages = directory.code.len();
        Scene { kind, signature, cache, pages, page_size, differing: None }
    }

    /// True of the answer that a call must give. An accepted image's place is not known here:
    /// that of both programs must be the same.
    pub fn wants(&self, (number, place): Answered) -> bool {
        match self.differing {
            Some(page) => (number, place) == (PAGE_DIFFERS, page),
            None => number == 0,
        }
    }

    pub fn wanted(&self) -> String {
        match self.differing {
            Some(page) => format!("{PAGE_DIFFERS} at {page}"),
            None => "0".to_string(),
        }
    }
}
