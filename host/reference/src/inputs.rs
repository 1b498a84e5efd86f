//! Everything that a whole check is lent, built to be accepted; tests then damage it.

use crate::answer::Answer;
use crate::check::{check, Lent};
use crate::kinds::CS_HASHTYPE_SHA256;
use crate::launch::Launch;
use crate::make::{CacheEntry, CachePlan, DirectoryPlan, SignaturePlan};
use crate::slots::SideFiles;

/// Launch facts under which category 1 passes.
pub const SYSTEM_SERVICE: Launch = Launch {
    on_authorized_volume: false,
    on_system_volume: true,
    launch_type: 1,
    validation_category: 1,
    parent_is_init: true,
};

/// Inputs to build. The cache lists the directory that is built.
#[derive(Clone, Debug)]
pub struct InputsPlan {
    pub directory: DirectoryPlan,
    /// The blobs beside the directory.
    pub blobs: Vec<(u32, Vec<u8>)>,
    pub image: Vec<u8>,
    pub info: Option<Vec<u8>>,
    pub resources: Option<Vec<u8>>,
    /// Other hashes that the cache lists.
    pub neighbours: Vec<[u8; 20]>,
    pub category: u8,
    pub launch: Launch,
}

impl InputsPlan {
    /// An image signed by SHA-256 without other blobs or side files, alone in its cache.
    pub fn new(version: u32, image: Vec<u8>, page_shift: u8) -> InputsPlan {
        InputsPlan::of_kind(CS_HASHTYPE_SHA256, version, image, page_shift)
    }

    /// The same with a directory of a hash kind.
    pub fn of_kind(kind: u8, version: u32, image: Vec<u8>, page_shift: u8) -> InputsPlan {
        InputsPlan {
            directory: DirectoryPlan::of_kind(version, kind).over(&image, page_shift),
            blobs: Vec::new(),
            image,
            info: None,
            resources: None,
            neighbours: Vec::new(),
            category: 0,
            launch: Launch::default(),
        }
    }

    /// Fills the special slot of everything that is there.
    pub fn covered(mut self) -> InputsPlan {
        let mut things: Vec<(u32, &[u8])> = Vec::new();
        things.extend(self.info.iter().map(|info| (1, info.as_slice())));
        things.extend(self.resources.iter().map(|resources| (3, resources.as_slice())));
        things.extend(self.blobs.iter().map(|(kind, bytes)| (*kind, bytes.as_slice())));
        for (k, thing) in things.into_iter().filter(|(k, _)| *k <= 11) {
            let slot = self.directory.digest(thing);
            self.directory = self.directory.with_special(k as usize, slot);
        }
        self
    }

    /// The signature: the directory first, then the other blobs.
    pub fn signature(&self) -> SignaturePlan {
        let mut blobs = vec![(0, self.directory.bytes())];
        blobs.extend(self.blobs.iter().cloned());
        SignaturePlan::new(blobs)
    }

    /// The cache: the directory's entry among its neighbours, in order.
    pub fn cache(&self) -> CachePlan {
        let directory = &self.directory;
        let own = CacheEntry::of_kind(directory.kind, directory.cdhash(), self.category);
        let mut entries: Vec<CacheEntry> =
            self.neighbours.iter().map(|hash| CacheEntry::new(*hash, 0)).collect();
        entries.push(own);
        entries.sort_by_key(|entry| entry.hash);
        CachePlan::new(entries)
    }

    pub fn build(&self) -> Inputs {
        Inputs {
            signature: self.signature().bytes(),
            image: self.image.clone(),
            cache: self.cache().bytes(),
            info: self.info.clone(),
            resources: self.resources.clone(),
            launch: self.launch,
            pages: self.directory.code.len(),
        }
    }
}

/// What a whole check is lent, as bytes.
#[derive(Clone, Debug)]
pub struct Inputs {
    pub signature: Vec<u8>,
    pub image: Vec<u8>,
    pub cache: Vec<u8>,
    pub info: Option<Vec<u8>>,
    pub resources: Option<Vec<u8>>,
    pub launch: Launch,
    /// The length of the marks that are lent.
    pub pages: usize,
}

impl Inputs {
    pub fn lent(&self) -> Lent<'_> {
        Lent {
            signature: &self.signature,
            image: &self.image,
            cache: &self.cache,
            files: SideFiles { info: self.info.as_deref(), resources: self.resources.as_deref() },
            launch: self.launch,
        }
    }

    /// The whole check's answer and its marks, which hold `before` at first.
    pub fn check(&self, before: u8) -> (Answer, Vec<u8>) {
        let mut marks = vec![before; self.pages];
        let answer = check(&self.lent(), &mut marks);
        (answer, marks)
    }
}
