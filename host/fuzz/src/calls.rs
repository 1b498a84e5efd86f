//! One call by the library between guard pages, held to what the reference says.

use compare::{facts, fields};
use reference::directory;
use trewizlow::{Answer, Blob, CdHash, Lent, Verdict};

use crate::cut::{Cut, Operation};
use crate::expected::expected;
use crate::guarded::{Edge, ReadOnly, Writable};

/// What a call answers, with the marks that it leaves.
#[derive(Debug, PartialEq, Eq)]
pub enum Said {
    Check(Verdict, Vec<u8>),
    Recheck(Answer, Vec<u8>),
    Find(Blob),
    /// The directory's fields in the order of the C interface.
    Read(Answer, [u64; 15]),
    CdHash(CdHash),
}

impl Said {
    fn number(&self) -> u32 {
        match self {
            Said::Check(verdict, _) => verdict.number,
            Said::Recheck(answer, _) | Said::Read(answer, _) => answer.number,
            Said::Find(blob) => blob.answer.number,
            Said::CdHash(cdhash) => cdhash.answer.number,
        }
    }
}

/// The number that both answer. Panics with both where they differ.
pub fn compare(cut: &Cut) -> u32 {
    let cache = listed_cache(cut);
    let cut = Cut { cache: &cache, ..*cut };
    let reference = expected(&cut);
    for edge in [Edge::Last, Edge::First] {
        let library = by_library(&cut, edge);
        assert!(
            library == reference,
            "they differ\n  library:   {library:?}\n  reference: {reference:?}\n  lent: {cut:?}"
        );
    }
    reference.number()
}

/// The cache, its first entry with the directory's hash, and with its type, where the input asks
/// for that.
fn listed_cache(cut: &Cut) -> Vec<u8> {
    let mut cache = cut.cache.to_vec();
    let first = reference::cache::HEAD as usize;
    if let (true, Ok(directory)) = (cut.listed, directory::read(cut.signature, false)) {
        let mut listed = directory.cdhash().to_vec();
        if cut.typed {
            listed.push(directory.hash_type() as u8);
        }
        if let Some(entry) = cache.get_mut(first..first + listed.len()) {
            entry.copy_from_slice(&listed);
        }
    }
    cache
}

fn by_library(cut: &Cut, edge: Edge) -> Said {
    let lend = |bytes: &[u8]| ReadOnly::new(bytes, edge);
    let signature = lend(cut.signature);
    let mut marks = Writable::new(cut.marks, edge);
    match cut.operation {
        Operation::Check => {
            let (image, cache) = (lend(cut.image), lend(cut.cache));
            let (info, resources) = (cut.info.map(lend), cut.resources.map(lend));
            let lent = Lent {
                info_plist: info.as_deref(),
                code_resources: resources.as_deref(),
                launch: facts(&cut.launch),
                ..Lent::new(&signature, &image, &cache)
            };
            let verdict = trewizlow::check(&lent, &mut marks);
            Said::Check(verdict, marks.to_vec())
        }
        Operation::Recheck => {
            let pages = lend(cut.image);
            let answer = trewizlow::recheck(&signature, cut.start, cut.length, &pages, &mut marks);
            Said::Recheck(answer, marks.to_vec())
        }
        Operation::Find => Said::Find(trewizlow::find(&signature, cut.kind)),
        Operation::Read => {
            let directory = trewizlow::read(&signature);
            Said::Read(directory.answer, fields(&directory))
        }
        Operation::CdHash => Said::CdHash(trewizlow::cdhash(&signature)),
    }
}
