//! Cases for tests 1 to 18 and for lookups.

use std::collections::HashSet;

use reference::kinds::CS_HASHTYPE_SHA256;
use reference::make::{blob_of, width, DirectoryPlan, SignaturePlan, Slot};

use crate::case::{operation, Case, SIGNATURE, TYPES};

mod directory;
pub mod faults;
mod kinds;
mod limits;
mod order;
mod random;
mod superblob;

/// All slot types that are known.
pub const KNOWN: [u32; 14] =
    [0, 2, 5, 7, 8, 9, 10, 11, 0x1000, 0x1001, 0x1002, 0x1003, 0x1004, 0x10000];

/// Numbers that border on something: on 0, on a sign bit, on the end of 32 bits.
const EDGES: [u32; 8] =
    [0, 1, 0x7FFFFFFF, 0x80000000, 0x80000001, 0xFFFFFFF7, 0xFFFFFFF8, 0xFFFFFFFF];

/// The types that are looked up in every signature.
const LOOKED_UP: [u32; 11] = [0, 1, 2, 5, 7, 8, 11, 0x1000, 0x1004, 0x10000, u32::MAX];

/// A signature under a name.
pub struct Named {
    pub name: String,
    pub signature: Vec<u8>,
}

/// A list of signatures, each once, under the first name that it was given.
struct Cases {
    list: Vec<Named>,
    seen: HashSet<Vec<u8>>,
}

impl Cases {
    fn add(&mut self, name: impl Into<String>, signature: Vec<u8>) {
        if self.seen.insert(signature.clone()) {
            self.list.push(Named { name: name.into(), signature });
        }
    }
}

/// All signatures.
pub fn cases() -> Vec<Named> {
    let mut cases = Cases { list: Vec::new(), seen: HashSet::new() };
    superblob::add(&mut cases);
    directory::add(&mut cases);
    limits::add(&mut cases);
    order::add(&mut cases);
    random::add(&mut cases);
    kinds::add(&mut cases);
    cases.list
}

/// The cases of the corpus.
pub fn corpus() -> Vec<Case> {
    cases().into_iter().map(|named| looked_up(named, &LOOKED_UP)).collect()
}

/// The case of a signature in which these types are looked up.
pub fn looked_up(named: Named, types: &[u32]) -> Case {
    let types = types.iter().flat_map(|kind| kind.to_be_bytes()).collect();
    let fields = vec![(SIGNATURE, named.signature), (TYPES, types)];
    Case { name: named.name, operation: operation::SIGNATURE, fields }
}

/// Slots of one repeated byte each, never zero: no test up to 18 looks into a slot, but
/// an identifier's zero byte must not be found in one by chance.
fn slots_of(kind: u8, first: u8, count: usize) -> Vec<Slot> {
    (0..count).map(|i| vec![first.wrapping_add(i as u8) | 0x80; width(kind)]).collect()
}

/// The same of SHA-256.
fn slots(first: u8, count: usize) -> Vec<Slot> {
    slots_of(CS_HASHTYPE_SHA256, first, count)
}

/// A well-formed directory with one page of 4,096 bytes and this many special slots.
fn one_page_of(kind: u8, version: u32, special: usize) -> DirectoryPlan {
    let mut plan = DirectoryPlan::of_kind(version, kind);
    plan.code_limit = 4096;
    plan.special = slots_of(kind, 0xA0, special);
    plan.code = slots_of(kind, 0xC0, 1);
    plan
}

/// The same of SHA-256.
fn one_page(version: u32, special: usize) -> DirectoryPlan {
    one_page_of(CS_HASHTYPE_SHA256, version, special)
}

/// A signature of one blob, the directory, which starts at 20.
fn single(plan: &DirectoryPlan) -> Vec<u8> {
    SignaturePlan::new(vec![(0, plan.bytes())]).bytes()
}

/// A short blob of a type: a directory for type 0, else a few bytes of contents.
fn short_blob(kind: u32) -> Vec<u8> {
    match kind {
        0 => one_page(0x20400, 2).bytes(),
        2 => blob_of(2, &[0; 4]),
        _ => blob_of(kind, b"blob"),
    }
}

/// A well-formed signature with these types, in this order.
fn signature_of(kinds: &[u32]) -> SignaturePlan {
    SignaturePlan::new(kinds.iter().map(|&kind| (kind, short_blob(kind))).collect())
}

/// Signatures of several sizes, with what a name calls them.
fn several() -> [(&'static str, SignaturePlan); 4] {
    [
        ("directory alone", signature_of(&[0])),
        ("two blobs", signature_of(&[2, 0])),
        ("four blobs", common()),
        ("fourteen blobs", signature_of(&KNOWN)),
    ]
}

/// Directory, requirements, entitlements and CMS, as a common signer writes them.
fn common() -> SignaturePlan {
    signature_of(&[0, 2, 5, 0x10000])
}
