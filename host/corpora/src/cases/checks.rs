//! Cases for whole checks, rechecks and chains of rechecks: every number of the table.

use reference::directory::read;
use reference::inputs::{Inputs, InputsPlan, SYSTEM_SERVICE};
use reference::kinds::CS_HASHTYPE_SHA256;
use reference::launch::Launch;
use reference::make::blob_of;
use reference::pages;
use reference::recheck::Range;

use super::{facts, SideFile};
use crate::case::{operation, Case, CACHE, FACTS, IMAGE, INFO, MARKS, RANGE, RESOURCES, SIGNATURE};

mod chains;
mod faults;
mod flags;
mod fours;
mod kinds;
mod limits;
mod pairs;
mod rechecks;
mod scatter;
mod whole;

/// What a call is.
#[derive(Clone, Copy, Debug, PartialEq, Eq)]
pub enum Kind {
    WholeCheck,
    Recheck,
    /// A recheck with the marks that the call before it left.
    RecheckAfter,
}

/// One call. What its kind does not use is empty or 0.
#[derive(Clone, Debug)]
pub struct Call {
    pub name: String,
    pub kind: Kind,
    pub start: u64,
    pub length: u64,
    pub signature: Vec<u8>,
    /// The image of a whole check, the lent pages of a recheck.
    pub bytes: Vec<u8>,
    pub cache: Vec<u8>,
    pub info: SideFile,
    pub resources: SideFile,
    pub launch: Launch,
    pub marks: Vec<u8>,
}

/// All calls.
pub fn cases() -> Vec<Call> {
    let mut calls = Vec::new();
    whole::add(&mut calls);
    flags::add(&mut calls);
    scatter::add(&mut calls);
    limits::add(&mut calls);
    pairs::add(&mut calls);
    rechecks::add(&mut calls);
    chains::add(&mut calls);
    kinds::add(&mut calls);
    fours::add(&mut calls);
    calls
}

/// The cases of the corpus.
pub fn corpus() -> Vec<Case> {
    cases().into_iter().map(Call::case).collect()
}

impl Call {
    /// A whole check of these inputs, its marks holding `before`.
    fn whole(name: impl Into<String>, inputs: &Inputs, before: u8) -> Call {
        Call {
            name: name.into(),
            kind: Kind::WholeCheck,
            start: 0,
            length: 0,
            signature: inputs.signature.clone(),
            bytes: inputs.image.clone(),
            cache: inputs.cache.clone(),
            info: SideFile::of(inputs.info.clone()),
            resources: SideFile::of(inputs.resources.clone()),
            launch: inputs.launch,
            marks: vec![before; inputs.pages],
        }
    }

    /// A recheck with the signature of these inputs.
    fn recheck(name: impl Into<String>, inputs: &Inputs, range: &Range, marks: &[u8]) -> Call {
        Call {
            kind: Kind::Recheck,
            start: range.start,
            length: range.length,
            bytes: range.bytes.to_vec(),
            cache: Vec::new(),
            info: SideFile::default(),
            resources: SideFile::default(),
            launch: Launch::default(),
            marks: marks.to_vec(),
            ..Call::whole(name, inputs, 0)
        }
    }

    /// A whole check and a recheck with one signature.
    fn both(calls: &mut Vec<Call>, name: &str, inputs: &Inputs, range: &Range, marks: &[u8]) {
        calls.push(Call::whole(format!("check, {name}"), inputs, 5));
        calls.push(Call::recheck(format!("recheck, {name}"), inputs, range, marks));
    }

    /// A recheck that goes on with the marks of the call before.
    fn next(name: impl Into<String>, inputs: &Inputs, range: &Range) -> Call {
        Call { kind: Kind::RecheckAfter, ..Call::recheck(name, inputs, range, &[]) }
    }

    fn case(self) -> Case {
        let mut fields = vec![(SIGNATURE, self.signature), (IMAGE, self.bytes)];
        if self.kind == Kind::WholeCheck {
            let facts = facts(self.info.there, self.resources.there, &self.launch);
            fields.push((CACHE, self.cache));
            fields.extend(self.info.field().map(|bytes| (INFO, bytes)));
            fields.extend(self.resources.field().map(|bytes| (RESOURCES, bytes)));
            fields.push((FACTS, facts));
        } else {
            let range = [self.start.to_be_bytes(), self.length.to_be_bytes()].concat();
            fields.push((RANGE, range));
        }
        if self.kind != Kind::RecheckAfter {
            fields.push((MARKS, self.marks));
        }
        let whole = self.kind == Kind::WholeCheck;
        let operation = if whole { operation::CHECK } else { operation::RECHECK };
        Case { name: self.name, operation, fields }
    }
}

/// An image whose pages are runs of different bytes, so that the corpus stays small.
fn striped(length: usize) -> Vec<u8> {
    (0..length).map(|i| 0x30 + (i / 4096) as u8).collect()
}

/// Three pages with every thing that a slot covers, category 1, neighbours in the cache.
pub fn full() -> InputsPlan {
    full_of(CS_HASHTYPE_SHA256)
}

/// The same by a hash kind.
pub fn full_of(kind: u8) -> InputsPlan {
    let mut plan = InputsPlan::of_kind(kind, 0x20400, striped(8193), 12);
    plan.blobs =
        [2, 5, 7, 8, 9, 10, 11, 0x1000, 0x10000].map(|k| (k, blob_of(k, b"data"))).to_vec();
    plan.info = Some(b"info".to_vec());
    plan.resources = Some(Vec::new());
    plan.neighbours = vec![[0; 20], [0xFF; 20]];
    plan.category = 1;
    plan.launch = SYSTEM_SERVICE;
    plan.covered()
}

/// The part of the image that a recheck of the range is lent; none above the code limit.
fn lent_part(inputs: &Inputs, start: u64, length: u64) -> Option<(usize, usize)> {
    let directory = read(&inputs.signature, false).expect("a good signature");
    let end = start.checked_add(length)?;
    if end > directory.code_limit() {
        return None;
    }
    let (first, last) = pages::met(&directory, start, length);
    let from = pages::bounds(&directory, first).0;
    Some((from as usize, (from + pages::bytes_of(&directory, first, last)) as usize))
}
