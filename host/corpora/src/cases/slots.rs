//! Cases for tests 21 to 23, on signatures that mostly pass 1 to 18.

use reference::kinds::{digest, CS_HASHTYPE_SHA256};
use reference::launch::Launch;
use reference::make::{blob_of, width, DirectoryPlan, SignaturePlan, Slot};
use reference::random::Random;

use super::{facts, SideFile};
use crate::case::{operation, Case, FACTS, INFO, RESOURCES, SIGNATURE};

mod kinds;

const SEED: u64 = 0x736C_6F74_7300_0001;
const RANDOM_CASES: usize = 120;
/// The slots whose thing is a blob.
const BLOBS: [usize; 7] = [2, 5, 7, 8, 9, 10, 11];

/// What stands in a special slot.
#[derive(Clone, Copy, PartialEq)]
enum State {
    Empty,
    Right,
    /// The digest with one bit changed in this byte.
    Wrong(usize),
    /// The digest of the thing without its 8-byte head.
    WithoutHead,
    /// Zeros but for this byte.
    Almost(usize),
    /// The digest by another kind, cut or filled with zeros to the width.
    ByKind(u8),
}

impl State {
    fn name(self) -> String {
        match self {
            State::Empty => "empty".to_string(),
            State::Right => "filled".to_string(),
            State::Wrong(at) => format!("wrong at {at}"),
            State::WithoutHead => "of the thing's contents".to_string(),
            State::Almost(at) => format!("zeros but {at}"),
            State::ByKind(kind) => format!("by kind {kind}"),
        }
    }
}

/// Whether a thing is there, as a name says it.
fn thing(there: bool) -> &'static str {
    if there {
        "thing there"
    } else {
        "thing missing"
    }
}

/// The things that are there and the states of slots 1 to `special`.
#[derive(Clone)]
struct Plan {
    kind: u8,
    there: [bool; 12],
    info: Vec<u8>,
    resources: Vec<u8>,
    states: [State; 12],
    special: usize,
}

impl Plan {
    /// Everything there and right, by SHA-256.
    fn full() -> Plan {
        let mut states = [State::Right; 12];
        let mut there = [true; 12];
        for k in [0, 4, 6] {
            (states[k], there[k]) = (State::Empty, false);
        }
        let (info, resources) = (b"info".to_vec(), b"files".to_vec());
        Plan { kind: CS_HASHTYPE_SHA256, there, info, resources, states, special: 11 }
    }

    /// Nothing there and every slot empty.
    fn bare() -> Plan {
        Plan { there: [false; 12], states: [State::Empty; 12], ..Plan::full() }
    }

    fn thing(&self, k: usize) -> Vec<u8> {
        match k {
            1 => self.info.clone(),
            3 => self.resources.clone(),
            _ if BLOBS.contains(&k) => blob_of(k as u32, &[k as u8; 5]),
            _ => vec![k as u8; 12],
        }
    }

    fn slot(&self, k: usize) -> Slot {
        let (kind, thing) = (u64::from(self.kind), self.thing(k));
        let mut slot = match self.states[k] {
            State::Empty | State::Almost(_) => Vec::new(),
            State::Right | State::Wrong(_) => digest(kind, &thing),
            State::WithoutHead => digest(kind, thing.get(8..).unwrap_or(&[])),
            State::ByKind(other) => digest(u64::from(other), &thing),
        };
        slot.resize(width(self.kind), 0);
        if let State::Wrong(at) | State::Almost(at) = self.states[k] {
            slot[at] ^= 1;
        }
        slot
    }

    fn signature(&self) -> Vec<u8> {
        let mut directory = DirectoryPlan::of_kind(0x20400, self.kind);
        directory.special = (1..=self.special).map(|k| self.slot(k)).collect();
        let mut blobs = vec![(0, directory.bytes())];
        let there = BLOBS.iter().filter(|&&k| self.there[k]);
        blobs.extend(there.map(|&k| (k as u32, self.thing(k))));
        SignaturePlan::new(blobs).bytes()
    }

    /// The case of a signature with the side files of this plan. The bytes of a file that is
    /// not there are lent all the same: they are not read.
    fn with_signature(&self, name: String, signature: Vec<u8>) -> Case {
        let info = SideFile { there: self.there[1], bytes: self.info.clone() };
        let resources = SideFile { there: self.there[3], bytes: self.resources.clone() };
        slots_case(name, signature, info, resources)
    }

    fn case(&self, name: String) -> Case {
        self.with_signature(name, self.signature())
    }
}

fn slots_case(name: String, signature: Vec<u8>, info: SideFile, resources: SideFile) -> Case {
    let facts = facts(info.there, resources.there, &Launch::default());
    let mut fields = vec![(SIGNATURE, signature)];
    fields.extend(info.field().map(|bytes| (INFO, bytes)));
    fields.extend(resources.field().map(|bytes| (RESOURCES, bytes)));
    fields.push((FACTS, facts));
    Case { name, operation: operation::SLOTS, fields }
}

/// The cases of the corpus.
pub fn corpus() -> Vec<Case> {
    let mut cases = vec![
        Plan::full().case("every thing there, slots filled".to_string()),
        Plan::bare().case("nothing there, slots empty".to_string()),
    ];
    one_slot(&mut cases);
    two_slots(&mut cases);
    fewer_slots(&mut cases);
    side_files(&mut cases);
    random_plans(&mut cases);
    refused_before(&mut cases);
    empty_requirements(&mut cases);
    kinds::add(&mut cases);
    cases
}

/// Each slot in each state, its thing there or not, the others right or all empty.
fn one_slot(cases: &mut Vec<Case>) {
    let wrong = [State::Wrong(0), State::Wrong(17), State::Wrong(31), State::WithoutHead];
    let almost = [State::Almost(0), State::Almost(31)];
    let states = [State::Empty, State::Right].into_iter().chain(wrong).chain(almost);
    for (base, others) in [(Plan::full(), ""), (Plan::bare(), ", others empty")] {
        for k in 1..=11 {
            for (state, there) in states.clone().flat_map(|s| [(s, true), (s, false)]) {
                let mut plan = base.clone();
                plan.states[k] = state;
                plan.there[k] = there;
                let state = state.name();
                cases.push(plan.case(format!("slot {k} {state}, {}{others}", thing(there))));
            }
        }
    }
}

/// Two slots at fault: the lower decides, whichever its number is.
fn two_slots(cases: &mut Vec<Case>) {
    let faults = [
        ("without its thing", State::Right, false),
        ("wrong", State::Wrong(3), true),
        ("empty", State::Empty, true),
    ];
    for (low, high) in [(1, 2), (1, 11), (2, 5), (3, 4), (4, 5), (6, 7), (5, 8), (10, 11)] {
        for (one, other) in faults.iter().flat_map(|one| faults.map(|other| (*one, other))) {
            let mut plan = Plan::full();
            (plan.states[low], plan.there[low]) = (one.1, one.2);
            (plan.states[high], plan.there[high]) = (other.1, other.2);
            cases.push(plan.case(format!("slot {low} {}, slot {high} {}", one.0, other.0)));
        }
    }
}

/// nSpecialSlots below a thing's k: its slot is empty.
fn fewer_slots(cases: &mut Vec<Case>) {
    for special in 0..=11 {
        let name = |what| format!("{special} special slots, {what}");
        let full = Plan { special, ..Plan::full() };
        cases.push(full.case(name("every thing there")));
        cases.push(Plan { special, ..Plan::bare() }.case(name("nothing there")));
        let mut covered = full;
        (special + 1..12).for_each(|k| covered.there[k] = false);
        cases.push(covered.case(name("their things there")));
    }
}

/// Side files of length 0 and about the hash's block boundaries.
fn side_files(cases: &mut Vec<Case>) {
    for length in [0, 1, 54, 55, 56, 57, 63, 64, 65, 119, 120, 128, 1000] {
        let contents = vec![0x69; length];
        let plan = Plan { info: contents.clone(), resources: contents, ..Plan::full() };
        let name = |what: String| format!("side files of {length}{what}");
        cases.push(plan.case(name(String::new())));
        for k in [1, 3] {
            let mut empty = plan.clone();
            empty.states[k] = State::Empty;
            cases.push(empty.case(name(format!(", slot {k} empty"))));
            empty.there[k] = false;
            cases.push(empty.case(name(format!(", slot {k} empty, thing missing"))));
            let mut fewer = plan.clone();
            fewer.special = k - 1;
            cases.push(fewer.case(name(format!(", {} special slots", fewer.special))));
        }
    }
}

fn random_plans(cases: &mut Vec<Case>) {
    let mut random = Random::new(SEED);
    for number in 0..RANDOM_CASES {
        let mut plan = Plan::full();
        for _ in 0..=random.below(3) {
            let k = 1 + random.below(11) as usize;
            plan.there[k] = random.below(2) == 0;
            let wrong = State::Wrong(random.below(width(plan.kind) as u64) as usize);
            plan.states[k] = *random.pick(&[State::Empty, State::Right, wrong]);
        }
        plan.special = (random.below(14) as usize).min(11);
        cases.push(plan.case(format!("random slots {number}")));
    }
}

/// Faults of tests 1 to 18 come before a fault in slot 1.
fn refused_before(cases: &mut Vec<Case>) {
    let mut plan = Plan::full();
    plan.there[1] = false;
    let directory = 12 + 8 * 8;
    for (at, value) in [
        (0, 0),
        (8, 0xFF),
        (12, 0x40),
        (directory + 8, 1),
        (directory + 37, 1),
        (directory + 15, 1),
    ] {
        let mut signature = plan.signature();
        signature[at] = value;
        let name = format!("slot 1 without its thing, signature byte {at} changed");
        cases.push(plan.with_signature(name, signature));
    }
}

/// Document 002's empty requirements blob: its slot right, one bit of the blob changed,
/// and the slot zeroed.
fn empty_requirements(cases: &mut Vec<Case>) {
    let blob = blob_of(2, &[0; 4]);
    let mut changed = blob.clone();
    changed[11] ^= 1;
    let directory = DirectoryPlan::new(0x20400);
    let filled = directory.digest(&blob);
    for (what, slot, blob) in [
        ("slot filled", filled.clone(), &blob),
        ("blob changed", filled, &changed),
        ("slot empty", directory.empty(), &blob),
    ] {
        let directory = directory.clone().with_special(2, slot);
        let signature = SignaturePlan::new(vec![(0, directory.bytes()), (2, blob.clone())]);
        let name = format!("empty requirements, {what}");
        let (info, resources) = (SideFile::default(), SideFile::default());
        cases.push(slots_case(name, signature.bytes(), info, resources));
    }
}
