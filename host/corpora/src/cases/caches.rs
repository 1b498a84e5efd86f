//! Cases for tests 24 to 30.

use reference::inputs::SYSTEM_SERVICE;
use reference::launch::Launch;
use reference::make::{CacheEntry, CachePlan};

use super::facts;
use crate::case::{operation, Case, CACHE, FACTS, HASH};

/// The hash that is looked for.
const OWN: [u8; 20] =
    [0x80, 0x41, 2, 3, 4, 5, 6, 7, 8, 9, 10, 11, 12, 13, 14, 15, 16, 17, 18, 0x42];

/// The cases of the corpus.
pub fn corpus() -> Vec<Case> {
    let mut cases = Vec::new();
    lengths(&mut cases);
    versions_and_counts(&mut cases);
    order(&mut cases);
    absent(&mut cases);
    entries(&mut cases);
    launches(&mut cases);
    two_faults(&mut cases);
    large(&mut cases);
    cases
}

/// A case with a hash that is looked for and launch facts.
fn with_facts(name: String, hash: [u8; 20], cache: Vec<u8>, launch: &Launch) -> Case {
    let fields = vec![(CACHE, cache), (FACTS, facts(false, false, launch)), (HASH, hash.to_vec())];
    Case { name, operation: operation::CACHE, fields }
}

fn add(cases: &mut Vec<Case>, name: impl Into<String>, cache: Vec<u8>) {
    cases.push(with_facts(name.into(), OWN, cache, &Launch::default()));
}

/// OWN with one byte moved up or down.
fn moved(at: usize, by: i8) -> [u8; 20] {
    let mut hash = OWN;
    hash[at] = hash[at].wrapping_add_signed(by);
    hash
}

/// Five entries in order, OWN in the middle. The others have a type and a category that
/// would refuse, as they are not examined.
fn five() -> CachePlan {
    let hashes = [moved(0, -1), moved(19, -1), OWN, moved(19, 1), moved(0, 1)];
    let other = |hash| CacheEntry { hash_type: 9, flags: 0x55, ..CacheEntry::new(hash, 7) };
    let mut plan = CachePlan::new(hashes.map(other).to_vec());
    plan.entries[2] = CacheEntry::new(OWN, 0);
    plan
}

/// Test 24: lengths, with the count that goes with them and without.
fn lengths(cases: &mut Vec<Case>) {
    let one = CachePlan::new(vec![CacheEntry::new(OWN, 0)]);
    for length in (0..=25).chain([36, 46, 47, 48]) {
        add(cases, format!("cache cut to {length}"), one.bytes()[..length].to_vec());
    }
    for tail in [1, 23, 24, 25, 48] {
        let plan = CachePlan { tail: vec![0xFF; tail], ..one.clone() };
        add(cases, format!("cache with {tail} bytes more"), plan.bytes());
    }
    add(cases, "cache of no entry", CachePlan::new(Vec::new()).bytes());
    add(cases, "cache of five entries", five().bytes());
}

/// Test 24: versions and counts. Equal entries, so that 65,536 of them are one run; they
/// pass 24 and are then 25.
fn versions_and_counts(cases: &mut Vec<Case>) {
    for version in [0, 1, 2, 3, 0x102, 0x10002, 0x02000000, 0x02000002, 0xFFFFFFFF] {
        let plan = CachePlan { version, ..five() };
        add(cases, format!("cache version {version:#x}"), plan.bytes());
    }
    for count in [0, 1, 4, 5, 6, 0x105, 65_536, 65_537, 0x05000000, 0x0AAAAAB0, 0xFFFFFFFF] {
        let plan = CachePlan { count: Some(count), ..five() };
        add(cases, format!("five entries, count {count}"), plan.bytes());
    }
    let same = CacheEntry { hash_type: 1, flags: 1, reserved: 1, ..CacheEntry::new([1; 20], 1) };
    for count in [65_536, 65_537] {
        let mut plan = CachePlan::new(vec![same; count]);
        add(cases, format!("{count} equal entries"), plan.bytes());
        plan.count = Some(65_536);
        add(cases, format!("{count} equal entries, count 65536"), plan.bytes());
    }
}

/// Test 25: neighbours swapped or equal at each place, and entries that are not neighbours.
fn order(cases: &mut Vec<Case>) {
    for at in 0..4 {
        let name = |what| format!("entries {at} and {} {what}", at + 1);
        let mut plan = five();
        plan.entries.swap(at, at + 1);
        add(cases, name("swapped"), plan.bytes());
        let mut plan = five();
        plan.entries[at + 1].hash = plan.entries[at].hash;
        add(cases, name("equal"), plan.bytes());
        plan.entries[at].hash = [0; 20];
        add(cases, name("lowered"), plan.bytes());
    }
    (0..20).for_each(|at| deciding_byte(cases, at));
    for (one, other) in [(0, 3), (0, 4), (1, 4)] {
        let mut plan = five();
        plan.entries.swap(one, other);
        add(cases, format!("entries {one} and {other} swapped"), plan.bytes());
    }
}

/// Test 25: an entry before OWN that differs first in this byte.
fn deciding_byte(cases: &mut Vec<Case>, at: usize) {
    for (by, what) in [(-1, "lower"), (1, "higher")] {
        let before = |hash| CachePlan::new([hash, OWN].map(|h| CacheEntry::new(h, 0)).to_vec());
        let name = format!("entry before {what} in byte {at}");
        let mut hash = moved(at, by);
        add(cases, name.as_str(), before(hash).bytes());
        hash[at + 1..].fill(if by < 0 { 0xFF } else { 0 });
        add(cases, name + ", the rest opposite", before(hash).bytes());
    }
}

/// Test 26: a hash that differs in one byte from an entry's, on either side.
fn absent(cases: &mut Vec<Case>) {
    for at in 0..5 {
        let mut plan = five();
        plan.entries.remove(at);
        add(cases, format!("entry {at} of five left out"), plan.bytes());
    }
    for at in 0..20 {
        let plan = CachePlan::new(vec![CacheEntry::new(moved(at, 1), 0)]);
        add(cases, format!("only entry higher in byte {at}"), plan.bytes());
    }
    for (what, hash) in [
        ("zeros", [0; 20]),
        ("0xff bytes", [0xFF; 20]),
        ("first byte lower", moved(0, -1)),
        ("last byte higher", moved(19, 1)),
        ("first byte higher", moved(0, 1)),
    ] {
        let name = format!("five entries, hash of {what}");
        cases.push(with_facts(name, hash, five().bytes(), &Launch::default()));
    }
}

/// Tests 27 and 28: the found entry's four last bytes, at each place.
fn entries(cases: &mut Vec<Case>) {
    for hash_type in [0, 1, 2, 3, 4, 18, 130, 255] {
        for category in [0, 1, 2, 3, 127, 128, 254, 255] {
            let mut plan = five();
            plan.entries[2].hash_type = hash_type;
            plan.entries[2].category = category;
            let name = format!("entry of hash type {hash_type}, category {category}");
            add(cases, name, plan.bytes());
        }
    }
    for place in 0..5 {
        let mut plan = five();
        plan.entries[place] = CacheEntry { flags: 0xFF, reserved: 0xFF, ..plan.entries[place] };
        for (hash_type, category) in [(2, 0), (2, 5), (3, 0)] {
            plan.entries[place].hash_type = hash_type;
            plan.entries[place].category = category;
            let hash = plan.entries[place].hash;
            let name = format!("entry {place} found, hash type {hash_type}, category {category}");
            cases.push(with_facts(name, hash, plan.bytes(), &SYSTEM_SERVICE));
        }
    }
}

/// Tests 29 and 30: facts under category 1, and a few under 0.
fn launches(cases: &mut Vec<Case>) {
    for category in [1, 0] {
        let cache = CachePlan::new(vec![CacheEntry::new(OWN, category)]).bytes();
        let kinds: &[u8] = if category == 1 { &[0, 1, 2, 255] } else { &[0, 1] };
        for number in 0..8 * kinds.len() * kinds.len() {
            let launch = Launch {
                on_authorized_volume: number & 1 != 0,
                on_system_volume: number & 2 != 0,
                parent_is_init: number & 4 != 0,
                launch_type: kinds[number / 8 % kinds.len()],
                validation_category: kinds[number / 8 / kinds.len()],
            };
            let name = format!("category {category}, {}", launch_name(&launch));
            cases.push(with_facts(name, OWN, cache.clone(), &launch));
        }
    }
}

/// The five facts in the paper's order.
fn launch_name(launch: &Launch) -> String {
    let (authorized, system) = (launch.on_authorized_volume, launch.on_system_volume);
    let numbers = (launch.launch_type, launch.validation_category);
    let volumes = format!("volumes {}{}", u8::from(authorized), u8::from(system));
    let init = u8::from(launch.parent_is_init);
    format!("{volumes}, launch {}, validation {}, init {init}", numbers.0, numbers.1)
}

/// The order of 24 to 30: each plan has the faults of all later tests too.
fn two_faults(cases: &mut Vec<Case>) {
    type Change = fn(&mut CachePlan);
    let changes: [(u32, Change); 6] = [
        (29, |plan| plan.entries[2].category = 1),
        (28, |plan| plan.entries[2].category = 2),
        (27, |plan| plan.entries[2].hash_type = 1),
        (26, |plan| plan.entries[2].hash[10] ^= 1),
        (25, |plan| plan.entries.swap(0, 1)),
        (24, |plan| plan.version = 1),
    ];
    let mut plan = five();
    for (number, change) in changes {
        change(&mut plan);
        add(cases, format!("cache with faults {number} and up"), plan.bytes());
    }
}

/// Test 24 at 65,536 entries in order, and the lookup among them.
fn large(cases: &mut Vec<Case>) {
    for (entries, what, wanted) in [
        (65_536, "hash of none", 65_536),
        (65_536, "hash of the last", 65_535),
        (65_536, "hash of entry 40000", 40_000),
        (65_537, "hash of the first", 0),
    ] {
        let rising = (0..entries).map(|entry| CacheEntry::new(numbered(entry), 0)).collect();
        let name = format!("{entries} entries in order, {what}");
        let cache = CachePlan::new(rising).bytes();
        cases.push(with_facts(name, numbered(wanted), cache, &Launch::default()));
    }
}

/// A hash with a number in its first four bytes.
fn numbered(number: u32) -> [u8; 20] {
    let mut hash = [0; 20];
    hash[..4].copy_from_slice(&number.to_be_bytes());
    hash
}
