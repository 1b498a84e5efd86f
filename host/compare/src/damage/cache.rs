//! Damage to the trust cache: its head, its order, the entry that lists the directory.

use reference::make::{CacheEntry, CachePlan};
use reference::random::Random;

use super::{index, near, rarely};
use crate::plan::some_bytes;
use crate::scene::Draft;

type Damage = fn(&mut CachePlan, &mut Random);

const DAMAGES: [Damage; 9] =
    [version, count, tail, swapped, repeated, removed, hash_changed, hash_type, unread];

pub fn damage(draft: &mut Draft, random: &mut Random) {
    if rarely(150, random) {
        return full(&mut draft.cache, random);
    }
    // A damage before this one may have left no entry.
    if draft.cache.entries.is_empty() {
        return version(&mut draft.cache, random);
    }
    random.pick(&DAMAGES)(&mut draft.cache, random);
}

fn version(plan: &mut CachePlan, random: &mut Random) {
    plan.version = *random.pick(&[0, 1, 3, 0x102, 0x02000000, 0xFFFFFFFF]);
}

fn count(plan: &mut CachePlan, random: &mut Random) {
    let right = plan.entries.len() as u32;
    plan.count = Some(near(right, random));
}

fn tail(plan: &mut CachePlan, random: &mut Random) {
    plan.tail = some_bytes(50, random);
}

fn swapped(plan: &mut CachePlan, random: &mut Random) {
    let (one, other) = (index(plan.entries.len(), random), index(plan.entries.len(), random));
    plan.entries.swap(one, other);
}

fn repeated(plan: &mut CachePlan, random: &mut Random) {
    let at = index(plan.entries.len(), random);
    plan.entries.insert(at, plan.entries[at]);
}

fn removed(plan: &mut CachePlan, random: &mut Random) {
    plan.entries.remove(index(plan.entries.len(), random));
}

fn hash_changed(plan: &mut CachePlan, random: &mut Random) {
    let at = index(plan.entries.len(), random);
    plan.entries[at].hash[index(20, random)] ^= 1 << random.below(8);
}

/// Of every entry, as the one that lists the directory is among them.
fn hash_type(plan: &mut CachePlan, random: &mut Random) {
    let hash_type = *random.pick(&[0, 1, 2, 3, 4, 5, 130, 255]);
    plan.entries.iter_mut().for_each(|entry| entry.hash_type = hash_type);
}

fn unread(plan: &mut CachePlan, random: &mut Random) {
    for entry in &mut plan.entries {
        (entry.flags, entry.reserved) = (random.byte(), random.byte());
    }
}

/// As many entries as a cache may have, or one more.
fn full(plan: &mut CachePlan, random: &mut Random) {
    let wanted = 65_536 + random.below(2) as usize;
    let own: Vec<CacheEntry> = plan.entries.clone();
    plan.entries.extend((0..wanted - own.len()).map(|i| {
        let mut hash = [0; 20];
        hash[..8].copy_from_slice(&((i as u64) << 48 | 1).to_be_bytes());
        CacheEntry::new(hash, 9)
    }));
    plan.entries.sort_by_key(|entry| entry.hash);
}
