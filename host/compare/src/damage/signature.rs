//! Damage to the signature's layout: its head, its index, where blobs lie.

use reference::make::{put32, SignaturePlan};
use reference::random::Random;

use super::{index, near};
use crate::plan::some_bytes;
use crate::scene::Draft;

type Damage = fn(&mut SignaturePlan, &mut Random);

const DAMAGES: [Damage; 12] = [
    magic,
    count,
    length,
    unknown_type,
    other_type,
    offset,
    overlap,
    blob_magic,
    blob_length,
    no_directory,
    laid_apart,
    laid_apart,
];

pub fn damage(draft: &mut Draft, random: &mut Random) {
    // A damage before this one may have left no blob.
    if draft.signature.blobs.is_empty() {
        return magic(&mut draft.signature, random);
    }
    random.pick(&DAMAGES)(&mut draft.signature, random);
}

fn magic(plan: &mut SignaturePlan, random: &mut Random) {
    plan.magic ^= 1 << random.below(32);
}

fn count(plan: &mut SignaturePlan, random: &mut Random) {
    let right = plan.blobs.len() as u32;
    plan.count = Some(match random.below(3) {
        0 => *random.pick(&[0, 64, 65, 66, 0xFFFFFFFF]),
        _ => near(right, random),
    });
}

fn length(plan: &mut SignaturePlan, random: &mut Random) {
    let (index_end, right) = (12 + 8 * plan.blobs.len() as u32, plan.bytes().len() as u32);
    plan.length = Some(match random.below(3) {
        0 => index_end - random.below(2) as u32,
        _ => near(right, random),
    });
}

fn unknown_type(plan: &mut SignaturePlan, random: &mut Random) {
    let at = index(plan.blobs.len(), random);
    plan.blobs[at].kind = *random.pick(&[1, 3, 4, 6, 12, 0xFFF, 0x1005, 0xFFFF, 0x10001, 1 << 31]);
}

/// Another known type: one that is there already, or the wrong magic.
fn other_type(plan: &mut SignaturePlan, random: &mut Random) {
    let at = index(plan.blobs.len(), random);
    let from = index(plan.blobs.len(), random);
    plan.blobs[at].kind = match random.below(2) {
        0 => plan.blobs[from].kind,
        _ => *random.pick(&[0, 2, 5, 7, 8, 0x1000, 0x10000]),
    };
}

fn offset(plan: &mut SignaturePlan, random: &mut Random) {
    let at = index(plan.blobs.len(), random);
    let right = plan.starts()[at] as u32;
    plan.blobs[at].offset = Some(near(right, random));
}

/// A blob that reaches into the one laid behind it.
fn overlap(plan: &mut SignaturePlan, random: &mut Random) {
    let at = index(plan.blobs.len(), random);
    let bytes = &mut plan.blobs[at].bytes;
    let longer = bytes.len() as u32 + 1 + random.below(9) as u32;
    put32(bytes, 4, longer);
}

fn blob_magic(plan: &mut SignaturePlan, random: &mut Random) {
    let at = index(plan.blobs.len(), random);
    plan.blobs[at].bytes[index(4, random)] ^= 1 << random.below(8);
}

fn blob_length(plan: &mut SignaturePlan, random: &mut Random) {
    let at = index(plan.blobs.len(), random);
    let bytes = &mut plan.blobs[at].bytes;
    let length = match random.below(2) {
        0 => random.below(45) as u32,
        _ => near(bytes.len() as u32, random),
    };
    put32(bytes, 4, length);
}

fn no_directory(plan: &mut SignaturePlan, random: &mut Random) {
    plan.order.clear();
    match random.below(2) {
        0 => plan.blobs.retain(|blob| blob.kind != 0),
        _ => plan.blobs.iter_mut().filter(|blob| blob.kind == 0).for_each(|b| b.kind = 0x1004),
    }
}

/// Gaps, padding and another order: nothing that is tested.
fn laid_apart(plan: &mut SignaturePlan, random: &mut Random) {
    for blob in &mut plan.blobs {
        blob.gap = some_bytes(7, random);
    }
    plan.padding = some_bytes(50, random);
    plan.order = (0..plan.blobs.len()).rev().collect();
}
