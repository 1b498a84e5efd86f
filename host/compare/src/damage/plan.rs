//! Damage to the plan: the directory's fields and slots, what slots cover, launch facts.

use reference::directory::{MOST_CODE_LIMIT, MOST_CODE_SLOTS};
use reference::inputs::InputsPlan;
use reference::kinds::{digest, KINDS};
use reference::launch::Launch;
use reference::make::{blob_of, width, Slot};
use reference::random::Random;

use super::{index, near};
use crate::plan::{some_bytes, OTHERS};

type Damage = fn(&mut InputsPlan, &mut Random);

const DAMAGES: [Damage; 25] = [
    version,
    hash_kind,
    hash_kind,
    page_shift,
    flags,
    scatter_offset,
    code_limit64,
    moved_limit,
    code_count,
    code_limit,
    special_count,
    hash_offset,
    ident_offset,
    no_end,
    special_slot,
    special_slot,
    code_slot,
    code_slot,
    info,
    resources,
    drop_blob,
    change_blob,
    category,
    launch,
    launch,
];

pub fn damage(plan: &mut InputsPlan, random: &mut Random) {
    random.pick(&DAMAGES)(plan, random);
}

fn version(plan: &mut InputsPlan, random: &mut Random) {
    let versions = [0, 1, 0x20000, 0x20601, 0x20700, 0x1FFFF, 0x30001, 0x02000100, 0xFFFFFFFF];
    plan.directory.version = *random.pick(&versions);
}

/// Test 13: a kind with its own size passes, and its slots are then those of another kind; listed
/// by the new kind it passes 26 and 27 too. A kind with another's size, or a number of no kind,
/// does not pass.
fn hash_kind(plan: &mut InputsPlan, random: &mut Random) {
    let directory = &mut plan.directory;
    let (kind, other) = (*random.pick(&KINDS), *random.pick(&KINDS));
    match random.below(6) {
        0 => (directory.hash_type, directory.hash_size) = (kind, width(kind) as u8),
        1 => {
            (directory.hash_type, directory.hash_size) = (kind, width(kind) as u8);
            directory.kind = kind;
        }
        2 => (directory.hash_type, directory.hash_size) = (kind, width(other) as u8),
        3 => directory.hash_type = kind,
        4 => directory.hash_size = *random.pick(&[0, 19, 20, 21, 31, 32, 33, 47, 48, 49, 64, 255]),
        _ => directory.hash_type = *random.pick(&[0, 5, 18, 130, 255]),
    }
}

/// One of the known sizes does not refuse here: the counts or the pages then do.
fn page_shift(plan: &mut InputsPlan, random: &mut Random) {
    plan.directory.page_shift = *random.pick(&[0, 1, 2, 11, 12, 13, 14, 15, 16, 128, 255]);
}

/// Only a bit that is not allowed refuses.
fn flags(plan: &mut InputsPlan, random: &mut Random) {
    plan.directory.flags ^= 1 << random.below(32);
}

/// Changes nothing where the version has no such field.
fn scatter_offset(plan: &mut InputsPlan, random: &mut Random) {
    plan.directory.scatter_offset = 1 << random.below(32);
}

/// A codeLimit64 beside what codeLimit says, or far from it: where the version has it, it is the
/// code limit. Half of them come with the count that they want.
fn code_limit64(plan: &mut InputsPlan, random: &mut Random) {
    let directory = &mut plan.directory;
    let limit = match random.below(4) {
        0 => 1 << random.below(64),
        1 => (1 << *random.pick(&[32, 34])) + random.below(3) - 1,
        2 => random.below(MOST_CODE_LIMIT + 1),
        _ => near(directory.code_limit, random).into(),
    };
    directory.code_limit64 = limit;
    if random.below(2) == 0 && limit <= MOST_CODE_LIMIT {
        let page = match directory.page_shift {
            0 => limit.max(1),
            14 => 16_384,
            _ => 4096,
        };
        let count = limit.div_ceil(page) as usize;
        directory.code_count = Some(count as u32);
        directory.code.truncate(count);
    }
}

/// A codeLimit64 in place of a codeLimit that says something else: the image is still accepted
/// where the version has it and it is not 0.
fn moved_limit(plan: &mut InputsPlan, random: &mut Random) {
    let directory = &mut plan.directory;
    directory.code_limit64 = directory.code_limit.into();
    directory.code_limit = near(directory.code_limit, random);
}

fn code_count(plan: &mut InputsPlan, random: &mut Random) {
    let right = plan.directory.code.len() as u32;
    plan.directory.code_count = Some(near(right, random));
}

/// Large limits with their right count, but without the slots. 32 bits have no room for one page
/// more than there may be: that comes with codeLimit64.
fn code_limit(plan: &mut InputsPlan, random: &mut Random) {
    let directory = &mut plan.directory;
    let pages = 1 + random.below(MOST_CODE_SLOTS - 1) as u32;
    match (random.below(3), directory.page_shift) {
        (0, 12) => {
            directory.code_limit = pages * 4096 - random.below(4096) as u32;
            directory.code_count = Some(pages);
        }
        (0, 0) => {
            directory.code_limit = random.number() as u32;
            directory.code_count = Some(1);
        }
        _ => directory.code_limit = near(directory.code_limit, random),
    }
}

fn special_count(plan: &mut InputsPlan, random: &mut Random) {
    let right = plan.directory.special.len() as u32;
    plan.directory.special_count = Some(match random.below(3) {
        0 => random.below(14) as u32,
        _ => near(right, random),
    });
}

fn hash_offset(plan: &mut InputsPlan, random: &mut Random) {
    let right = plan.directory.slots_start() as u32;
    plan.directory.hash_offset = Some(near(right, random));
}

fn ident_offset(plan: &mut InputsPlan, random: &mut Random) {
    let (head, length) = (plan.directory.head() as u32, plan.directory.bytes().len() as u32);
    plan.directory.ident_offset = Some(match random.below(3) {
        0 => head - 1,
        1 => length - random.below(3) as u32,
        _ => near(head, random),
    });
}

/// The identifier lies in the directory's tail, which may hold no zero byte.
fn no_end(plan: &mut InputsPlan, random: &mut Random) {
    let length = 1 + random.below(12) as usize;
    plan.directory.tail = random.bytes(length).into_iter().map(|byte| byte | 1).collect();
    if random.below(3) == 0 {
        *plan.directory.tail.last_mut().unwrap() = 0;
    }
    let end = plan.directory.bytes().len() as u32;
    plan.directory.ident_offset = Some(end - length as u32);
}

fn special_slot(plan: &mut InputsPlan, random: &mut Random) {
    let k = 1 + index(11, random);
    if random.below(4) == 0 {
        return plan.directory.special.truncate(k - 1);
    }
    let old = plan.directory.special.get(k - 1).cloned();
    let slot = changed_slot(old.unwrap_or(plan.directory.empty()), random);
    plan.directory = plan.directory.clone().with_special(k, slot);
}

/// A slot of the same width: empty, empty but for a byte, of any bytes, or with a bit changed.
fn changed_slot(mut slot: Slot, random: &mut Random) -> Slot {
    let (at, bit) = (index(slot.len(), random), 1 << random.below(8));
    match random.below(5) {
        0 => slot.fill(0),
        1 => {
            slot.fill(0);
            slot[at] = bit;
        }
        2 => slot.fill_with(|| random.byte()),
        3 => slot[at] ^= bit,
        _ => *slot.last_mut().expect("a byte or more") ^= bit,
    }
    slot
}

/// A code slot changed, or made by another kind for its page of 4,096 bytes.
fn code_slot(plan: &mut InputsPlan, random: &mut Random) {
    if plan.directory.code.is_empty() {
        return;
    }
    let at = index(plan.directory.code.len(), random);
    let old = plan.directory.code[at].clone();
    let page = plan.image.chunks(4096).nth(at).unwrap_or_default();
    plan.directory.code[at] = match random.below(3) {
        0 => {
            let mut slot = digest(u64::from(*random.pick(&KINDS)), page);
            slot.resize(old.len(), 0);
            slot
        }
        _ => changed_slot(old, random),
    };
}

fn changed_file(file: &Option<Vec<u8>>, random: &mut Random) -> Option<Vec<u8>> {
    match file {
        Some(_) if random.below(2) == 0 => None,
        _ => Some(some_bytes(200, random)),
    }
}

fn info(plan: &mut InputsPlan, random: &mut Random) {
    plan.info = changed_file(&plan.info, random);
}

fn resources(plan: &mut InputsPlan, random: &mut Random) {
    plan.resources = changed_file(&plan.resources, random);
}

fn drop_blob(plan: &mut InputsPlan, random: &mut Random) {
    if !plan.blobs.is_empty() {
        plan.blobs.remove(index(plan.blobs.len(), random));
    }
}

/// A blob that its slot does not know: other contents, or a blob that was not there.
fn change_blob(plan: &mut InputsPlan, random: &mut Random) {
    let kind = *random.pick(&OTHERS);
    plan.blobs.retain(|blob| blob.0 != kind);
    plan.blobs.push((kind, blob_of(kind, &some_bytes(60, random))));
}

fn category(plan: &mut InputsPlan, random: &mut Random) {
    plan.category = *random.pick(&[2, 3, 127, 128, 255]);
}

fn launch(plan: &mut InputsPlan, random: &mut Random) {
    let kinds = [0, 1, 1, 1, 2, 255];
    plan.category = 1;
    plan.launch = Launch {
        on_authorized_volume: random.below(2) == 0,
        on_system_volume: random.below(2) == 0,
        launch_type: *random.pick(&kinds),
        validation_category: *random.pick(&kinds),
        parent_is_init: random.below(3) == 0,
    };
}
