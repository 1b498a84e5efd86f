//! Good signatures, damaged at random places: bytes, fields, cuts and extensions.

use reference::make::{put32, SignaturePlan};
use reference::random::Random;

use super::{common, one_page, signature_of, single, slots, Cases, KNOWN};

const SEED: u64 = 0x5452_4557_495A_4C4F;
const EACH: usize = 90;

pub fn add(cases: &mut Cases) {
    let mut random = Random::new(SEED);
    let several = [
        ("four blobs", common()),
        ("directory last", directory_last()),
        ("fourteen blobs", signature_of(&KNOWN)),
    ];
    for (name, good) in several {
        add_damaged(cases, name, &good.bytes(), &fields(&good), &mut random);
    }
    let fields: Vec<usize> = (0..64).step_by(4).collect();
    add_damaged(cases, "one blob", &single(&one_page(0x20001, 1)), &fields, &mut random);
}

fn add_damaged(cases: &mut Cases, name: &str, good: &[u8], fields: &[usize], random: &mut Random) {
    for number in 0..EACH {
        cases.add(format!("{name}, random damage {number}"), damaged(good, fields, random));
    }
}

/// Three pages, the directory behind the other blobs, and padding.
fn directory_last() -> SignaturePlan {
    let mut plan = signature_of(&[8, 2, 0]);
    let mut directory = one_page(0x20500, 5);
    directory.code = slots(0xC0, 3);
    directory.code_limit = 8193;
    plan.blobs[2].bytes = directory.bytes();
    plan.padding = vec![0; 12];
    plan
}

/// Where the four-byte fields lie that tests 1 to 18 read.
fn fields(plan: &SignaturePlan) -> Vec<usize> {
    let mut fields: Vec<usize> = (0..12 + 8 * plan.blobs.len()).step_by(4).collect();
    for (start, blob) in plan.starts().into_iter().zip(&plan.blobs) {
        fields.extend([start, start + 4]);
        if blob.kind == 0 {
            fields.extend((start + 8..start + 64).step_by(4));
        }
    }
    fields
}

/// One to three changes, and sometimes a cut or an extension.
fn damaged(good: &[u8], fields: &[usize], random: &mut Random) -> Vec<u8> {
    let mut bytes = good.to_vec();
    for _ in 0..=random.below(3) {
        match random.below(3) {
            0 => change_anywhere(&mut bytes, random),
            1 => change_in_field(&mut bytes, fields, random),
            _ => move_field(&mut bytes, fields, random),
        }
    }
    match random.below(8) {
        0 => bytes.truncate(random.below(good.len() as u64 + 1) as usize),
        1 => bytes.extend(vec![random.byte(); 1 + random.below(40) as usize]),
        _ => {}
    }
    bytes
}

fn change_anywhere(bytes: &mut [u8], random: &mut Random) {
    let at = random.below(bytes.len() as u64) as usize;
    bytes[at] = random.byte();
}

fn change_in_field(bytes: &mut [u8], fields: &[usize], random: &mut Random) {
    let at = random.pick(fields) + random.below(4) as usize;
    bytes[at] ^= 1 << random.below(8);
}

/// Adds a small number to a field, or takes it away.
fn move_field(bytes: &mut [u8], fields: &[usize], random: &mut Random) {
    let at = *random.pick(fields);
    let old = u32::from_be_bytes(bytes[at..at + 4].try_into().unwrap());
    let steps = [1, 2, 4, 8, 32, 33, 256, 0x1000];
    let step = *random.pick(&steps);
    let new = if random.below(2) == 0 { old.wrapping_add(step) } else { old.wrapping_sub(step) };
    put32(bytes, at, new);
}
