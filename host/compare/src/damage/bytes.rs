//! Damage to bytes and lengths.

use reference::inputs::Inputs;
use reference::random::Random;
use reference::superblob::{MOST_SIDE_FILE, MOST_SIGNATURE};

use super::{index, rarely};
use crate::plan::some_bytes;

type Damage = fn(&mut Inputs, &mut Random);

const DAMAGES: [Damage; 13] = [
    image_byte,
    image_byte,
    image_bytes,
    image_shorter,
    image_longer,
    marks_length,
    head_byte,
    head_byte,
    signature_byte,
    signature_cut,
    signature_longer,
    cache_byte,
    cache_cut,
];

pub fn damage(inputs: &mut Inputs, random: &mut Random) {
    if rarely(60, random) {
        return too_long(inputs, random);
    }
    random.pick(&DAMAGES)(inputs, random);
}

fn flip(bytes: &mut [u8], random: &mut Random) {
    if !bytes.is_empty() {
        bytes[index(bytes.len(), random)] ^= 1 << random.below(8);
    }
}

fn image_byte(inputs: &mut Inputs, random: &mut Random) {
    flip(&mut inputs.image, random);
}

fn image_bytes(inputs: &mut Inputs, random: &mut Random) {
    (0..5).for_each(|_| flip(&mut inputs.image, random));
}

fn image_shorter(inputs: &mut Inputs, random: &mut Random) {
    let cut = 1 + random.below(5000) as usize;
    inputs.image.truncate(inputs.image.len().saturating_sub(cut));
}

fn image_longer(inputs: &mut Inputs, random: &mut Random) {
    inputs.image.extend(some_bytes(5000, random));
}

fn marks_length(inputs: &mut Inputs, random: &mut Random) {
    inputs.pages = match random.below(3) {
        0 => inputs.pages.saturating_sub(1),
        1 => inputs.pages + 1,
        _ => random.below(300) as usize,
    };
}

/// The SuperBlob's head and index and the directory's head, where most tests look.
fn head_byte(inputs: &mut Inputs, random: &mut Random) {
    let end = inputs.signature.len().min(200);
    flip(&mut inputs.signature[..end], random);
}

fn signature_byte(inputs: &mut Inputs, random: &mut Random) {
    flip(&mut inputs.signature, random);
}

fn signature_cut(inputs: &mut Inputs, random: &mut Random) {
    let most = if random.below(2) == 0 { 40 } else { inputs.signature.len() + 1 };
    inputs.signature.truncate(index(most, random));
}

fn signature_longer(inputs: &mut Inputs, random: &mut Random) {
    inputs.signature.extend(some_bytes(100, random));
}

fn cache_byte(inputs: &mut Inputs, random: &mut Random) {
    flip(&mut inputs.cache, random);
}

fn cache_cut(inputs: &mut Inputs, random: &mut Random) {
    inputs.cache.truncate(index(inputs.cache.len() + 1, random));
}

/// A signature or a side file at test 1's limit or one byte above it.
fn too_long(inputs: &mut Inputs, random: &mut Random) {
    let above = random.below(2);
    let side_file = Some(vec![0; (MOST_SIDE_FILE + above) as usize]);
    match random.below(3) {
        0 => inputs.signature.resize((MOST_SIGNATURE + above) as usize, 0),
        1 => inputs.info = side_file,
        _ => inputs.resources = side_file,
    }
}
