//! Chains of rechecks against whole checks of the book's image (document 01, demand 3).

use reference::answer::Answer;
use reference::directory::read;
use reference::inputs::{Inputs, InputsPlan};
use reference::kinds::KINDS;
use reference::pages;
use reference::random::Random;
use reference::recheck::{recheck, Range};

/// A list of calls under way. The image of `inputs` is the book's.
struct Chain {
    inputs: Inputs,
    signed: Vec<u8>,
    marks: Vec<u8>,
}

/// A whole check of an image that may differ from the signed one.
fn start(random: &mut Random) -> Chain {
    let length = *random.pick(&[0usize, 1, 4095, 4096, 4097, 8192, 8193, 12289, 16385]);
    let shift = *random.pick(&[0u8, 12, 12, 14]);
    let kind = *random.pick(&KINDS);
    let mut inputs = InputsPlan::of_kind(kind, 0x20400, random.bytes(length), shift).build();
    let behind = random.below(3) as usize;
    inputs.image.extend(random.bytes(behind));
    let signed = inputs.image.clone();
    if length > 0 && random.below(2) == 0 {
        inputs.image[random.below(length as u64) as usize] ^= 1;
    }
    let (answer, marks) = inputs.check(5);
    assert!(answer.number == 0 || answer.number == 31);
    Chain { inputs, signed, marks }
}

/// A range that mostly lies below the code limit.
fn some_range(limit: u64, random: &mut Random) -> (u64, u64) {
    match random.below(8) {
        0 => (random.below(limit + 1), 0),
        1 => (limit, random.below(2)),
        2 => (u64::MAX, u64::MAX - random.below(2)),
        _ => {
            let from = random.below(limit + 1);
            (from, random.below(limit - from + 1))
        }
    }
}

impl Chain {
    /// Bytes for part of the image: the book's or the signed ones, altered or not.
    fn new_bytes(&self, from: usize, to: usize, random: &mut Random) -> Vec<u8> {
        let source = if random.below(2) == 0 { &self.signed } else { &self.inputs.image };
        let mut bytes = source[from..to].to_vec();
        if to > from && random.below(2) == 0 {
            bytes[random.below((to - from) as u64) as usize] ^= 1 << random.below(8);
        }
        bytes
    }

    /// A recheck that is turned down leaves book and marks.
    fn turned_down(&mut self, range: &Range, number: u32) {
        let before = self.marks.clone();
        let answer = recheck(&self.inputs.signature, range, &mut self.marks);
        assert_eq!(answer, Answer { number, place: 0 });
        assert_eq!(self.marks, before);
    }

    /// A recheck that examines leaves the marks, and gives the answer, of a whole check
    /// of the book's image.
    fn examined(&mut self, range: &Range, from: usize) {
        let answer = recheck(&self.inputs.signature, range, &mut self.marks);
        self.inputs.image[from..from + range.bytes.len()].copy_from_slice(range.bytes);
        let (whole, marks) = self.inputs.check(5);
        assert_eq!(self.marks, marks);
        assert_eq!(answer.number, whole.number);
        assert_eq!(answer.place, if whole.number == 31 { whole.place } else { 0 });
    }

    fn step(&mut self, random: &mut Random) {
        let signature = self.inputs.signature.clone();
        let directory = read(&signature, false).unwrap();
        let limit = directory.code_limit();
        let (start, length) = some_range(limit, random);
        if u128::from(start) + u128::from(length) > u128::from(limit) {
            return self.turned_down(&Range { start, length, bytes: &[] }, 32);
        }
        let (first, last) = pages::met(&directory, start, length);
        let from = pages::bounds(&directory, first).0 as usize;
        let to = from + pages::bytes_of(&directory, first, last) as usize;
        let mut bytes = self.new_bytes(from, to, random);
        if random.below(6) == 0 {
            bytes.push(0);
            return self.turned_down(&Range { start, length, bytes: &bytes }, 33);
        }
        self.examined(&Range { start, length, bytes: &bytes }, from);
    }
}

#[test]
fn chains_agree_with_whole_checks() {
    let mut random = Random::new(0x636861696E);
    for _ in 0..60 {
        let mut chain = start(&mut random);
        for _ in 0..12 {
            chain.step(&mut random);
        }
    }
}

/// After a change over a page boundary both pages are examined.
#[test]
fn change_over_a_boundary() {
    let inputs = InputsPlan::new(0x20400, vec![3; 8193], 12).build();
    let mut changed = inputs.image.clone();
    changed[4095..4097].fill(4);
    let (_, marks) = inputs.check(5);
    let mut chain = Chain { signed: inputs.image.clone(), inputs, marks };
    chain.examined(&Range { start: 4095, length: 2, bytes: &changed[..8192] }, 0);
    assert_eq!(chain.marks, [1, 1, 0]);
}
