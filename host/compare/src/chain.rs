//! Rechecks: chains that go on from a whole check's marks, and single ones on other marks.

use reference::directory::{read, Directory};
use reference::pages;
use reference::random::Random;
use reference::recheck::Range;

use crate::calls::{self, Said};
use crate::run::Run;
use crate::scene::Scene;

/// The most rechecks of a chain.
const LONGEST: u64 = 5;

/// A range that mostly lies below the code limit.
fn some_range(limit: u64, random: &mut Random) -> (u64, u64) {
    let start = random.below(limit + 1);
    match random.below(12) {
        0 => (start, 0),
        1 => (limit, random.below(2)),
        2 => (u64::MAX - random.below(2), u64::MAX - random.below(2)),
        3 => (start, limit - start + 1),
        4 => (start, random.below(3).min(limit - start)),
        _ => (start, random.below(limit - start + 1)),
    }
}

/// From where to where the lent bytes of a range lie in the image; none above the limit.
fn lent_part(directory: &Directory, start: u64, length: u64) -> Option<(usize, usize)> {
    start.checked_add(length).filter(|end| *end <= directory.code_limit())?;
    let (first, last) = pages::met(directory, start, length);
    let from = pages::bounds(directory, first).0;
    Some((from as usize, (from + pages::bytes_of(directory, first, last)) as usize))
}

/// New bytes for part of the image: the book's or the signed ones, altered or not.
fn new_bytes(book: &[u8], signed: &[u8], random: &mut Random) -> Vec<u8> {
    let right = signed.len() == book.len() && random.below(2) == 0;
    let mut bytes = if right { signed.to_vec() } else { book.to_vec() };
    if !bytes.is_empty() && random.below(3) == 0 {
        let at = random.below(bytes.len() as u64) as usize;
        bytes[at] ^= 1 << random.below(8);
    }
    bytes
}

/// A chain under way. The book's image is that of `scene`, brought up to date.
struct Chain<'a> {
    run: &'a mut Run,
    scene: Scene,
    marks: Vec<u8>,
}

impl Chain<'_> {
    /// One recheck, sometimes with bytes of the wrong length. One that examines brings the
    /// book up to date.
    fn step(&mut self, random: &mut Random) {
        let signature = self.scene.inputs.signature.clone();
        let directory = read(&signature, false).expect("the check passed it");
        let (start, length) = some_range(directory.code_limit(), random);
        let part = lent_part(&directory, start, length);
        let (from, to) = part.unwrap_or((0, 0));
        let signed = self.scene.signed.get(from..to).unwrap_or_default();
        let mut bytes = new_bytes(&self.scene.inputs.image[from..to], signed, random);
        let wrong = random.below(8) == 0;
        if wrong {
            bytes.push(random.byte());
        }
        let range = Range { start, length, bytes: &bytes };
        self.marks = self.run.recheck(&signature, &range, &self.marks);
        if part.is_some() && !wrong {
            self.scene.inputs.image[from..to].copy_from_slice(&bytes);
        }
    }

    /// After the chain a whole check of the book's image gives the chain's marks.
    fn closes(&mut self) {
        let (inputs, before) = (&self.scene.inputs, &self.scene.marks);
        let (said, _, marks) = calls::check(inputs, before);
        self.run.hold(said, || calls::check_input(inputs, before));
        let said = Said {
            call: "the marks after a chain, which a whole check of its image should give".into(),
            library: format!("{:?}", self.marks),
            reference: format!("{marks:?}"),
        };
        self.run.hold(said, || calls::check_input(inputs, before));
    }
}

/// A chain from the marks that a whole check left.
pub fn chain(run: &mut Run, scene: Scene, marks: Vec<u8>, random: &mut Random) {
    let mut chain = Chain { run, scene, marks };
    for _ in 0..=random.below(LONGEST) {
        chain.step(random);
    }
    chain.closes();
    // A mark that is neither 0 nor 1, as no call leaves it.
    if random.below(4) == 0 && !chain.marks.is_empty() {
        let at = random.below(chain.marks.len() as u64) as usize;
        chain.marks[at] = 2 + random.byte() % 254;
        single(chain.run, &chain.scene, &chain.marks, random);
    }
}

/// A recheck of a signature that may be refused, on marks of any length.
pub fn single(run: &mut Run, scene: &Scene, marks: &[u8], random: &mut Random) {
    let signature = &scene.inputs.signature;
    let directory = read(signature, false).ok();
    let limit = directory.as_ref().map_or(9000, Directory::code_limit);
    let (start, length) = some_range(limit, random);
    let part = directory.as_ref().and_then(|d| lent_part(d, start, length)).unwrap_or((0, 0));
    let bytes = scene.inputs.image.get(part.0..part.1).unwrap_or_default();
    run.recheck(signature, &Range { start, length, bytes }, marks);
}
