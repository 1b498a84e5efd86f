//! An image of many gigabytes and what is said of it by both. Its bytes are zeros that nothing has
//! written, but for a few: the system then has one page for all of them.

use std::time::Instant;

use compare::facts;
use reference::answer::Answer;
use reference::inputs::{Inputs, InputsPlan};
use reference::make::{DirectoryPlan, Slot};
use reference::recheck::Range;
use trewizlow::{check, recheck, Lent};

/// The first number that has no room in 32 bits.
pub const EDGE: u64 = 1 << 32;

pub struct Scene {
    pub inputs: Inputs,
    /// The marks that the last call left.
    marks: Vec<u8>,
    pub page: u64,
}

impl Scene {
    /// An image of so many bytes, signed with a 1 at each of these places. Its codeLimit is what
    /// fits there: codeLimit64 is the code limit.
    pub fn new(length: u64, page_shift: u8, ones: &[u64]) -> Scene {
        let mut image = vec![0; length as usize];
        ones.iter().for_each(|&at| image[at as usize] = 1);
        let page = if page_shift == 0 { length } else { 1 << page_shift };
        let mut plan = InputsPlan::new(0x20400, Vec::new(), page_shift);
        plan.directory = DirectoryPlan {
            code_limit: u32::try_from(length).unwrap_or(u32::MAX),
            code_limit64: length,
            code: slots(&plan.directory, &image, page as usize, ones),
            ..plan.directory
        };
        let inputs = Inputs { image, ..plan.build() };
        Scene { marks: vec![7; inputs.pages], inputs, page }
    }

    /// The page of a byte.
    pub fn page_of(&self, at: u64) -> u64 {
        at / self.page
    }

    /// Turns the lowest bit of a byte.
    pub fn turn(&mut self, at: u64) {
        self.inputs.image[at as usize] ^= 1;
    }

    /// The whole check by both, which say the same: the number and the place.
    pub fn check(&mut self) -> (u32, u64) {
        let before = vec![7; self.inputs.pages];
        let lent = Lent {
            launch: facts(&self.inputs.launch),
            ..Lent::new(&self.inputs.signature, &self.inputs.image, &self.inputs.cache)
        };
        let (mut ours, mut marks) = (before.clone(), before);
        let verdict = timed("library", || check(&lent, &mut ours));
        let answer =
            timed("reference", || reference::check::check(&self.inputs.lent(), &mut marks));
        assert_eq!((verdict.number, verdict.place as u64), (answer.number, answer.place));
        assert!(ours == marks, "the marks differ");
        self.marks = marks;
        (answer.number, answer.place)
    }

    /// The recheck of a range by both, lent the image's bytes of the pages that it meets. Above the
    /// code limit nothing is met, and nothing lent.
    pub fn recheck(&mut self, start: u64, length: u64) -> (u32, u64) {
        let limit = self.inputs.image.len() as u64;
        let end = start.checked_add(length).filter(|end| *end <= limit && length > 0);
        let met = end.map_or(0..0, |end| {
            let behind = ((end - 1) / self.page + 1) * self.page;
            (start / self.page * self.page) as usize..behind.min(limit) as usize
        });
        self.recheck_lent(start, length, met)
    }

    /// The recheck of a range by both, lent this part of the image.
    pub fn recheck_lent(
        &mut self,
        start: u64,
        length: u64,
        part: std::ops::Range<usize>,
    ) -> (u32, u64) {
        let (signature, bytes) = (&self.inputs.signature, &self.inputs.image[part]);
        let (mut ours, mut marks) = (self.marks.clone(), self.marks.clone());
        let said = recheck(signature, start, length, bytes, &mut ours);
        let range = Range { start, length, bytes };
        let answer: Answer = reference::recheck::recheck(signature, &range, &mut marks);
        assert_eq!((said.number, said.place as u64), (answer.number, answer.place));
        assert!(ours == marks, "the marks differ");
        self.marks = marks;
        (answer.number, answer.place)
    }

    /// The fields and the hash of the directory by both; the code limit.
    pub fn limit(&self) -> u64 {
        let signature = &self.inputs.signature;
        let directory = reference::directory::read(signature, false).expect("a good signature");
        let ours = trewizlow::read(signature);
        assert_eq!(compare::fields(&ours), directory.fields());
        assert_eq!(trewizlow::cdhash(signature).hash, directory.cdhash());
        ours.code_limit as u64
    }
}

/// The digests of the pages: one for all of zeros, and one for each that has a 1 or is short.
fn slots(plan: &DirectoryPlan, image: &[u8], page: usize, ones: &[u64]) -> Vec<Slot> {
    let digest = |part: &[u8]| plan.digest(part);
    let count = image.len().div_ceil(page);
    if count == 1 {
        return vec![timed("reference's digest", || digest(image))];
    }
    let mut slots = vec![digest(&vec![0; page]); count];
    for i in ones.iter().map(|&at| at as usize / page).chain([count - 1]) {
        slots[i] = digest(&image[page * i..image.len().min(page * (i + 1))]);
    }
    slots
}

/// Runs something that takes long, and says how long it took.
fn timed<T>(what: &str, run: impl FnOnce() -> T) -> T {
    let start = Instant::now();
    let done = run();
    if start.elapsed().as_secs() > 0 {
        eprintln!("{what}: {:.1} s", start.elapsed().as_secs_f64());
    }
    done
}

/// The most memory that this process had at once stays below a gigabyte: nobody copied an image.
pub fn little_memory() {
    let status = std::fs::read_to_string("/proc/self/status").unwrap();
    let line = status.lines().find_map(|line| line.strip_prefix("VmHWM:")).unwrap();
    let kib: u64 = line.trim().trim_end_matches(" kB").parse().unwrap();
    eprintln!("resident at most: {} MiB", kib >> 10);
    assert!(kib < 1 << 20, "{kib} KiB were resident");
}
