//! A run over many cases: the calls of each, the counts, the first difference.

use std::collections::BTreeMap;

use reference::answer::NUMBERS;
use reference::kinds::KINDS;
use reference::random::Random;
use reference::recheck::Range;

use crate::calls::{self, Said};
use crate::chain;
use crate::difference::{hex_line, Difference};
use crate::lookups;
use crate::scene::{random_of, Scene};

/// Looked up in every signature, with one random number more.
const LOOKED_UP: [u32; 19] =
    [0, 1, 2, 3, 4, 5, 6, 7, 8, 9, 10, 11, 12, 0x1000, 0x1002, 0x1004, 0x1005, 0x10000, u32::MAX];

/// How often each number was answered, how many cases there were of each hash kind, and how many
/// calls in all.
#[derive(Clone, Debug, Default)]
pub struct Counts {
    pub checks: BTreeMap<u32, u64>,
    pub rechecks: BTreeMap<u32, u64>,
    /// Cases by the hash kind of their directory.
    pub kinds: BTreeMap<u8, u64>,
    pub calls: u64,
}

impl Counts {
    /// The table's numbers that no call answered.
    pub fn missing(&self) -> Vec<u32> {
        let answered = |n: &u32| self.checks.contains_key(n) || self.rechecks.contains_key(n);
        NUMBERS.into_iter().filter(|number| !answered(number)).collect()
    }

    /// The hash kinds of which there was no case.
    pub fn missing_kinds(&self) -> Vec<u8> {
        KINDS.into_iter().filter(|kind| !self.kinds.contains_key(kind)).collect()
    }
}

/// A run under way.
pub struct Run {
    seed: u64,
    case: u64,
    counts: Counts,
    difference: Option<Difference>,
}

impl Run {
    fn new(seed: u64) -> Run {
        Run { seed, case: 0, counts: Counts::default(), difference: None }
    }

    /// Counts a call and keeps the first difference with its input.
    pub fn hold(&mut self, said: Said, input: impl FnOnce() -> String) {
        self.counts.calls += 1;
        if said.agrees() || self.difference.is_some() {
            return;
        }
        let Said { call, library, reference } = said;
        let (seed, case, input) = (self.seed, self.case, input());
        self.difference = Some(Difference { seed, case, call, input, library, reference });
    }

    /// A recheck by both; the marks after it.
    pub fn recheck(&mut self, signature: &[u8], range: &Range, marks: &[u8]) -> Vec<u8> {
        let (said, answer, after) = calls::recheck(signature, range, marks);
        *self.counts.rechecks.entry(answer.number).or_default() += 1;
        self.hold(said, || calls::recheck_input(signature, range, marks));
        after
    }

    /// Lookups, fields and hash.
    fn signature(&mut self, signature: &[u8], random: &mut Random) {
        let input = || {
            let mut out = String::new();
            hex_line(&mut out, "signature", signature);
            out
        };
        let any = random.number() as u32;
        for kind in LOOKED_UP.into_iter().chain([any]) {
            self.hold(lookups::find(signature, kind), input);
        }
        self.hold(lookups::read(signature), input);
        self.hold(lookups::cdhash(signature), input);
    }

    fn case(&mut self, case: u64) {
        self.case = case;
        let mut random = random_of(self.seed, case);
        let scene = Scene::new(&mut random);
        *self.counts.kinds.entry(scene.kind).or_default() += 1;
        self.signature(&scene.inputs.signature, &mut random);
        let (said, answer, marks) = calls::check(&scene.inputs, &scene.marks);
        *self.counts.checks.entry(answer.number).or_default() += 1;
        self.hold(said, || calls::check_input(&scene.inputs, &scene.marks));
        if matches!(answer.number, 0 | 31) {
            chain::chain(self, scene, marks, &mut random);
        } else {
            let marks: Vec<u8> = scene.marks.iter().map(|mark| mark % 2).collect();
            chain::single(self, &scene, &marks, &mut random);
        }
    }

    fn end(self) -> Result<Counts, Box<Difference>> {
        match self.difference {
            Some(difference) => Err(Box::new(difference)),
            None => Ok(self.counts),
        }
    }
}

/// Cases 0 to `cases`, stopping at the first difference; `progress` is told each case.
pub fn run(
    seed: u64,
    cases: u64,
    mut progress: impl FnMut(u64),
) -> Result<Counts, Box<Difference>> {
    let mut run = Run::new(seed);
    for case in 0..cases {
        if run.difference.is_some() {
            break;
        }
        progress(case);
        run.case(case);
    }
    run.end()
}

/// One case again.
pub fn run_case(seed: u64, case: u64) -> Result<Counts, Box<Difference>> {
    let mut run = Run::new(seed);
    run.case(case);
    run.end()
}
