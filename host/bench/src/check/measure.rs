//! Timing of one call by both programs, which take turns.

use super::programs::{Program, Programs};
use super::scene::Scene;
use crate::timing::{seconds, Times};

/// The answer's number and place.
pub type Answered = (u32, usize);

/// A call by a program, which is lent the marks.
pub type Call<'a> = &'a dyn Fn(&Program, &mut [u8]) -> Answered;

/// A call that takes less is short: it is repeated until a sample takes as long.
pub const SAMPLE_SECONDS: f64 = 0.004;
/// The most calls of a sample.
const MOST_CALLS: f64 = 100_000.0;

/// How many samples are taken of each program.
#[derive(Clone, Copy)]
pub struct Samples {
    pub long: usize,
    pub short: usize,
}

/// Seconds a call by each program.
#[derive(Clone, Copy, Debug, PartialEq)]
pub struct Pair {
    pub library: f64,
    pub plain: f64,
}

impl Pair {
    fn of(times: &[Times; 2], choose: impl Fn(&Times) -> f64) -> Pair {
        Pair { library: choose(&times[0]), plain: choose(&times[1]) }
    }

    /// Below 1 the library is faster.
    pub fn ratio(self) -> f64 {
        self.library / self.plain
    }
}

#[derive(Clone, Copy, Debug, PartialEq)]
pub struct Measured {
    pub samples: usize,
    pub minimum: Pair,
    pub median: Pair,
}

/// One sample: so many calls, timed together, the marks cleared before.
fn sample(program: &Program, call: Call, marks: &mut [u8], calls: usize) -> (f64, Answered) {
    marks.fill(0);
    let mut answer = (0, 0);
    let work = || (0..calls).for_each(|_| answer = std::hint::black_box(call(program, marks)));
    let taken = seconds(work);
    (taken / calls as f64, answer)
}

/// Both must answer what the scene wants, and leave the same marks.
fn compare(scene: &Scene, answers: [Answered; 2], marks: &[Vec<u8>; 2]) -> Result<(), String> {
    let [library, plain] = answers;
    if library != plain || !scene.wants(library) {
        let wanted = scene.wanted();
        return Err(format!("answers {library:?} and {plain:?} (Rust), wanted {wanted}"));
    }
    let differing = marks[0].iter().zip(&marks[1]).position(|(one, other)| one != other);
    match differing {
        Some(page) => {
            let [library, plain] = [0, 1].map(|program| marks[program][page]);
            Err(format!("page {page} is marked {library} and {plain} (Rust)"))
        }
        None => Ok(()),
    }
}

/// Both programs in turn.
struct Turns<'a> {
    programs: [&'a Program; 2],
    call: Call<'a>,
    scene: &'a Scene,
    marks: [Vec<u8>; 2],
}

impl Turns<'_> {
    /// A sample of each, compared. Each goes first in every other turn.
    fn turn(&mut self, turn: usize, calls: usize) -> Result<[f64; 2], String> {
        let (mut times, mut answers) = ([0.0; 2], [(0, 0); 2]);
        for program in [turn % 2, (turn + 1) % 2] {
            let marks = &mut self.marks[program];
            (times[program], answers[program]) =
                sample(self.programs[program], self.call, marks, calls);
        }
        compare(self.scene, answers, &self.marks)?;
        Ok(times)
    }
}

/// The call's times by both programs, or how they differ.
pub fn measure(
    programs: &Programs,
    call: Call,
    scene: &Scene,
    samples: Samples,
) -> Result<Measured, String> {
    let marks = [vec![0; scene.pages], vec![0; scene.pages]];
    let programs = [&programs.library, &programs.plain];
    let mut turns = Turns { programs, call, scene, marks };
    // Neither program is timed cold.
    let first = turns.turn(0, 1)?[0];
    let calls = (SAMPLE_SECONDS / first).ceil().clamp(1.0, MOST_CALLS) as usize;
    let samples = if calls == 1 { samples.long } else { samples.short };
    let mut times = [Times::new(1), Times::new(1)];
    for turn in 0..samples {
        let [library, plain] = turns.turn(turn, calls)?;
        times[0].add(0, library);
        times[1].add(0, plain);
    }
    let (minimum, median) = (Pair::of(&times, Times::minima), Pair::of(&times, Times::medians));
    Ok(Measured { samples, minimum, median })
}
