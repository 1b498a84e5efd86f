//! Calls by both programs, measured and compared.

use trewizlow::Lent;

use super::arguments::Measuring;
use super::conditions::conditions;
use super::fault::Fault;
use super::measure::{measure, Call, Measured, Samples};
use super::programs::Programs;
use super::scene::Scene;
use super::streams::Streams;

pub struct Run<'a, 'b> {
    programs: &'a Programs,
    pub samples: Samples,
    streams: &'a mut Streams<'b>,
}

/// A call in words, and its times.
pub struct Timed {
    pub what: String,
    pub measured: Measured,
}

impl<'a, 'b> Run<'a, 'b> {
    /// Writes the conditions. A hash instruction ends the run.
    pub fn start(
        programs: &'a Programs,
        measuring: &Measuring,
        streams: &'a mut Streams<'b>,
    ) -> Result<Run<'a, 'b>, Fault> {
        let unnamed = |error| Fault::input(format!("this executable has no name: {error}"));
        let executable = std::env::current_exe().map_err(unnamed)?;
        streams.say("looking for hash instructions");
        streams.write(&conditions(measuring, &executable)?)?;
        let samples = Samples { long: measuring.size.reps, short: measuring.short_reps };
        Ok(Run { programs, samples, streams })
    }

    pub fn say(&mut self, text: &str) {
        self.streams.say(text);
    }

    pub fn write(&mut self, text: &str) -> Result<(), Fault> {
        self.streams.write(text)
    }

    fn timed(&mut self, what: String, scene: &Scene, call: Call) -> Result<Timed, Fault> {
        self.say(&format!("measuring {what}"));
        let measured = measure(self.programs, call, scene, self.samples);
        match measured {
            Ok(measured) => Ok(Timed { what, measured }),
            Err(difference) => Err(Fault::differs(format!("{what}: {difference}"))),
        }
    }

    /// A whole check by both programs.
    pub fn whole(&mut self, what: String, scene: &Scene, image: &[u8]) -> Result<Timed, Fault> {
        let lent = Lent::new(&scene.signature, image, &scene.cache);
        self.timed(what, scene, &|program, marks| {
            let verdict = (program.check)(&lent, marks);
            (verdict.number, verdict.place)
        })
    }

    /// A recheck of whole pages from this byte on by both programs.
    pub fn recheck(
        &mut self,
        what: String,
        scene: &Scene,
        start: usize,
        bytes: &[u8],
    ) -> Result<Timed, Fault> {
        let (start, length) = (start as u64, bytes.len() as u64);
        self.timed(what, scene, &|program, marks| {
            let answer = (program.recheck)(&scene.signature, start, length, bytes, marks);
            (answer.number, answer.place)
        })
    }

    /// A recheck of so many pages from the image's middle on, or of all.
    pub fn recheck_pages(
        &mut self,
        what: String,
        scene: &Scene,
        image: &[u8],
        pages: usize,
    ) -> Result<Timed, Fault> {
        let first = (scene.pages / 2).min(scene.pages - pages);
        let start = first * scene.page_size;
        let end = image.len().min(start + pages * scene.page_size);
        self.recheck(what, scene, start, &image[start..end])
    }
}
