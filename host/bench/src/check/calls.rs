//! The calls that have no limit.

use super::fault::Fault;
use super::number::grouped;
use super::run::{Run, Timed};
use super::scene::{Scene, LARGE, MOST_ENTRIES, SMALL, WHOLE};
use super::table::{times, MICROSECONDS};
use crate::buffer::filled;
use crate::plain::Kind;

/// Pages met by rechecks, beside all.
const FEW: [usize; 2] = [1, 16];

struct Calls<'a, 'b, 'c> {
    run: &'a mut Run<'b, 'c>,
    image: &'a [u8],
    timed: Vec<Timed>,
}

/// A call in words, by a kind that is named unless it is SHA-256.
fn named(what: &str, kind: Kind) -> String {
    match kind {
        Kind::Sha256 => what.to_string(),
        kind => format!("{what}, {}", kind.name()),
    }
}

/// The image's pages in words.
fn pages_of(scene: &Scene) -> String {
    match scene.pages {
        1 => "one page".to_string(),
        _ => format!("pages of {} bytes", grouped(scene.page_size)),
    }
}

/// A recheck of so many pages in words.
fn rechecked(scene: &Scene, met: usize) -> String {
    match scene.pages {
        1 => format!("recheck, {}", pages_of(scene)),
        all => format!("recheck of {} of {} {}", grouped(met), grouped(all), pages_of(scene)),
    }
}

impl Calls<'_, '_, '_> {
    fn keep(&mut self, timed: Result<Timed, Fault>) -> Result<(), Fault> {
        self.timed.push(timed?);
        Ok(())
    }

    /// A whole check of the image.
    fn whole(&mut self, scene: &Scene, note: &str) -> Result<(), Fault> {
        let what = format!("whole check, {}{note}", pages_of(scene));
        let timed = self.run.whole(named(&what, scene.kind), scene, self.image);
        self.keep(timed)
    }

    /// A recheck of so many pages of an image.
    fn recheck(&mut self, scene: &Scene, image: &[u8], pages: usize) -> Result<(), Fault> {
        let what = named(&rechecked(scene, pages), scene.kind);
        let timed = self.run.recheck_pages(what, scene, image, pages);
        self.keep(timed)
    }

    /// Rechecks of a few pages and of all.
    fn rechecks(&mut self, scene: &Scene) -> Result<(), Fault> {
        let few = FEW.into_iter().filter(|&pages| pages < scene.pages);
        few.chain([scene.pages]).try_for_each(|pages| self.recheck(scene, self.image, pages))
    }

    fn by_sha256(&mut self) -> Result<(), Fault> {
        for shift in [SMALL, LARGE] {
            self.rechecks(&Scene::new(Kind::Sha256, self.image, shift))?;
        }
        let scene = Scene::new(Kind::Sha256, self.image, WHOLE);
        self.whole(&scene, "")?;
        self.rechecks(&scene)
    }

    fn last_page_differs(&mut self) -> Result<(), Fault> {
        [Kind::Sha256, Kind::Sha384].into_iter().try_for_each(|kind| {
            let scene = Scene::last_page_differs(kind, self.image, SMALL);
            self.whole(&scene, ", the last differs")
        })
    }

    fn small_inputs(&mut self) -> Result<(), Fault> {
        let what = format!("lookup among {} cache entries", grouped(MOST_ENTRIES));
        let timed = self.run.whole(what, &Scene::among(MOST_ENTRIES), &[]);
        self.keep(timed)?;
        let (scene, image) = Scene::sample();
        let timed = self.run.whole("whole check of the sample".to_string(), &scene, &image);
        self.keep(timed)?;
        self.recheck(&scene, &image, 1)
    }

    /// What grows with the limits on pages and signatures, at those limits.
    fn at_the_limits(&mut self) -> Result<(), Fault> {
        let page = filled(1 << SMALL);
        let scene = Scene::most_pages(&page);
        let what = rechecked(&scene, 1);
        let timed = self.run.recheck(what, &scene, scene.pages / 2 * page.len(), &page);
        self.keep(timed)?;
        let what = "tests 1 to 18, identifier 64 MiB".to_string();
        let timed = self.run.recheck(what, &Scene::longest(true), 0, &[]);
        self.keep(timed)?;
        let what = "whole check, directory 64 MiB".to_string();
        let timed = self.run.whole(what, &Scene::longest(false), &[]);
        self.keep(timed)
    }

    fn by_other_kinds(&mut self) -> Result<(), Fault> {
        for (kind, shift) in [(Kind::Sha1, SMALL), (Kind::Sha256Cut, SMALL), (Kind::Sha384, WHOLE)]
        {
            self.whole(&Scene::new(kind, self.image, shift), "")?;
        }
        let scene = Scene::new(Kind::Sha384, self.image, SMALL);
        self.recheck(&scene, self.image, FEW[1])
    }
}

pub fn measure(run: &mut Run, image: &[u8]) -> Result<Vec<Timed>, Fault> {
    let mut calls = Calls { run, image, timed: Vec::new() };
    calls.by_sha256()?;
    calls.last_page_differs()?;
    calls.small_inputs()?;
    calls.at_the_limits()?;
    calls.by_other_kinds()?;
    Ok(calls.timed)
}

pub fn table(calls: &[Timed]) -> String {
    times("Other calls, by SHA-256 unless a kind is named", MICROSECONDS, calls)
}
