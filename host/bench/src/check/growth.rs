//! How time grows with the image, the pages met and the cache, by SHA-256.

use super::fault::Fault;
use super::measure::Samples;
use super::number::{grouped, MIB};
use super::run::{Run, Timed};
use super::scene::{slots, Scene, MOST_ENTRIES, SMALL};
use super::table::{times, Unit, MICROSECONDS, MILLISECONDS};
use crate::plain::Kind;

/// Images are sampled until so many MiB were checked, or as often as other calls, but at least
/// LEAST times.
const SAMPLED_MIB: usize = 1024;
const LEAST: usize = 3;

/// The steps between sizes of images, counts of pages met and counts of cache entries.
const IMAGE_STEP: usize = 2;
const PAGES_STEP: usize = 4;
const ENTRIES_STEP: usize = 16;

pub struct Series {
    pub title: &'static str,
    /// What `sizes` count.
    pub axis: &'static str,
    pub unit: Unit,
    pub sizes: Vec<usize>,
    pub timed: Vec<Timed>,
}

/// 1, the step, its square and so on below the most, then the most itself.
fn rising(step: usize, most: usize) -> Vec<usize> {
    let powers = std::iter::successors(Some(1), |size| Some(size * step));
    powers.take_while(|&size| size < most).chain([most]).collect()
}

fn images(run: &mut Run, image: &[u8]) -> Result<Series, Fault> {
    let (sizes, samples) = (rising(IMAGE_STEP, image.len() / MIB), run.samples);
    run.say("hashing the largest image");
    let slots = slots(Kind::Sha256, image, SMALL);
    let mut timed = Vec::new();
    for &mib in &sizes {
        let part = &image[..mib * MIB];
        let code = slots[..part.len() >> SMALL].to_vec();
        let scene = Scene::with_slots(Kind::Sha256, part, SMALL, code);
        let fewer = (SAMPLED_MIB / mib).max(LEAST);
        run.samples = Samples { long: samples.long.min(fewer), ..samples };
        timed.push(run.whole(format!("whole check of {} MiB", grouped(mib)), &scene, part)?);
    }
    run.samples = samples;
    let title = "Whole check by image, pages of 4,096 bytes";
    Ok(Series { title, axis: "image, MiB", unit: MILLISECONDS, sizes, timed })
}

fn pages_met(run: &mut Run, image: &[u8]) -> Result<Series, Fault> {
    let scene = Scene::new(Kind::Sha256, image, SMALL);
    let sizes = rising(PAGES_STEP, scene.pages);
    let recheck = |&pages: &usize| {
        let what = format!("recheck of {} of {} pages", grouped(pages), grouped(scene.pages));
        run.recheck_pages(what, &scene, image, pages)
    };
    let timed = sizes.iter().map(recheck).collect::<Result<_, _>>()?;
    let title = "Recheck by pages met, of 4,096 bytes";
    Ok(Series { title, axis: "pages met", unit: MILLISECONDS, sizes, timed })
}

/// A whole check with code limit 0, which tests the order of the entries as well.
fn entries(run: &mut Run) -> Result<Series, Fault> {
    let sizes = rising(ENTRIES_STEP, MOST_ENTRIES);
    let lookup = |&entries: &usize| {
        let what = format!("lookup in a cache of {}", grouped(entries));
        run.whole(what, &Scene::among(entries), &[])
    };
    let timed = sizes.iter().map(lookup).collect::<Result<_, _>>()?;
    let title = "Lookup and order test by cache entries";
    Ok(Series { title, axis: "cache entries", unit: MICROSECONDS, sizes, timed })
}

/// `image` is that of the other parts, `largest` the one that sizes are cut from.
pub fn measure(run: &mut Run, image: &[u8], largest: &[u8]) -> Result<[Series; 3], Fault> {
    Ok([images(run, largest)?, pages_met(run, image)?, entries(run)?])
}

pub fn tables(growth: &[Series]) -> String {
    growth.iter().map(|series| times(series.title, series.unit, &series.timed)).collect()
}

#[cfg(test)]
mod tests {
    use super::rising;

    #[test]
    fn the_most_is_last_and_once() {
        assert_eq!(rising(2, 1), [1]);
        assert_eq!(rising(2, 8), [1, 2, 4, 8]);
        assert_eq!(rising(4, 50), [1, 4, 16, 50]);
    }
}
