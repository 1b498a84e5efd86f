//! What the times stand under: buffers, samples, compilers, and no hash instructions.

use std::path::Path;

use super::arguments::Measuring;
use super::compiled;
use super::fault::Fault;
use super::instructions::{search, Search};
use super::measure::SAMPLE_SECONDS;
use super::number::{grouped, MIB};

/// Both programs are in this executable: one search speaks of both.
fn no_hash_instructions(executable: &Path) -> Result<String, Fault> {
    match search(executable) {
        Search::NotLooked(why) => Ok(format!("not looked for: {why}")),
        Search::Done(found) if found.hash.is_empty() => Ok(format!(
            "none among the {} instructions of this executable, which has both programs",
            grouped(found.read)
        )),
        Search::Done(found) => {
            let (count, first) = (found.hash.len(), &found.hash[0]);
            Err(Fault::differs(format!("hash instructions: {count}, the first {first}")))
        }
    }
}

/// Lines to stand above the tables. A hash instruction is a fault.
pub fn conditions(measuring: &Measuring, executable: &Path) -> Result<String, Fault> {
    let size = &measuring.size;
    let bytes = grouped(size.mib * MIB);
    let (reps, short_reps, ms) = (size.reps, measuring.short_reps, SAMPLE_SECONDS * 1e3);
    let (library, rust) = (compiled::library(executable), compiled::rust());
    let instructions = no_hash_instructions(executable)?;
    let release = match compiled::for_release() {
        true => "",
        false => "not built for release: the times say nothing\n",
    };
    Ok(format!(
        "\
{release}image: {} MiB, {bytes} bytes; not cleared: pseudo-random bytes, written before the first call
marks: cleared to 0 before each sample, outside the timed part
time: processor time of the thread; the two programs take turns, each first in every other one
samples: {reps} each; of calls below {ms} ms {short_reps} each, of as many calls as take {ms} ms
pages: each hashed once by each program
library: {library}
Rust: {rust}
hash instructions: {instructions}
",
        size.mib
    ))
}
