//! bench-check: whole checks and rechecks by two programs, timed side by side. Every answer and
//! every mark is compared.

mod arguments;
mod builds;
mod calls;
mod compiled;
mod conditions;
mod fault;
mod file;
mod growth;
pub mod instructions;
mod measure;
mod number;
mod plot;
mod programs;
mod rows;
mod run;
mod saved;
mod scene;
mod streams;
mod table;

pub use programs::{Program, Programs};
pub use streams::Streams;

use std::path::Path;

use crate::buffer::filled;
use arguments::{Measuring, Task};
use fault::Fault;
use number::MIB;
use run::Run;

/// The exit status where all agree, by the limits of the rows.
const MET: u8 = 0;
const NOT_MET: u8 = 3;

/// bench-check with these arguments, comparing these programs; the exit status.
pub fn run(programs: &Programs, list: impl Iterator<Item = String>, streams: &mut Streams) -> u8 {
    let ended = match arguments::read(list) {
        Ok(Task::Help) => streams.write(&arguments::help()).map(|()| true),
        Ok(Task::Builds(files)) => builds::join(&files, streams),
        Ok(Task::Measure(measuring)) => measure(programs, &measuring, streams),
        Err(message) => Err(Fault::usage(&message)),
    };
    match ended {
        Ok(true) => MET,
        Ok(false) => NOT_MET,
        Err(fault) => {
            streams.say(&fault.message);
            fault.status
        }
    }
}

/// The parts that are asked for; true where every limit is met.
fn measure(
    programs: &Programs,
    measuring: &Measuring,
    streams: &mut Streams,
) -> Result<bool, Fault> {
    let paths = [&measuring.save, &measuring.plot];
    paths.into_iter().flatten().try_for_each(|path| file::test(path))?;
    let mut run = Run::start(programs, measuring, streams)?;
    run.say("filling the image");
    let parts = &measuring.parts;
    let largest = if parts.growth { measuring.most_mib } else { 0 };
    let buffer = filled(measuring.size.mib.max(largest) * MIB);
    let image = &buffer[..measuring.size.mib * MIB];
    let met = !parts.rows || rows(&mut run, image, measuring.save.as_deref())?;
    if parts.calls {
        let calls = calls::measure(&mut run, image)?;
        run.write(&calls::table(&calls))?;
    }
    if parts.growth {
        let growth = growth::measure(&mut run, image, &buffer[..largest * MIB])?;
        run.write(&growth::tables(&growth))?;
        measuring.plot.iter().try_for_each(|path| plot::write(path, &growth))?;
    }
    Ok(met)
}

/// The rows; true where every limit is met.
fn rows(run: &mut Run, image: &[u8], save: Option<&Path>) -> Result<bool, Fault> {
    let rows = rows::measure(run, image)?;
    run.write(&rows::table(&rows))?;
    save.map_or(Ok(()), |path| saved::write(path, &rows))?;
    Ok(rows.iter().all(rows::Row::met))
}
