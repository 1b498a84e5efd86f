//! The command-line tool. It lends files to the proved library and prints what the library
//! answers; it is not part of the proof and decides nothing that the library decides.
//!
//! Exit statuses: 0 accepted, 1 refused, 2 usage or input error.

mod arguments;
mod check;
mod command;
mod explain;
mod fault;
mod files;
mod flags;
mod found;
mod help;
mod json;
mod kinds;
mod limit;
mod macho;
mod map;
mod marks;
mod out;
mod outcome;
mod progress;
mod recheck;
mod remarks;
mod replace;
mod scatter;
mod show;

use std::ffi::OsString;
use std::process::ExitCode;

use arguments::{Arguments, Part, NO_NAMES};
use command::Command;
use outcome::Outcome;

fn run(command: Result<&Command, String>, parts: Vec<Part>) -> Result<Outcome, String> {
    let command = command?;
    let arguments = Arguments::read(parts)?;
    if arguments.help {
        return Ok(Outcome::text(command.help.to_string()));
    }
    (command.run)(&arguments)
}

fn main() -> ExitCode {
    let list: Vec<OsString> = std::env::args_os().skip(1).collect();
    let Some((name, rest)) = list.split_first() else {
        let sentence = format!("no command is given\n{}", help::GENERAL);
        return Outcome::failed(sentence, false).report();
    };
    let command = command::find(name);
    let parts = match &command {
        Ok(command) => arguments::parts(rest, &command.names),
        Err(_) => arguments::parts(&list, &NO_NAMES),
    };
    let json = arguments::wants_json(&parts);
    fault::answer_in_json(json);
    run(command, parts).unwrap_or_else(|sentence| Outcome::failed(sentence, json)).report()
}
