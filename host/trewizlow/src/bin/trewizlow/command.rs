//! The commands by name.

use std::ffi::OsStr;

use crate::arguments::{Arguments, Names};
use crate::outcome::Outcome;
use crate::{check, explain, help, recheck, show};

pub struct Command {
    /// Its name, then other names for it.
    pub called: &'static [&'static str],
    pub names: Names,
    pub help: &'static str,
    pub run: fn(&Arguments) -> Result<Outcome, String>,
}

static COMMANDS: [Command; 6] = [
    check::COMMAND,
    recheck::COMMAND,
    show::COMMAND,
    explain::COMMAND,
    help::COMMAND,
    help::VERSION,
];

pub fn find(name: &OsStr) -> Result<&'static Command, String> {
    let command = COMMANDS.iter().find(|command| command.called.iter().any(|one| name == *one));
    command.ok_or(format!("no command {name:?}; `trewizlow --help` lists the commands"))
}

#[cfg(test)]
mod tests {
    use super::*;

    const COLUMNS: usize = 90;

    /// Help names every option and fits a terminal.
    #[test]
    fn help_is_complete() {
        for command in &COMMANDS {
            let options = command.names.valued.iter().chain(command.names.flags);
            for option in options {
                assert!(command.help.contains(option), "{option}");
            }
            for line in command.help.lines() {
                assert!(line.chars().count() <= COLUMNS, "{line}");
            }
        }
    }
}
