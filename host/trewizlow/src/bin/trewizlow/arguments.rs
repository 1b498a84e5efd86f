//! Command-line arguments: `--name value`, `--name=value`, flags, and words without a name.

use std::ffi::{OsStr, OsString};
use std::os::unix::ffi::OsStrExt;
use std::path::Path;

/// The names of a command's options.
pub struct Names {
    pub valued: &'static [&'static str],
    pub flags: &'static [&'static str],
}

pub const NO_NAMES: Names = Names { valued: &[], flags: &[] };

const JSON: &str = "--json";
const HELP: [&str; 2] = ["--help", "-h"];
/// The flags of every command.
const COMMON: [&str; 3] = [JSON, HELP[0], HELP[1]];

/// One step through a command line. The value of an option is part of its step, so that it
/// is never taken for a name.
pub enum Part {
    Valued(&'static str, Option<OsString>),
    Flag(&'static str, Option<OsString>),
    Unknown(OsString),
    Word(OsString),
}

/// The steps through a list; behind `--` there are words alone.
pub fn parts(list: &[OsString], names: &Names) -> Vec<Part> {
    let mut parts = Vec::new();
    let mut list = list.iter().cloned();
    while let Some(word) = list.next() {
        if word == "--" {
            parts.extend(list.by_ref().map(Part::Word));
        } else if word.as_bytes().starts_with(b"-") && word != "-" {
            parts.push(option(&word, names, &mut list));
        } else {
            parts.push(Part::Word(word));
        }
    }
    parts
}

fn option(word: &OsStr, names: &Names, list: &mut impl Iterator<Item = OsString>) -> Part {
    let (name, value) = split(word);
    let value = value.map(OsStr::to_os_string);
    if let Some(name) = known(names.valued, name) {
        return Part::Valued(name, value.or_else(|| list.next()));
    }
    match known(names.flags, name).or(known(&COMMON, name)) {
        Some(name) => Part::Flag(name, value),
        None => Part::Unknown(name.to_os_string()),
    }
}

/// `--name=value` as its two parts.
fn split(word: &OsStr) -> (&OsStr, Option<&OsStr>) {
    let bytes = word.as_bytes();
    match bytes.iter().position(|&byte| byte == b'=') {
        Some(at) => (OsStr::from_bytes(&bytes[..at]), Some(OsStr::from_bytes(&bytes[at + 1..]))),
        None => (word, None),
    }
}

fn known(names: &[&'static str], name: &OsStr) -> Option<&'static str> {
    names.iter().copied().find(|known| name == *known)
}

/// True where `--json` stands as a name, whatever else is wrong with the list.
pub fn wants_json(parts: &[Part]) -> bool {
    parts.iter().any(|part| matches!(part, Part::Flag(JSON, _)))
}

#[derive(Default)]
pub struct Arguments {
    given: Vec<(&'static str, OsString)>,
    pub words: Vec<OsString>,
    /// Help is asked for, and nothing else is to be done.
    pub help: bool,
}

impl Arguments {
    /// The first part that is wrong or asks for help decides.
    pub fn read(parts: Vec<Part>) -> Result<Arguments, String> {
        let mut arguments = Arguments::default();
        let mut parts = parts.into_iter();
        while let Some(part) = parts.next().filter(|_| !arguments.help) {
            arguments.take(part)?;
        }
        Ok(arguments)
    }

    fn take(&mut self, part: Part) -> Result<(), String> {
        match part {
            Part::Word(word) => self.words.push(word),
            Part::Unknown(name) => return Err(format!("no option {name:?}; see --help")),
            Part::Flag(name, Some(_)) => return Err(format!("{name} takes no value")),
            Part::Flag(name, None) if HELP.contains(&name) => self.help = true,
            Part::Flag(name, None) => self.add(name, OsString::new())?,
            Part::Valued(name, Some(value)) => self.add(name, value)?,
            Part::Valued(name, None) => return Err(format!("{name} wants a value")),
        }
        Ok(())
    }

    fn add(&mut self, name: &'static str, value: OsString) -> Result<(), String> {
        if self.flag(name) {
            return Err(format!("{name} is given twice"));
        }
        self.given.push((name, value));
        Ok(())
    }

    pub fn flag(&self, name: &str) -> bool {
        self.value(name).is_some()
    }

    pub fn json(&self) -> bool {
        self.flag(JSON)
    }

    fn value(&self, name: &str) -> Option<&OsStr> {
        self.given.iter().find(|(given, _)| *given == name).map(|(_, value)| value.as_os_str())
    }

    pub fn path(&self, name: &str) -> Option<&Path> {
        self.value(name).map(Path::new)
    }

    pub fn wanted_path(&self, name: &str) -> Result<&Path, String> {
        self.path(name).ok_or(format!("{name} is missing; see --help"))
    }

    /// A number up to `most`; none where the option is not given.
    pub fn number(&self, name: &str, most: u64) -> Result<Option<u64>, String> {
        let parse = |value: &OsStr| {
            let number = number(value).filter(|number| *number <= most);
            number.ok_or(format!("{name} wants a number from 0 to {most}, not {value:?}"))
        };
        self.value(name).map(parse).transpose()
    }

    pub fn wanted_number(&self, name: &str, most: u64) -> Result<u64, String> {
        self.number(name, most)?.ok_or(format!("{name} is missing; see --help"))
    }

    /// For commands that take options alone.
    pub fn no_words(&self) -> Result<(), String> {
        match self.words.first() {
            Some(word) => Err(format!("{word:?} belongs to no option; see --help")),
            None => Ok(()),
        }
    }
}

/// A decimal number, or a hexadecimal one after `0x`: digits alone, and at least one.
pub fn number(text: &OsStr) -> Option<u64> {
    let text = text.to_str()?;
    let (digits, radix) = text.strip_prefix("0x").map_or((text, 10), |digits| (digits, 16));
    // The standard library takes a sign too.
    let plain = digits.chars().all(|digit| digit.is_digit(radix));
    u64::from_str_radix(digits, radix).ok().filter(|_| plain)
}

#[cfg(test)]
mod tests {
    use super::*;

    #[test]
    fn numbers() {
        let number = |text: &str| number(OsStr::new(text));
        assert_eq!((number("0"), number("007")), (Some(0), Some(7)));
        assert_eq!((number("0x2000"), number("0xfF")), (Some(0x2000), Some(255)));
        assert_eq!(number("18446744073709551615"), Some(u64::MAX));
        for text in
            ["", "+5", "-5", "0x", "0x+5", "0x-5", "5 ", "1e3", "18446744073709551616", "0xg"]
        {
            assert_eq!(number(text), None, "{text}");
        }
    }
}
