//! `trewizlow explain`.

use std::ffi::OsStr;

use trewizlow::{Answer, Rule, RULES};

use crate::arguments::{number, Arguments, NO_NAMES};
use crate::command::Command;
use crate::help;
use crate::json;
use crate::outcome::Outcome;

pub const COMMAND: Command =
    Command { called: &["explain"], names: NO_NAMES, help: help::EXPLAIN, run };

fn as_json(rule: &Rule) -> String {
    json::object(&[
        ("number", rule.number.to_string()),
        ("given", json::string(rule.given)),
        ("place", json::string(rule.place)),
        ("calls", json::array(rule.calls.split(", ").map(json::string))),
    ])
}

fn as_text(rule: &Rule) -> String {
    let place = if rule.place.is_empty() { "always 0" } else { rule.place };
    let written = Answer { number: rule.number, place: 0 }.wrote_marks();
    let marks = if written { "written by a check and a recheck" } else { "left as they were" };
    format!(
        "{}: {}\n  given when: {}\n  place: {place}\n  answered by: {}\n  marks: {marks}\n",
        rule.number,
        rule.general(),
        rule.given,
        rule.calls
    )
}

fn list(json: bool) -> String {
    if json {
        return json::array(RULES.iter().map(as_json)) + "\n";
    }
    RULES.iter().map(|rule| format!("{:2}  {}\n", rule.number, rule.general())).collect()
}

/// Numbers that rise, in words: `0 to 4, 7`.
fn ranges(numbers: impl Iterator<Item = u32>) -> String {
    let mut ranges: Vec<(u32, u32)> = Vec::new();
    for number in numbers {
        match ranges.last_mut() {
            Some((_, last)) if *last + 1 == number => *last = number,
            _ => ranges.push((number, number)),
        }
    }
    let words = ranges.into_iter().map(|(first, last)| match first == last {
        true => first.to_string(),
        false => format!("{first} to {last}"),
    });
    words.collect::<Vec<_>>().join(", ")
}

fn find(word: &OsStr) -> Result<&'static Rule, String> {
    let rule = number(word).and_then(|number| Rule::of(number.try_into().ok()?));
    rule.ok_or_else(|| {
        let numbers = ranges(RULES.iter().map(|rule| rule.number));
        format!("number {word:?} is not in this tool's table, which has {numbers}")
    })
}

fn run(arguments: &Arguments) -> Result<Outcome, String> {
    let json = arguments.json();
    let text = match arguments.words.as_slice() {
        [] => list(json),
        [word] if json => as_json(find(word)?) + "\n",
        [word] => as_text(find(word)?),
        _ => return Err("explain wants one number; see --help".to_string()),
    };
    Ok(Outcome::text(text))
}

#[cfg(test)]
mod tests {
    use super::*;

    #[test]
    fn ranges_in_words() {
        assert_eq!(ranges([0, 1, 2, 5, 7, 8].into_iter()), "0 to 2, 5, 7 to 8");
        assert_eq!(ranges([3].into_iter()), "3");
    }
}
