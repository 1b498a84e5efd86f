//! JSON text: strings and objects whose values are JSON text already.

use std::fmt::Write;

/// A member of an object: its name, and its value as JSON text.
pub type Member = (&'static str, String);

/// A string in quotes.
pub fn string(text: &str) -> String {
    let mut out = String::from('"');
    for c in text.chars() {
        match c {
            '"' | '\\' => out.extend(['\\', c]),
            c if c.is_control() => write!(out, "\\u{:04x}", c as u32).unwrap(),
            c => out.push(c),
        }
    }
    out.push('"');
    out
}

pub fn object(members: &[Member]) -> String {
    let members: Vec<String> =
        members.iter().map(|(name, value)| format!("{}:{value}", string(name))).collect();
    format!("{{{}}}", members.join(","))
}

pub fn array(values: impl Iterator<Item = String>) -> String {
    format!("[{}]", values.collect::<Vec<_>>().join(","))
}

/// The members that every answer has; `meaning` is what its number 0 means in that call.
pub fn answer(number: u32, place: usize, meaning: Member, message: &str) -> Vec<Member> {
    vec![
        ("number", number.to_string()),
        ("place", place.to_string()),
        meaning,
        ("message", string(message)),
    ]
}

pub fn error(sentence: &str) -> Member {
    ("error", string(sentence))
}

/// What became of the marks: written or not, or an error on the way.
pub fn marks(written: &Result<bool, String>) -> Vec<Member> {
    let mut members = vec![("marks_written", (*written == Ok(true)).to_string())];
    members.extend(written.as_ref().err().map(|sentence| error(sentence)));
    members
}
