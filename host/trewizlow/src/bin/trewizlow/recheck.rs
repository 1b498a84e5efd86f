//! `trewizlow recheck`.

use trewizlow::{read, recheck, Answer, MOST_PAGES, MOST_SIGNATURE_BYTES};

use crate::arguments::{Arguments, Names};
use crate::command::Command;
use crate::files::{mebibytes, notes, Opened};
use crate::help;
use crate::json;
use crate::kinds;
use crate::marks::{self, Held};
use crate::outcome::Outcome;
use crate::progress::during;
use crate::remarks::remarks;

pub const COMMAND: Command = Command {
    called: &["recheck"],
    names: Names {
        valued: &["--signature", "--start", "--length", "--pages", "--marks"],
        flags: &[],
    },
    help: help::RECHECK,
    run,
};

const AGREE: &str = "no mark is 1 (every page agrees as last examined); the trust cache was not \
                     looked at";

/// True or false where the answer speaks of all marks; null where the call was refused before.
fn pages_agree(answer: &Answer) -> String {
    let spoken = answer.wrote_marks().then(|| answer.accepted().to_string());
    spoken.unwrap_or("null".to_string())
}

fn as_json(answer: &Answer, written: &Result<bool, String>, signature: &[u8]) -> String {
    let sentence = if answer.accepted() { AGREE.to_string() } else { answer.sentence() };
    let agree = ("pages_agree", pages_agree(answer));
    let mut members = json::answer(answer.number, answer.place, agree, &sentence);
    members.extend(json::marks(written));
    members.extend(kinds::warning_member(signature));
    json::object(&members) + "\n"
}

fn as_line(answer: &Answer) -> String {
    if answer.accepted() {
        return format!("{} {} pages agree: {AGREE}\n", answer.number, answer.place);
    }
    format!("{answer}\n")
}

fn run(arguments: &Arguments) -> Result<Outcome, String> {
    arguments.no_words()?;
    let start = arguments.wanted_number("--start", u64::MAX)?;
    let length = arguments.wanted_number("--length", u64::MAX)?;
    let signature = arguments.wanted_path("--signature")?;
    let pages = arguments.wanted_path("--pages")?;
    let path = arguments.wanted_path("--marks")?;
    let signature = Opened::new(signature)?;
    marks::examine(path)?;
    // The pages come last: where they are a pipe, opening it waits for whoever writes it.
    let pages = Opened::new(pages)?;
    let inputs = [signature.input(), pages.input()];
    let signature = signature.read(MOST_SIGNATURE_BYTES)?;
    let pages = pages.pages(&read(&signature.bytes))?;
    let (held, new) = Held::with_new(path, &inputs)?;
    let old = held.read(MOST_PAGES)?;
    let mut marks = old.bytes.to_vec();
    let what = format!("rechecking {}", mebibytes(&pages.bytes));
    let call = || recheck(&signature.bytes, start, length, &pages.bytes, &mut marks);
    let answer = during(&what, call);
    let written =
        if answer.wrote_marks() { held.replace(new, &marks).map(|()| true) } else { Ok(false) };
    let refused = !answer.wrote_marks();
    let mut notes = notes(refused, [&signature, &pages, &old]);
    notes.extend(remarks(&signature));
    let text = match arguments.json() {
        true => as_json(&answer, &written, &signature.bytes),
        false => as_line(&answer),
    };
    let warnings = kinds::warning(&signature.bytes).into_iter().collect();
    Ok(Outcome { text, passed: answer.accepted(), notes, warnings, failure: written.err() })
}
