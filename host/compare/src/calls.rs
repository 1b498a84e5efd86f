//! The calls that are lent marks, made of both, and what each says as text that can be
//! compared and printed.

use reference::answer::{Answer, NUMBERS};
use reference::inputs::Inputs;
use reference::recheck::Range;

use crate::difference::{hex_line, word_line};
use crate::types::facts;

/// What the two say to one call.
pub struct Said {
    pub call: String,
    pub library: String,
    pub reference: String,
}

impl Said {
    pub fn agrees(&self) -> bool {
        self.library == self.reference
    }
}

/// Bytes around lent marks that nobody may write.
const GUARD: [u8; 16] = [0xA5; 16];

/// The marks after a call, and whether the bytes around them are as they were.
struct Written {
    marks: Vec<u8>,
    guards_kept: bool,
}

/// Lends a copy of the marks between guards.
fn guarded<T>(marks: &[u8], call: impl FnOnce(&mut [u8]) -> T) -> (T, Written) {
    let mut buffer = [&GUARD, marks, &GUARD].concat();
    let inside = GUARD.len()..GUARD.len() + marks.len();
    let said = call(&mut buffer[inside.clone()]);
    let guards_kept = buffer[..inside.start] == GUARD && buffer[inside.end..] == GUARD;
    (said, Written { marks: buffer[inside].to_vec(), guards_kept })
}

/// `NUMBER PLACE`, and a sentence where the table does not have the number.
pub fn number_and_place(number: u32, place: u64) -> String {
    let unknown = if NUMBERS.contains(&number) { "" } else { " (no number of the table)" };
    format!("{number} {place}{unknown}")
}

fn answered(number: u32, place: u64, written: &Written) -> String {
    let mut text = number_and_place(number, place) + " ";
    hex_line(&mut text, "marks", &written.marks);
    if !written.guards_kept {
        text.push_str("and bytes beside the marks were written");
    }
    text.trim_end().to_string()
}

/// The whole check by both; the reference's answer, and the marks after it.
pub fn check(inputs: &Inputs, marks: &[u8]) -> (Said, Answer, Vec<u8>) {
    let (answer, after) = guarded(marks, |marks| reference::check::check(&inputs.lent(), marks));
    let lent = trewizlow::Lent {
        signature: &inputs.signature,
        image: &inputs.image,
        cache: &inputs.cache,
        info_plist: inputs.info.as_deref(),
        code_resources: inputs.resources.as_deref(),
        launch: facts(&inputs.launch),
    };
    let (verdict, written) = guarded(marks, |marks| trewizlow::check(&lent, marks));
    let said = Said {
        call: "the whole check".to_string(),
        library: answered(verdict.number, verdict.place as u64, &written),
        reference: answered(answer.number, answer.place, &after),
    };
    (said, answer, after.marks)
}

/// The recheck by both; the reference's answer, and the marks after it.
pub fn recheck(signature: &[u8], range: &Range, marks: &[u8]) -> (Said, Answer, Vec<u8>) {
    let (answer, after) =
        guarded(marks, |marks| reference::recheck::recheck(signature, range, marks));
    let (ours, written) = guarded(marks, |marks| {
        trewizlow::recheck(signature, range.start, range.length, range.bytes, marks)
    });
    let said = Said {
        call: format!("the recheck of {} + {}", range.start, range.length),
        library: answered(ours.number, ours.place as u64, &written),
        reference: answered(answer.number, answer.place, &after),
    };
    (said, answer, after.marks)
}

/// What a whole check was lent.
pub fn check_input(inputs: &Inputs, marks: &[u8]) -> String {
    let mut out = String::new();
    hex_line(&mut out, "signature", &inputs.signature);
    hex_line(&mut out, "image", &inputs.image);
    hex_line(&mut out, "marks before", marks);
    hex_line(&mut out, "cache", &inputs.cache);
    for (name, file) in [("Info.plist", &inputs.info), ("CodeResources", &inputs.resources)] {
        match file {
            Some(bytes) => hex_line(&mut out, name, bytes),
            None => word_line(&mut out, name, "not there"),
        }
    }
    word_line(&mut out, "launch", inputs.launch);
    out
}

/// What a recheck was lent.
pub fn recheck_input(signature: &[u8], range: &Range, marks: &[u8]) -> String {
    let mut out = String::new();
    hex_line(&mut out, "signature", signature);
    word_line(&mut out, "start", range.start);
    word_line(&mut out, "length", range.length);
    hex_line(&mut out, "pages", range.bytes);
    hex_line(&mut out, "marks before", marks);
    out
}

#[cfg(test)]
mod tests {
    use super::*;

    /// A number that is not in the table is a difference with a sentence.
    #[test]
    fn unknown_number() {
        let written = Written { marks: vec![1], guards_kept: true };
        let said = Said {
            call: "the recheck of 0 + 1".to_string(),
            library: answered(4_000_000_000, 3, &written),
            reference: answered(31, 3, &written),
        };
        assert!(!said.agrees());
        let wanted = "4000000000 3 (no number of the table) marks (1 bytes): 01";
        assert_eq!(
            (said.library.as_str(), said.reference.as_str()),
            (wanted, "31 3 marks (1 bytes): 01")
        );
    }
}
