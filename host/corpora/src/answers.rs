//! What the reference answers to a case, and the line that a test program must print. Runs of
//! the small program, which reads files, are answered where those files are made.

use std::fmt::Write;

use reference::answer::{Answer, DONE};
use reference::bytes::{be32, be64};
use reference::cache;
use reference::check::{check, Lent};
use reference::directory;
use reference::kinds::CS_HASHTYPE_SHA256;
use reference::launch::{self, Launch};
use reference::recheck::{recheck, Range};
use reference::slots::{self, SideFiles};
use reference::superblob::{self, Found};

use crate::case::{
    operation, Fields, CACHE, FACTS, HASH, IMAGE, INFO, RANGE, RESOURCES, SIGNATURE, TYPES,
};

/// The answer to a case and what is printed behind its name. `marks` are those before the
/// call, and then those after it.
pub fn answer(operation: u8, fields: &Fields, marks: &mut [u8]) -> (Answer, String) {
    match operation {
        operation::SIGNATURE => signature(fields[SIGNATURE], fields[TYPES]),
        operation::SLOTS => alone(tested_slots(fields)),
        operation::CACHE => alone(tested_cache(fields)),
        operation::CHECK => with_marks(whole_check(fields, marks), marks),
        operation::RECHECK => with_marks(range_check(fields, marks), marks),
        _ => unreachable!("no such operation"),
    }
}

/// `NUMBER PLACE`.
fn text(answer: Answer) -> String {
    format!("{} {}", answer.number, answer.place)
}

fn alone(answer: Answer) -> (Answer, String) {
    (answer, text(answer))
}

/// The answer, and the marks where there are any.
fn with_marks(answer: Answer, marks: &[u8]) -> (Answer, String) {
    let separator = if marks.is_empty() { "" } else { " " };
    (answer, text(answer) + separator + &hexadecimal(marks))
}

fn hexadecimal(bytes: &[u8]) -> String {
    bytes.iter().map(|byte| format!("{byte:02x}")).collect()
}

/// The answer of tests 1 to 18 and the directory's fields; the answer and the directory's
/// hash; the answer of tests 1 to 9 and where the blobs lie that are found. A `-` stands for
/// fields or a hash of zeros.
fn signature(signature: &[u8], types: &[u8]) -> (Answer, String) {
    let read = directory::read(signature, false);
    let answer = read.err().unwrap_or(DONE);
    let (mut fields, mut hash) = ("-".to_string(), "-".to_string());
    if let Ok(directory) = read {
        fields = directory.fields().map(|field| field.to_string()).join(" ");
        hash = hexadecimal(&directory.cdhash());
    }
    let number = text(answer);
    let found = lookups(signature, types);
    (answer, format!("{number} | {fields} | {number} {hash} |{found}"))
}

/// The types that are looked up, each with what is found.
fn lookups(signature: &[u8], types: &[u8]) -> String {
    let kinds = (0..types.len() as u64).step_by(4).map(|at| be32(types, at));
    let found: Vec<_> = kinds.map(|kind| (kind, superblob::find(signature, kind))).collect();
    lookup_line(&found)
}

/// ` NUMBER PLACE`, again before a type that is answered otherwise than the first one, and
/// ` TYPE:START+LENGTH` for each type where one of the two is not 0; nothing without types.
fn lookup_line(found: &[(u64, Found)]) -> String {
    let mut line = String::new();
    for (i, (kind, Found { answer, start, length })) in found.iter().enumerate() {
        if i == 0 || *answer != found[0].1.answer {
            write!(line, " {}", text(*answer)).unwrap();
        }
        if (*start, *length) != (0, 0) {
            write!(line, " {kind}:{start}+{length}").unwrap();
        }
    }
    line
}

/// A fact that is true or false.
fn holds(fields: &Fields, fact: usize) -> bool {
    fields[FACTS][fact] != 0
}

fn side_files<'a>(fields: &Fields<'a>) -> SideFiles<'a> {
    SideFiles {
        info: holds(fields, 0).then_some(fields[INFO]),
        resources: holds(fields, 1).then_some(fields[RESOURCES]),
    }
}

fn launch_facts(fields: &Fields) -> Launch {
    Launch {
        on_authorized_volume: holds(fields, 2),
        on_system_volume: holds(fields, 3),
        launch_type: fields[FACTS][4],
        validation_category: fields[FACTS][5],
        parent_is_init: holds(fields, 6),
    }
}

fn tested_slots(fields: &Fields) -> Answer {
    let signature = fields[SIGNATURE];
    let tested = directory::read(signature, false)
        .and_then(|directory| slots::test(signature, &directory, &side_files(fields)));
    tested.err().unwrap_or(DONE)
}

/// The hash that is looked for is of a directory by SHA-256.
fn tested_cache(fields: &Fields) -> Answer {
    let kind = u64::from(CS_HASHTYPE_SHA256);
    let hash = fields[HASH].try_into().expect("a hash of 20 bytes");
    let tested = cache::test(fields[CACHE], hash, kind).and_then(|listed| {
        launch::test(listed.category, &launch_facts(fields)).map(|()| listed.entry)
    });
    tested.map_or_else(|refusal| refusal, |entry| Answer { number: 0, place: entry })
}

fn whole_check(fields: &Fields, marks: &mut [u8]) -> Answer {
    let lent = Lent {
        signature: fields[SIGNATURE],
        image: fields[IMAGE],
        cache: fields[CACHE],
        files: side_files(fields),
        launch: launch_facts(fields),
    };
    check(&lent, marks)
}

fn range_check(fields: &Fields, marks: &mut [u8]) -> Answer {
    let (start, length) = (be64(fields[RANGE], 0), be64(fields[RANGE], 8));
    recheck(fields[SIGNATURE], &Range { start, length, bytes: fields[IMAGE] }, marks)
}

#[cfg(test)]
mod tests {
    use super::*;

    fn found(number: u32, place: u64, start: u64, length: u64) -> Found {
        Found { answer: Answer { number, place }, start, length }
    }

    /// What the reference never says shows as well: a start without a length, a later type
    /// that is answered otherwise.
    #[test]
    fn every_field_of_a_lookup_is_printed() {
        assert_eq!(lookup_line(&[]), "");
        let usual = [(0, found(0, 0, 52, 9)), (2, found(0, 0, 0, 0)), (5, found(0, 0, 61, 8))];
        assert_eq!(lookup_line(&usual), " 0 0 0:52+9 5:61+8");
        let half = [(2, found(0, 0, 7, 0)), (5, found(0, 0, 0, 7))];
        assert_eq!(lookup_line(&half), " 0 0 2:7+0 5:0+7");
        let later = [(0, found(5, 2, 0, 0)), (1, found(5, 3, 0, 0)), (2, found(5, 2, 0, 0))];
        assert_eq!(lookup_line(&later), " 5 2 5 3");
        let later = [(0, found(0, 0, 52, 9)), (2, found(4, 0, 61, 0)), (5, found(0, 0, 70, 8))];
        assert_eq!(lookup_line(&later), " 0 0 0:52+9 4 0 2:61+0 5:70+8");
    }
}
