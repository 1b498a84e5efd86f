//! The calls that are lent a signature alone, made of both.

use reference::answer::DONE;
use reference::directory;
use reference::superblob;

use crate::calls::{number_and_place, Said};
use crate::types::fields;

/// The lookup of a type by both.
pub fn find(signature: &[u8], kind: u32) -> Said {
    let ours = trewizlow::find(signature, kind);
    let theirs = superblob::find(signature, kind.into());
    let (library, reference) = (ours.answer, theirs.answer);
    let text = |answer, start: u64, length: u64| format!("{answer}: {start} + {length}");
    Said {
        call: format!("the lookup of type {kind:#x}"),
        library: text(
            number_and_place(library.number, library.place as u64),
            ours.start as u64,
            ours.length as u64,
        ),
        reference: text(
            number_and_place(reference.number, reference.place),
            theirs.start,
            theirs.length,
        ),
    }
}

/// The directory's fields by both; every one 0 where refused.
pub fn read(signature: &[u8]) -> Said {
    let ours = trewizlow::read(signature);
    let theirs = directory::read(signature, false);
    let answer = theirs.err().unwrap_or(DONE);
    let text = |answer, fields: [u64; 15]| format!("{answer}: {fields:?}");
    Said {
        call: "the directory's fields".to_string(),
        library: text(
            number_and_place(ours.answer.number, ours.answer.place as u64),
            fields(&ours),
        ),
        reference: text(
            number_and_place(answer.number, answer.place),
            theirs.map_or([0; 15], |directory| directory.fields()),
        ),
    }
}

/// The directory's hash by both; zeros where refused.
pub fn cdhash(signature: &[u8]) -> Said {
    let ours = trewizlow::cdhash(signature);
    let theirs = directory::read(signature, false);
    let answer = theirs.err().unwrap_or(DONE);
    let hash = theirs.map_or([0; 20], |directory| directory.cdhash());
    let text = |answer, hash: [u8; 20]| format!("{answer}: {hash:02x?}");
    Said {
        call: "the directory's hash".to_string(),
        library: text(number_and_place(ours.answer.number, ours.answer.place as u64), ours.hash),
        reference: text(number_and_place(answer.number, answer.place), hash),
    }
}
