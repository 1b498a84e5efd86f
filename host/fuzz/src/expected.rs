//! What the reference says to a call, in the library's types.

use reference::answer::DONE;
use reference::check::Lent;
use reference::recheck::Range;
use reference::slots::SideFiles;
use reference::{directory, superblob};
use trewizlow::{Answer, Blob, CdHash, Verdict};

use crate::calls::Said;
use crate::cut::{Cut, Operation};

/// The call by the reference.
pub fn expected(cut: &Cut) -> Said {
    let mut marks = cut.marks.to_vec();
    match cut.operation {
        Operation::Check => {
            let answer = reference::check::check(&lent(cut), &mut marks);
            Said::Check(Verdict { number: answer.number, place: answer.place as usize }, marks)
        }
        Operation::Recheck => {
            let range = Range { start: cut.start, length: cut.length, bytes: cut.image };
            let answer = reference::recheck::recheck(cut.signature, &range, &mut marks);
            Said::Recheck(answer_of(answer), marks)
        }
        Operation::Find => Said::Find(found(cut.signature, cut.kind)),
        Operation::Read => read(cut.signature),
        Operation::CdHash => Said::CdHash(cdhash(cut.signature)),
    }
}

fn lent<'a>(cut: &Cut<'a>) -> Lent<'a> {
    Lent {
        signature: cut.signature,
        image: cut.image,
        cache: cut.cache,
        files: SideFiles { info: cut.info, resources: cut.resources },
        launch: cut.launch,
    }
}

fn answer_of(answer: reference::answer::Answer) -> Answer {
    Answer { number: answer.number, place: answer.place as usize }
}

fn found(signature: &[u8], kind: u32) -> Blob {
    let found = superblob::find(signature, kind.into());
    Blob {
        answer: answer_of(found.answer),
        start: found.start as usize,
        length: found.length as usize,
    }
}

/// Every field is 0 where the signature is refused.
fn read(signature: &[u8]) -> Said {
    let read = directory::read(signature, false);
    let answer = answer_of(read.err().unwrap_or(DONE));
    Said::Read(answer, read.map_or([0; 15], |directory| directory.fields()))
}

fn cdhash(signature: &[u8]) -> CdHash {
    let read = directory::read(signature, false);
    CdHash {
        answer: answer_of(read.err().unwrap_or(DONE)),
        hash: read.map_or([0; 20], |directory| directory.cdhash()),
    }
}
