//! The straightforward checker answers as the reference does, so that what is timed is the
//! same work.

use std::collections::BTreeSet;

use bench::checker;
use compare::facts;
use corpora::cases::checks::{cases, Call, Kind};
use corpora::cases::signatures;
use reference::check::{check, Lent};
use reference::kinds::KINDS;
use reference::recheck::{recheck, Range};
use reference::slots::SideFiles;

fn reference_says(call: &Call, marks: &mut [u8]) -> (u32, u64) {
    let files = SideFiles { info: call.info.lent(), resources: call.resources.lent() };
    let answer = match call.kind {
        Kind::WholeCheck => {
            let (signature, image, cache) = (&call.signature, &call.bytes, &call.cache);
            check(&Lent { signature, image, cache, files, launch: call.launch }, marks)
        }
        _ => {
            let range = Range { start: call.start, length: call.length, bytes: &call.bytes };
            recheck(&call.signature, &range, marks)
        }
    };
    (answer.number, answer.place)
}

fn checker_says(call: &Call, marks: &mut [u8]) -> (u32, u64) {
    if call.kind != Kind::WholeCheck {
        let (start, length) = (call.start, call.length);
        let answer = checker::recheck(&call.signature, start, length, &call.bytes, marks);
        return (answer.number, answer.place as u64);
    }
    let lent = trewizlow::Lent {
        signature: &call.signature,
        image: &call.bytes,
        cache: &call.cache,
        info_plist: call.info.lent(),
        code_resources: call.resources.lent(),
        launch: facts(&call.launch),
    };
    let verdict = checker::check(&lent, marks);
    (verdict.number, verdict.place as u64)
}

/// Calls that must be among the cases for each hash kind, since they are what is timed.
const TIMED: [&str; 4] = [
    "whole check, accepted",
    "whole check, a page differs",
    "recheck, no page differs",
    "recheck, a page differs",
];

/// Which of these a call is; none where another test refuses.
fn timed(call: &Call, number: u32) -> Option<&'static str> {
    match (call.kind, number) {
        (Kind::WholeCheck, 0) => Some(TIMED[0]),
        (Kind::WholeCheck, 31) => Some(TIMED[1]),
        (_, 0) => Some(TIMED[2]),
        (_, 31) => Some(TIMED[3]),
        _ => None,
    }
}

#[test]
fn answers_and_marks_agree() {
    let mut marks = Vec::new();
    let mut met = BTreeSet::new();
    for call in cases() {
        if call.kind != Kind::RecheckAfter {
            marks.clone_from(&call.marks);
        }
        let mut after = marks.clone();
        let wanted = reference_says(&call, &mut after);
        assert_eq!(checker_says(&call, &mut marks), wanted, "{}", call.name);
        assert_eq!(marks, after, "{}", call.name);
        let kind = trewizlow::read(&call.signature).hash_type;
        met.extend(timed(&call, wanted.0).map(|what| (what, kind)));
    }
    let wanted = TIMED.map(|what| KINDS.map(|kind| (what, kind)));
    assert_eq!(met, wanted.into_iter().flatten().collect());
}

/// The same for signatures, damaged in every way that the corpus of signatures has.
#[test]
fn signatures_agree() {
    for named in signatures::cases() {
        let range = Range { start: u64::MAX, length: 1, bytes: &[] };
        let wanted = recheck(&named.signature, &range, &mut []);
        let answer = checker::recheck(&named.signature, u64::MAX, 1, &[], &mut []);
        let answered = (answer.number, answer.place as u64);
        assert_eq!(answered, (wanted.number, wanted.place), "{}", named.name);
    }
}
