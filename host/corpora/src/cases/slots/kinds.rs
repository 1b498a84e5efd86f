//! Cases by the hash kind: slots are compared, and empty, at the kind's width.

use reference::kinds::KINDS;
use reference::make::width;

use super::{thing, Plan, State};
use crate::case::Case;

pub fn add(cases: &mut Vec<Case>) {
    for kind in KINDS {
        let full = Plan { kind, ..Plan::full() };
        cases.push(full.case(format!("kind {kind}, every thing there")));
        cases.push(Plan { kind, ..Plan::bare() }.case(format!("kind {kind}, nothing there")));
        states(cases, &full);
        empty_between(cases, &full);
        by_other_kinds(cases, &full);
        side_files(cases, &full);
    }
}

/// A slot in each state, its thing there or not. The bytes that are changed or set are about the
/// ends of all widths.
fn states(cases: &mut Vec<Case>, full: &Plan) {
    let bytes = [0, 19, 20, 31, 32, 47].into_iter().filter(|&at| at < width(full.kind));
    let one_byte = bytes.flat_map(|at| [State::Wrong(at), State::Almost(at)]);
    let states = [State::Empty, State::Right].into_iter().chain(one_byte);
    for (state, there) in states.flat_map(|state| [(state, true), (state, false)]) {
        let mut plan = full.clone();
        (plan.states[5], plan.there[5]) = (state, there);
        let state = format!("slot 5 {}, {}", state.name(), thing(there));
        cases.push(plan.case(format!("kind {}, {state}", full.kind)));
    }
}

/// A slot of zeros before a filled one, and behind one: it is empty, and its neighbours are not.
fn empty_between(cases: &mut Vec<Case>, full: &Plan) {
    for k in [1, 2, 3, 8, 9, 10, 11] {
        let mut plan = full.clone();
        (plan.states[k], plan.there[k]) = (State::Empty, false);
        cases.push(plan.case(format!("kind {}, slot {k} empty between filled", full.kind)));
    }
}

/// A thing hashed by each other kind: a blob and a side file.
fn by_other_kinds(cases: &mut Vec<Case>, full: &Plan) {
    for other in KINDS.into_iter().filter(|&other| other != full.kind) {
        for k in [3, 7] {
            let mut plan = full.clone();
            plan.states[k] = State::ByKind(other);
            cases.push(plan.case(format!("kind {}, slot {k} by kind {other}", full.kind)));
        }
    }
}

/// Side files of no byte, and about the end of a block of 128 bytes.
fn side_files(cases: &mut Vec<Case>, full: &Plan) {
    for length in [0, 111, 112] {
        let contents = vec![0x6B; length];
        let plan = Plan { info: contents.clone(), resources: contents, ..full.clone() };
        cases.push(plan.case(format!("kind {}, side files of {length}", full.kind)));
    }
}
