//! Two faults in a signature: a test of document 02 with each other one.

use reference::recheck::Range;

use super::faults::{Fault, FLAGS, LIMIT, SCATTER, SIGNATURE};
use super::{full, Call};

pub fn add(calls: &mut Vec<Call>) {
    with_each(calls, FLAGS, &[FLAGS]);
    with_each(calls, SCATTER, &[SCATTER, FLAGS]);
    with_each(calls, LIMIT, &[LIMIT, FLAGS, SCATTER]);
}

/// With each fault but those left out.
fn with_each(calls: &mut Vec<Call>, (one, damage): Fault, left_out: &[Fault]) {
    let others = SIGNATURE.into_iter();
    for (other, fault) in others.filter(|(name, _)| left_out.iter().all(|out| out.0 != *name)) {
        let mut inputs = full().build();
        damage(&mut inputs);
        fault(&mut inputs);
        let range = Range { start: 0, length: 0, bytes: &[] };
        Call::both(calls, &format!("{one} and {other}"), &inputs, &range, &[0; 3]);
    }
}
