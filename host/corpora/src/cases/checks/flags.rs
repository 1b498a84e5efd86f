//! Test 46 in whole checks and in rechecks.

use reference::inputs::InputsPlan;
use reference::recheck::Range;

use super::{striped, Call};

/// Each bit alone, none, all that are allowed, one more, and all. The cache lists each directory.
pub fn add(calls: &mut Vec<Call>) {
    for flags in (0..32).map(|bit| 1 << bit).chain([0, 0x33F02, 0x33F03, 0xFFFF_FFFF]) {
        let mut plan = InputsPlan::new(0x20001, striped(1), 12);
        plan.directory.flags = flags;
        let inputs = plan.build();
        let range = Range { start: 0, length: 1, bytes: &inputs.image };
        Call::both(calls, &format!("flags {flags:#x}"), &inputs, &range, &[1]);
    }
}
