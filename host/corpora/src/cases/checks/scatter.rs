//! Test 35 in whole checks and in rechecks.

use reference::inputs::InputsPlan;
use reference::recheck::Range;

use super::super::{VERSIONS, WITH_SCATTER};
use super::{striped, Call};

/// Each byte at 44 to 47 alone, none, and all. The cache lists each directory. An older one has
/// its identifier there.
pub fn add(calls: &mut Vec<Call>) {
    for version in VERSIONS {
        for number in [0, 1, 0x100, 0x10000, 0x1000000, 0xFFFFFFFF] {
            let mut plan = InputsPlan::new(version, striped(1), 12);
            plan.directory.scatter_offset = number;
            if version < WITH_SCATTER {
                plan.directory.identifier = number.to_be_bytes().to_vec();
            }
            let name = format!("version {version:#x}, {number:#x} at byte 44");
            let inputs = plan.build();
            let range = Range { start: 0, length: 1, bytes: &inputs.image };
            Call::both(calls, &name, &inputs, &range, &[1]);
        }
    }
}
