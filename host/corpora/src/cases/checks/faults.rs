//! Faults in what `full` builds, each with a name. Made one after the other in this order,
//! the last one made decides each time.

use reference::directory::MOST_CODE_LIMIT;
use reference::inputs::Inputs;
use reference::make::{put32, put64};

pub type Fault = (&'static str, fn(&mut Inputs));

/// Where the signature of `full` has its directory: ten index entries stand before it.
const DIRECTORY: usize = 12 + 8 * 10;
/// Where the cache of `full` has the directory's entry.
const ENTRY: usize = 24 + 24;

/// Outside the signature: from 31 down to 19.
pub const OUTSIDE: [Fault; 13] = [
    ("last page changed", |s| s.image[8192] ^= 1),
    ("first page changed", |s| s.image[0] ^= 1),
    ("parent not init", |s| s.launch.parent_is_init = false),
    ("launch type 0", |s| s.launch.launch_type = 0),
    ("entry's category 9", |s| s.cache[ENTRY + 22] = 9),
    ("entry's hash type 1", |s| s.cache[ENTRY + 20] = 1),
    ("entry's hash changed", |s| s.cache[ENTRY + 19] ^= 1),
    ("first entry not below the second", |s| s.cache[24..44].fill(0xFF)),
    ("cache version 3", |s| s.cache[0] = 3),
    ("CodeResources changed", |s| s.resources = Some(vec![1])),
    ("Info.plist missing", |s| s.info = None),
    ("one mark too many", |s| s.pages = 4),
    ("image a byte short", |s| s.image.truncate(8192)),
];

/// CS_DATAVAULT_CONTROLLER beside CS_ADHOC.
pub const FLAGS: Fault =
    ("flags 0x80000002", |s| put32(&mut s.signature, DIRECTORY + 12, 0x80000002));

/// A codeLimit64 above 2^34 by one.
pub const LIMIT: Fault = ("limit 2^34 + 1", |s| {
    put64(&mut s.signature, DIRECTORY + 56, MOST_CODE_LIMIT + 1);
});

/// A scatterOffset of 1.
pub const SCATTER: Fault = ("scatterOffset 1", |s| s.signature[DIRECTORY + 47] = 1);

/// In the signature: from 18 down to 1, 35 and 46 among them.
pub const SIGNATURE: [Fault; 20] = [
    ("identOffset 87", |s| put32(&mut s.signature, DIRECTORY + 20, 87)),
    ("hashOffset 439", |s| put32(&mut s.signature, DIRECTORY + 16, 439)),
    ("two code slots", |s| put32(&mut s.signature, DIRECTORY + 28, 2)),
    SCATTER,
    LIMIT,
    FLAGS,
    ("pageSize 1", |s| s.signature[DIRECTORY + 39] = 1),
    ("hash size 20", |s| s.signature[DIRECTORY + 36] = 20),
    ("directory length 87", |s| put32(&mut s.signature, DIRECTORY + 4, 87)),
    ("version 0x20601", |s| put32(&mut s.signature, DIRECTORY + 8, 0x20601)),
    ("no directory", |s| put32(&mut s.signature, 12, 0x1001)),
    ("directory over the next blob", |s| put32(&mut s.signature, DIRECTORY + 4, 540)),
    ("directory's magic wrong", |s| s.signature[DIRECTORY] = 0),
    ("offset in the index", |s| put32(&mut s.signature, 16 + 8, 91)),
    ("type 2 twice", |s| put32(&mut s.signature, 12 + 16, 2)),
    ("type 3", |s| put32(&mut s.signature, 12 + 24, 3)),
    ("SuperBlob length 91", |s| put32(&mut s.signature, 4, 91)),
    ("count 65", |s| put32(&mut s.signature, 8, 65)),
    ("magic wrong", |s| s.signature[0] = 0),
    ("signature of 11 bytes", |s| s.signature.truncate(11)),
];
