//! Every number of the table, reached by a small case.

use reference::answer::Answer;
use reference::directory::MOST_CODE_LIMIT;
use reference::inputs::{Inputs, InputsPlan, SYSTEM_SERVICE};
use reference::launch::Launch;
use reference::make::{blob_of, put32, put64, CacheEntry};
use reference::recheck::{recheck, Range};
use reference::superblob;

/// Three pages, every kind of thing that a slot covers, category 1, one neighbour on
/// each side in the cache.
fn plan() -> InputsPlan {
    let image = (0..8193u32).map(|i| (i * 7 / 8) as u8).collect();
    let mut plan = InputsPlan::new(0x20400, image, 12);
    plan.blobs =
        [2, 5, 7, 8, 9, 10, 11, 0x1000, 0x10000].map(|k| (k, blob_of(k, b"data"))).to_vec();
    plan.info = Some(b"info".to_vec());
    plan.resources = Some(Vec::new());
    plan.neighbours = vec![[0; 20], [0xFF; 20]];
    plan.category = 1;
    plan.launch = SYSTEM_SERVICE;
    plan.covered()
}

/// The directory is the first blob; the index has ten entries.
const DIRECTORY: usize = 12 + 8 * 10;

/// Refused with this answer, the marks as they were.
fn refused(inputs: &Inputs, number: u32, place: u64) {
    let (answer, marks) = inputs.check(9);
    assert_eq!(answer, Answer { number, place });
    assert_eq!(marks, vec![9; inputs.pages]);
}

fn with_signature(change: impl Fn(&mut Vec<u8>)) -> Inputs {
    let mut inputs = plan().build();
    change(&mut inputs.signature);
    inputs
}

fn with_plan(change: impl Fn(&mut InputsPlan)) -> Inputs {
    let mut plan = plan();
    change(&mut plan);
    plan.build()
}

fn with_scene(change: impl Fn(&mut Inputs)) -> Inputs {
    let mut inputs = plan().build();
    change(&mut inputs);
    inputs
}

#[test]
fn accepted_and_page_differs() {
    let mut inputs = plan().build();
    assert_eq!(inputs.check(9), (Answer { number: 0, place: 1 }, vec![0, 0, 0]));
    inputs.image[8192] ^= 1;
    inputs.image[4096] ^= 1;
    assert_eq!(inputs.check(9), (Answer { number: 31, place: 1 }, vec![0, 1, 1]));
}

#[test]
fn superblob_1_to_9() {
    refused(&with_signature(|s| s.truncate(11)), 1, 0);
    refused(&with_signature(|s| s[3] = 0), 2, 0);
    refused(&with_signature(|s| put32(s, 8, 0)), 3, 0);
    refused(&with_signature(|s| put32(s, 4, 91)), 4, 0);
    refused(&with_signature(|s| put32(s, 12 + 8 * 3, 6)), 5, 3);
    refused(&with_signature(|s| put32(s, 12 + 8 * 4, 5)), 6, 4);
    refused(&with_signature(|s| put32(s, 16 + 8 * 2, 91)), 7, 2);
    refused(&with_signature(|s| s[DIRECTORY] = 0), 8, 0);
    let first = plan().signature().starts()[2];
    refused(&with_signature(|s| put32(s, first + 4, 13)), 9, 3);
}

/// The side files' half of test 1 stands before 2 and looks only at files that are there.
#[test]
fn long_side_files() {
    let most = superblob::MOST_SIDE_FILE as usize;
    refused(&with_plan(|p| p.info = Some(vec![0; most + 1])), 1, 0);
    refused(&with_plan(|p| p.resources = Some(vec![0; most + 1])), 1, 0);
    refused(&with_plan(|p| p.info = Some(vec![0; most])), 22, 1);
    let mut inputs = plan().build();
    inputs.info = Some(vec![0; most + 1]);
    inputs.signature[0] = 0;
    refused(&inputs, 1, 0);
}

#[test]
fn directory_10_to_18() {
    refused(&with_signature(|s| put32(s, 12, 0x1001)), 10, 0);
    refused(&with_signature(|s| put32(s, DIRECTORY + 8, 0x20601)), 11, 0);
    refused(&with_signature(|s| put32(s, DIRECTORY + 4, 87)), 12, 0);
    refused(&with_signature(|s| put32(s, DIRECTORY + 4, 11)), 12, 0);
    refused(&with_signature(|s| s[DIRECTORY + 37] = 1), 13, 0);
    refused(&with_signature(|s| s[DIRECTORY + 39] = 13), 14, 0);
    refused(&with_signature(|s| put32(s, DIRECTORY + 12, 0x33F03)), 46, 0);
    refused(&with_signature(|s| put64(s, DIRECTORY + 56, MOST_CODE_LIMIT + 1)), 15, 0);
    refused(&with_signature(|s| s[DIRECTORY + 47] = 1), 35, 0);
    refused(&with_signature(|s| put32(s, DIRECTORY + 28, 2)), 16, 0);
    refused(&with_signature(|s| put32(s, DIRECTORY + 16, 439)), 17, 0);
    refused(&with_signature(|s| put32(s, DIRECTORY + 20, 87)), 18, 0);
}

/// CS_ALLOWED_MACHO of source document 000, which document 02 gives as 0x33F02.
#[test]
fn flags_46() {
    assert_eq!(reference::directory::CS_ALLOWED_MACHO, 0x33F02);
    for flags in [0, 2, 0x33F02] {
        assert_eq!(with_plan(|p| p.directory.flags = flags).check(9).0.number, 0);
    }
    for flags in [1, 0x33F03, 0x80000002, u32::MAX] {
        refused(&with_plan(|p| p.directory.flags = flags), 46, 0);
    }
}

/// codeLimit64 is the code limit from version 0x20300 on where it is not 0, be it the smaller one,
/// and refused above 2^34.
#[test]
fn code_limit_15() {
    let with = |version, limit: u32, large: u64, pages: usize| {
        let mut plan = InputsPlan::new(version, vec![7; 9000], 12);
        plan.directory = plan.directory.over(&[7; 9000][..large.clamp(1, 9000) as usize], 12);
        (plan.directory.code_limit, plan.directory.code_limit64) = (limit, large);
        Inputs { pages, ..plan.build() }
    };
    for version in [0x20300, 0x20600] {
        assert_eq!(
            with(version, 9000, 5000, 2).check(9),
            (Answer { number: 0, place: 0 }, vec![0; 2])
        );
        assert_eq!(
            with(version, 5000, 9000, 3).check(9),
            (Answer { number: 0, place: 0 }, vec![0; 3])
        );
        refused(&with(version, 9000, 5000, 3), 20, 0);
        refused(&with(version, 5000, 9001, 3), 19, 0);
        refused(&with(version, 9000, MOST_CODE_LIMIT, 3), 16, 0);
        refused(&with(version, 9000, MOST_CODE_LIMIT + 1, 3), 15, 0);
        refused(&with(version, 9000, u64::MAX, 3), 15, 0);
    }
    assert_eq!(with(0x202FF, 9000, u64::MAX, 3).check(9).0.number, 0);
}

/// The four bytes at 44, by the version: an older directory has its identifier there.
#[test]
fn scatter_35() {
    for byte in [0, 8, 16, 24].map(|shift| 1 << shift) {
        for version in [0x20100, 0x202FF, 0x20300, 0x20600] {
            let with = |p: &mut InputsPlan| {
                (p.directory.version, p.directory.scatter_offset) = (version, byte);
            };
            refused(&with_plan(with), 35, 0);
        }
        for version in [0x20001, 0x200FF] {
            let with = |p: &mut InputsPlan| {
                p.directory.version = version;
                p.directory.identifier = byte.to_be_bytes().to_vec();
            };
            assert_eq!(with_plan(with).check(9).0.number, 0);
        }
    }
}

#[test]
fn lent_19_and_20() {
    refused(&with_scene(|s| s.image.truncate(8192)), 19, 0);
    refused(&with_scene(|s| s.pages = 2), 20, 0);
    refused(&with_scene(|s| s.pages = 4), 20, 0);
}

#[test]
fn slots_21_to_23() {
    refused(&with_scene(|s| s.info = None), 21, 1);
    refused(&with_scene(|s| s.resources = None), 21, 3);
    refused(&with_plan(|p| p.directory.special[3] = vec![1; 32]), 21, 4);
    refused(&with_plan(|p| p.directory.special[5] = vec![1; 32]), 21, 6);
    refused(&with_plan(|p| p.blobs.retain(|blob| blob.0 != 9)), 21, 9);
    refused(&with_scene(|s| s.resources = Some(vec![0])), 22, 3);
    refused(&with_plan(|p| p.directory.special[4][31] ^= 1), 22, 5);
    refused(&with_plan(|p| p.directory.special[2] = vec![0; 32]), 23, 3);
    refused(&with_plan(|p| p.directory.special.truncate(10)), 23, 11);
    refused(&with_plan(|p| p.directory.special.clear()), 23, 1);
}

/// A hash that covers a blob without its head does not agree.
#[test]
fn blob_hashed_without_head() {
    refused(&with_plan(|p| p.directory.special[4] = p.directory.digest(b"data")), 22, 5);
}

fn with_entries(change: impl Fn(&mut Vec<CacheEntry>)) -> Inputs {
    let mut inputs = plan().build();
    let mut cache = plan().cache();
    change(&mut cache.entries);
    inputs.cache = cache.bytes();
    inputs
}

#[test]
fn cache_24_to_28() {
    refused(&with_scene(|s| s.cache.truncate(23)), 24, 0);
    refused(&with_scene(|s| s.cache[0] = 1), 24, 0);
    refused(&with_scene(|s| s.cache.push(0)), 24, 0);
    refused(&with_entries(|e| e.swap(0, 2)), 25, 1);
    refused(&with_entries(|e| e[2] = e[1]), 25, 2);
    refused(&with_entries(|e| e.retain(|entry| entry.category == 0)), 26, 0);
    refused(&with_entries(|e| e[1].hash_type = 1), 27, 1);
    refused(&with_entries(|e| e[1].category = 2), 28, 2);
    refused(&with_entries(|e| e[1].category = 255), 28, 255);
}

/// 65,536 entries pass 24, one more does not; the order is by the first byte first.
#[test]
fn cache_sizes_and_order() {
    let numbered = |i: u32| {
        let mut hash = [0; 20];
        hash[..4].copy_from_slice(&i.to_be_bytes());
        CacheEntry::new(hash, 9)
    };
    refused(&with_entries(|e| *e = (0..65_536).map(numbered).collect()), 26, 0);
    refused(&with_entries(|e| *e = (0..65_537).map(numbered).collect()), 24, 0);
    refused(&with_entries(|e| *e = vec![numbered(256), numbered(255)]), 25, 1);
}

#[test]
fn launch_29_and_30() {
    let facts = |launch| with_scene(|s| s.launch = launch);
    let good = SYSTEM_SERVICE;
    refused(&facts(Launch { on_system_volume: false, ..good }), 29, 0);
    refused(&facts(Launch { launch_type: 2, ..good }), 29, 0);
    refused(&facts(Launch { validation_category: 0, ..good }), 29, 0);
    refused(&facts(Launch { parent_is_init: false, launch_type: 0, ..good }), 29, 0);
    refused(&facts(Launch { parent_is_init: false, ..good }), 30, 0);
    let other = Launch { on_authorized_volume: true, on_system_volume: false, ..good };
    assert_eq!(facts(other).check(9).0.number, 0);
    let nothing_asked = with_plan(|p| (p.category, p.launch) = (0, Launch::default()));
    assert_eq!(nothing_asked.check(9).0, Answer { number: 0, place: 1 });
}

/// A recheck under the plan's signature: its answer, and the marks after it.
fn rechecked(start: u64, length: u64, bytes: &[u8], marks: &[u8]) -> (Answer, Vec<u8>) {
    let mut after = marks.to_vec();
    let answer = recheck(&plan().build().signature, &Range { start, length, bytes }, &mut after);
    (answer, after)
}

#[test]
fn recheck_32_to_34() {
    let turned_down = |start, length, bytes: &[u8], marks: &[u8], number, place| {
        let wanted = (Answer { number, place }, marks.to_vec());
        assert_eq!(rechecked(start, length, bytes, marks), wanted);
    };
    turned_down(u64::MAX, u64::MAX, &[], &[0, 9, 0, 0], 20, 0);
    turned_down(8193, 1, &[], &[0, 9, 0], 32, 0);
    turned_down(8194, 0, &[], &[0, 9, 0], 32, 0);
    turned_down(u64::MAX, 1, &[], &[0, 0, 0], 32, 0);
    turned_down(1, u64::MAX, &[], &[0, 0, 0], 32, 0);
    turned_down(0, 1, &[0; 4095], &[0, 9, 0], 33, 0);
    turned_down(5, 0, &[0], &[0, 9, 0], 33, 0);
    turned_down(8192, 1, &[0], &[0, 2, 255], 34, 1);
    turned_down(5, 0, &[], &[0, 1, 2], 34, 2);
}

#[test]
fn recheck_0_and_31() {
    let image = plan().image;
    let done = Answer { number: 0, place: 0 };
    assert_eq!(rechecked(4095, 2, &image[..8192], &[1, 1, 0]), (done, vec![0, 0, 0]));
    let first = Answer { number: 31, place: 0 };
    assert_eq!(rechecked(5000, 9, &image[4096..8192], &[1, 1, 1]), (first, vec![1, 0, 1]));
    let last = Answer { number: 31, place: 2 };
    assert_eq!(rechecked(8192, 1, &[1], &[0, 0, 0]), (last, vec![0, 0, 1]));
    assert_eq!(rechecked(7, 0, &[], &[0, 0, 1]), (last, vec![0, 0, 1]));
}

/// No page at all: only the range 0 + 0 passes 32, and nothing divides by P.
#[test]
fn no_pages() {
    for shift in [0, 12, 14] {
        let inputs = InputsPlan::new(0x20001, Vec::new(), shift).build();
        assert_eq!(inputs.check(9).0, Answer { number: 0, place: 0 });
        let ask = |start, length| {
            recheck(&inputs.signature, &Range { start, length, bytes: &[] }, &mut []).number
        };
        assert_eq!([ask(0, 0), ask(0, 1), ask(1, 0)], [0, 32, 32]);
    }
}

/// Bytes past the code limit, padding, gaps and unread contents change nothing.
#[test]
fn nothing_depends_on_these() {
    let mut plan = plan();
    plan.image.extend([1, 2, 3]);
    let mut signature = plan.signature();
    signature.blobs[3].gap = vec![0; 5];
    signature.padding = vec![0; 5];
    let mut inputs = plan.build();
    inputs.signature = signature.bytes();
    let accepted = inputs.check(9);
    assert_eq!(accepted.0, Answer { number: 0, place: 1 });
    signature.blobs[3].gap = vec![7; 5];
    signature.padding = vec![7; 5];
    signature.blobs[8].bytes = blob_of(0x1000, b"diff");
    signature.blobs[9].bytes = blob_of(0x10000, b"diff");
    inputs.signature = signature.bytes();
    inputs.image[8193..].fill(9);
    assert_eq!(inputs.check(9), accepted);
}
