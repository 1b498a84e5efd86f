//! Signatures that no program's buffers hold: test 1's longest, and as many slots as there may be.

use compare::{facts, fields};
use reference::directory::{self, MOST_CODE_SLOTS};
use reference::inputs::{Inputs, InputsPlan};
use reference::kinds::{CS_HASHTYPE_SHA256, CS_HASHTYPE_SHA384};
use reference::make::{blob_of, width, DirectoryPlan, SignaturePlan};
use reference::superblob::{find, MOST_SIDE_FILE, MOST_SIGNATURE};
use trewizlow::{Lent, MOST_PAGES, MOST_SIDE_FILE_BYTES, MOST_SIGNATURE_BYTES};

/// What both say of a signature: number and place of reading it.
fn read(signature: &[u8]) -> (u32, u64) {
    let ours = trewizlow::read(signature);
    let said = (ours.answer.number, ours.answer.place as u64);
    match directory::read(signature, false) {
        Ok(directory) => {
            assert_eq!((said, fields(&ours)), ((0, 0), directory.fields()));
            assert_eq!(trewizlow::cdhash(signature).hash, directory.cdhash());
        }
        Err(answer) => assert_eq!(said, (answer.number, answer.place)),
    }
    let (blob, found) = (trewizlow::find(signature, 0x10000), find(signature, 0x10000));
    assert_eq!((blob.start as u64, blob.length as u64), (found.start, found.length));
    said
}

/// What both say in a whole check, marks and all.
fn check(inputs: &Inputs) -> (u32, u64) {
    let lent = Lent {
        info_plist: inputs.info.as_deref(),
        code_resources: inputs.resources.as_deref(),
        launch: facts(&inputs.launch),
        ..Lent::new(&inputs.signature, &inputs.image, &inputs.cache)
    };
    let mut marks = vec![7; inputs.pages];
    let verdict = trewizlow::check(&lent, &mut marks);
    let (answer, after) = inputs.check(7);
    assert_eq!((verdict.number, verdict.place as u64), (answer.number, answer.place));
    assert!(marks == after, "the marks differ");
    (answer.number, answer.place)
}

#[test]
fn limits_have_one_value() {
    let ours = [MOST_SIGNATURE_BYTES, MOST_SIDE_FILE_BYTES, MOST_PAGES];
    assert_eq!(ours.map(|n| n as u64), [MOST_SIGNATURE, MOST_SIDE_FILE, MOST_CODE_SLOTS]);
    assert_eq!(trewizlow::MOST_CODE_LIMIT as u64, directory::MOST_CODE_LIMIT);
}

/// Padding up to the longest signature, and one byte more; a blob that fills it.
#[test]
fn longest_signatures() {
    let inputs = InputsPlan::new(0x20400, vec![7; 5000], 12).build();
    for (length, wanted) in [(MOST_SIGNATURE, (0, 0)), (MOST_SIGNATURE + 1, (1, 0))] {
        let mut padded = inputs.clone();
        padded.signature.resize(length as usize, 0x55);
        assert_eq!(read(&padded.signature), wanted);
        assert_eq!(check(&padded), wanted);
        let directory = DirectoryPlan::new(0x20400).bytes();
        let room = length as usize - 12 - 16 - directory.len() - 8;
        let blobs = vec![(0, directory), (0x10000, blob_of(0x10000, &vec![0x33; room]))];
        let filled = SignaturePlan::new(blobs).bytes();
        assert_eq!(filled.len() as u64, length);
        assert_eq!(read(&filled), wanted);
    }
}

/// An identifier that fills the longest signature, with its zero byte last and without one.
#[test]
fn longest_identifiers() {
    for (last, wanted) in [(0, (0, 0)), (1, (18, 0))] {
        let mut plan = DirectoryPlan::new(0x20400);
        let room = MOST_SIGNATURE as usize - 20 - plan.bytes().len();
        plan.tail = vec![b'i'; room];
        plan.tail[room - 1] = last;
        plan.ident_offset = Some(plan.slots_start() as u32);
        let signature = SignaturePlan::new(vec![(0, plan.bytes())]).bytes();
        assert_eq!(signature.len() as u64, MOST_SIGNATURE);
        assert_eq!(read(&signature), wanted);
    }
}

/// A directory with so many slots of a kind, and a code limit that wants as many.
fn with_slots(kind: u8, count: u64, page_shift: u8) -> Inputs {
    let mut plan = InputsPlan::of_kind(kind, 0x20400, Vec::new(), page_shift);
    plan.directory.code_limit64 = count << page_shift;
    plan.directory.code = vec![vec![0xC7; width(kind)]; count as usize];
    plan.build()
}

/// 1,048,576 slots pass test 16 in pages of both sizes, of the widest kind too, and the image is
/// then too short; one more does not.
#[test]
fn most_slots() {
    let (common, widest) = (CS_HASHTYPE_SHA256, CS_HASHTYPE_SHA384);
    for (kind, shift) in [(common, 12), (common, 14), (widest, 12)] {
        let most = with_slots(kind, MOST_CODE_SLOTS, shift);
        assert_eq!(read(&most.signature), (0, 0));
        assert_eq!(check(&most), (19, 0));
    }
    let more = with_slots(common, MOST_CODE_SLOTS + 1, 12);
    assert_eq!(read(&more.signature), (16, 0));
    assert_eq!(check(&more), (16, 0));
}

/// Side files keep their limit: 4,194,305 bytes are 1.
#[test]
fn longest_side_files() {
    for (above, info, resources) in [(0, (23, 1), (23, 3)), (1, (1, 0), (1, 0))] {
        let mut inputs = InputsPlan::new(0x20400, vec![7; 5000], 12).build();
        inputs.info = Some(vec![0; (MOST_SIDE_FILE + above) as usize]);
        assert_eq!(check(&inputs), info);
        (inputs.resources, inputs.info) = (inputs.info, None);
        assert_eq!(check(&inputs), resources);
    }
}
