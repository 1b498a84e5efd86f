//! Document 01, "Measured on both sides": every worked example.

use std::path::{Path, PathBuf};

use reference::answer::Answer;
use reference::directory::{head_size, read};
use reference::inputs::InputsPlan;
use reference::make::{blob_of, put32, with32, CachePlan, DirectoryPlan, SignaturePlan};
use reference::pages::page_count;
use reference::random::Random;
use reference::recheck::{recheck, Range};
use reference::small;

fn answer(number: u32, place: u64) -> Answer {
    Answer { number, place }
}

fn tested(signature: &[u8]) -> u32 {
    read(signature, false).map_or_else(|refusal| refusal.number, |_| 0)
}

#[test]
fn slots_by_code_limit() {
    let counts = [0, 1, 4096, 4097, 8192, 8193].map(|limit| page_count(12, limit));
    assert_eq!(counts, [0, 1, 1, 2, 2, 3]);
    assert_eq!([0, 8193].map(|limit| page_count(0, limit)), [0, 1]);
}

#[test]
fn bytes_that_a_range_wants() {
    let image = Random::new(1).bytes(8193);
    let inputs = InputsPlan::new(0x20400, image.clone(), 12).build();
    let ask = |start, length, bytes: &[u8]| {
        recheck(&inputs.signature, &Range { start, length, bytes }, &mut [0; 3]).number
    };
    assert_eq!(ask(4095, 2, &image[..8192]), 0);
    assert_eq!(ask(4095, 2, &image[..8191]), 33);
    assert_eq!(ask(8192, 1, &image[8192..]), 0);
    assert_eq!(ask(8192, 1, &[]), 33);
    assert_eq!(ask(8192, 2, &image[8192..]), 32);
    assert_eq!(ask(8193, 0, &[]), 0);
    assert_eq!(ask(8193, 0, &[0]), 33);
}

#[test]
fn heads_by_version() {
    let heads = [0x200FF, 0x20100, 0x20600, 0x20601].map(head_size);
    assert_eq!(heads, [Some(44), Some(48), Some(108), None]);
    let heads = [0x20001, 0x201FF, 0x202FF, 0x203FF, 0x204FF, 0x205FF, 0x20000].map(head_size);
    assert_eq!(heads, [Some(44), Some(48), Some(52), Some(64), Some(88), Some(96), None]);
    let newer = SignaturePlan::new(vec![(0, DirectoryPlan::new(0x20601).bytes())]);
    assert_eq!(tested(&newer.bytes()), 11);
}

#[test]
fn one_blob_and_sixty_four() {
    let good = SignaturePlan::new(vec![(0, DirectoryPlan::new(0x20001).bytes())]).bytes();
    assert_eq!(tested(&good), 0);
    assert_eq!(tested(&with32(&good, 16, 19)), 7);
    let mut index = vec![0; 532];
    put32(&mut index, 0, 0xFADE0CC0);
    put32(&mut index, 4, 524);
    put32(&mut index, 8, 64);
    assert_eq!(tested(&index), 6);
    assert_eq!(tested(&with32(&index, 4, 523)), 4);
    assert_eq!(tested(&with32(&index, 8, 65)), 3);
}

#[test]
fn lowest_hash_offset() {
    let mut plan = DirectoryPlan::new(0x20001).with_special(1, vec![1; 32]);
    for (offset, number) in [(76, 0), (75, 17)] {
        plan.hash_offset = Some(offset);
        assert_eq!(tested(&SignaturePlan::new(vec![(0, plan.bytes())]).bytes()), number);
    }
}

#[test]
fn empty_cache_and_equal_entries() {
    let plan = InputsPlan::new(0x20400, vec![7; 5000], 12);
    let mut inputs = plan.build();
    inputs.cache = CachePlan::new(Vec::new()).bytes();
    assert_eq!(inputs.check(9), (answer(26, 0), vec![9, 9]));
    let own = plan.cache().entries[0];
    inputs.cache = CachePlan::new(vec![own, own]).bytes();
    assert_eq!(inputs.check(9), (answer(25, 1), vec![9, 9]));
}

/// A directory for the files of one test, removed with them when it goes out of use.
struct Files(PathBuf);

impl Files {
    fn new(name: &str) -> Files {
        let path = std::env::temp_dir().join(format!("reference-{}-{name}", std::process::id()));
        std::fs::create_dir_all(&path).unwrap();
        Files(path)
    }

    fn write(&self, name: &str, bytes: &[u8]) -> PathBuf {
        let path = self.0.join(name);
        std::fs::write(&path, bytes).unwrap();
        path
    }
}

impl Drop for Files {
    fn drop(&mut self) {
        let _ = std::fs::remove_dir_all(&self.0);
    }
}

#[test]
fn small_program() {
    let files = Files::new("small");
    let inputs = InputsPlan::new(0x20400, vec![7; 32768], 12).build();
    let signature = files.write("signature", &inputs.signature);
    let image = files.write("image", &inputs.image);
    let cache = files.write("cache", &inputs.cache);
    let empty = files.write("empty", b"");
    let none = files.0.join("none");
    assert_eq!(small::run(&signature, &image, &cache), "0 0\n");
    assert_eq!(small::run(&empty, &image, &cache), "1 0\n");
    assert_eq!(small::run(&signature, &empty, &cache), "19 0\n");
    assert_eq!(small::run(&signature, &image, &empty), "24 0\n");
    assert_eq!(small::run(&none, &image, &cache), "no file\n");
    assert_eq!(small::run(&signature, &image, &none), "no file\n");
    // A directory opens and cannot be read.
    assert_eq!(small::run(&files.0, &image, &cache), "no file\n");
    assert_eq!(small::run(&signature, &files.0, &cache), "no file\n");
    assert_eq!(small::run(&signature, &image, &files.0), "no file\n");
}

/// Sizes of the small program's files, and that the first file at fault decides.
#[test]
fn small_program_sizes() {
    let files = Files::new("sizes");
    let zeros = |name: &str, length| files.write(name, &vec![0; length]);
    let (kib16, over16) = (zeros("16", 16384), zeros("over16", 16385));
    let (kib32, over32) = (zeros("32", 32768), zeros("over32", 32769));
    let none = files.0.join("none");
    let run = |a: &Path, b: &Path, c: &Path| small::run(a, b, c);
    assert_eq!(run(&kib16, &kib32, &kib16), "2 0\n");
    assert_eq!(run(&over16, &none, &none), "too long\n");
    assert_eq!(run(&none, &over32, &over16), "no file\n");
    assert_eq!(run(&kib16, &over32, &none), "too long\n");
    assert_eq!(run(&kib16, &none, &over16), "no file\n");
    assert_eq!(run(&kib16, &kib32, &over16), "too long\n");
}

/// 2 and 5 are there without their slots: the lowest k decides, and it is 23.
#[test]
fn empty_slot_with_its_thing_there() {
    let mut plan = InputsPlan::new(0x20400, vec![1; 10], 12);
    plan.blobs = vec![(5, blob_of(5, b"entitled"))];
    assert_eq!(plan.build().check(0).0, answer(23, 5));
    plan.blobs.push((2, blob_of(2, &[0; 4])));
    assert_eq!(plan.build().check(0).0, answer(23, 2));
}
