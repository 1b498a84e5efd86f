//! The files of samples/ are those that make-samples writes, and the reference answers to
//! them what samples/README.md says.

use std::path::Path;

use reference::answer::Answer;
use reference::samples::{cache, files, plan_of, SIGNATURES};

#[test]
fn files_are_as_made() {
    let directory = Path::new(env!("CARGO_MANIFEST_DIR")).join("../../samples");
    for (name, bytes) in files() {
        assert!(std::fs::read(directory.join(name)).unwrap() == bytes, "{name} differs");
    }
}

#[test]
fn answers() {
    let files = files();
    let (_, damaged) = files.iter().find(|(name, _)| *name == "image-damaged.bin").unwrap();
    for ((_, kind), entry) in SIGNATURES.into_iter().zip([6, 2, 5]) {
        let mut inputs = plan_of(kind).build();
        inputs.cache = cache().bytes();
        assert_eq!(inputs.check(9), (Answer { number: 0, place: entry }, vec![0, 0, 0]));
        inputs.image = damaged.clone();
        assert_eq!(inputs.check(9), (Answer { number: 31, place: 1 }, vec![0, 1, 0]));
    }
}
