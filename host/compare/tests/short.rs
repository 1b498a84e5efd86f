//! A short run, and what a difference looks like.

use compare::{run, Difference};

#[test]
fn library_and_reference_agree() {
    match run(2, 2_000, |_| {}) {
        Ok(counts) => {
            assert_eq!(counts.missing(), [0u32; 0], "numbers that no call answered");
            assert_eq!(counts.missing_kinds(), [0u8; 0], "hash kinds of which there was no case");
        }
        Err(difference) => panic!("{}{}", difference.text(), difference.input),
    }
}

#[test]
fn difference_is_kept_in_full() {
    let difference = Difference {
        seed: 7,
        case: 8,
        call: "the whole check".into(),
        input: "signature (1 bytes): 00\n".into(),
        library: "1 0".into(),
        reference: "2 0".into(),
    };
    let kept = difference.keep(&std::env::temp_dir()).unwrap();
    let text = std::fs::read_to_string(&kept).unwrap();
    std::fs::remove_file(kept).unwrap();
    assert!(text.contains("case 8 of seed 7 differs in the whole check"));
    assert!(text.contains("library:   1 0") && text.contains("signature (1 bytes): 00"));
}
