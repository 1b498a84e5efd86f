//! Cases in a file: which fields are named, where they lie, and what is refused.

use corpora::case::{is_name, Case, FACTS, IMAGE, INFO, MARKS, RESOURCES, SIGNATURE};
use corpora::file::{Reader, Writer, ARENA};

fn case(fields: &[(usize, &[u8])]) -> Case {
    let fields = fields.iter().map(|(number, bytes)| (*number, bytes.to_vec())).collect();
    Case { name: "x".to_string(), operation: 3, fields }
}

/// Writes the cases and reads them back; which fields each names.
fn round_trip(cases: &[Case]) -> Vec<Vec<usize>> {
    let (mut file, mut writer) = (Vec::new(), Writer::default());
    cases.iter().for_each(|case| writer.write(case, &mut file));
    let (mut at, mut reader, mut named) = (0, Reader::default(), Vec::new());
    for case in cases {
        let (head, next) = reader.read(&file, at).expect("a whole case");
        assert_eq!((&head.name, head.operation), (&case.name, case.operation));
        for (number, bytes) in &case.fields {
            assert!(reader.fields()[*number] == bytes, "field {number}");
        }
        at = next;
        named.push(head.named);
    }
    assert_eq!(at, file.len());
    named
}

/// The format, byte for byte.
#[test]
fn one_case() {
    let mut file = Vec::new();
    Writer::default().write(&case(&[(IMAGE, b"ab")]), &mut file);
    let item = [0, 0, 0, 2, 0, 0, 0, 0, 2, b'a', b'b'];
    assert_eq!(file, [&[1, b'x', 3, 1, 1, 0, 1, 0, 0], &item[..]].concat());
}

/// A field is named where its bytes or its length differ from what it holds.
#[test]
fn only_what_differs_is_named() {
    let named = round_trip(&[
        case(&[(SIGNATURE, b"one"), (FACTS, b"")]),
        case(&[(SIGNATURE, b"one"), (FACTS, b"1")]),
        case(&[(FACTS, b"1")]),
        case(&[(SIGNATURE, b"on"), (FACTS, b"1")]),
    ]);
    assert_eq!(named, [vec![SIGNATURE], vec![FACTS], vec![], vec![SIGNATURE]]);
}

/// Marks are named though they are the same, and no byte of them is kept: a call may have
/// changed them.
#[test]
fn marks_are_always_written() {
    let cases = [case(&[(MARKS, &[0, 1])]), case(&[(MARKS, &[0, 1])])];
    assert_eq!(round_trip(&cases), [[MARKS], [MARKS]]);
    let (mut file, mut writer) = (Vec::new(), Writer::default());
    cases.iter().for_each(|case| writer.write(case, &mut file));
    assert_eq!(file[..file.len() / 2], file[file.len() / 2..]);
}

/// Equal side files share their bytes; one of them changed, they do so no longer.
#[test]
fn side_files_share_bytes() {
    let long = vec![9; 4_194_305];
    let both = case(&[(INFO, &long), (RESOURCES, &long)]);
    let info = case(&[(INFO, b"i"), (RESOURCES, &long)]);
    let again = case(&[(INFO, b"i"), (RESOURCES, b"i")]);
    let other = case(&[(INFO, b"o"), (RESOURCES, b"i")]);
    let named = round_trip(&[both, info, again, other]);
    assert_eq!(named, [&[INFO, RESOURCES][..], &[INFO], &[RESOURCES], &[INFO, RESOURCES]]);
}

/// A long item over another field's long item: that field is written anew when it is used.
#[test]
fn long_items_take_turns() {
    let (image, signature) = (vec![1; 70_000], vec![2; 70_000]);
    let named = round_trip(&[
        case(&[(IMAGE, &image)]),
        case(&[(SIGNATURE, &signature)]),
        case(&[(IMAGE, &image)]),
    ]);
    assert_eq!(named, [[IMAGE], [SIGNATURE], [IMAGE]]);
}

#[test]
#[should_panic(expected = "a field was written over")]
fn two_long_items_at_once() {
    let (image, signature) = (vec![1; 70_000], vec![2; 70_000]);
    round_trip(&[case(&[(SIGNATURE, &signature), (IMAGE, &image)])]);
}

#[test]
fn names() {
    assert!(is_name("slot 5 filled, thing missing") && is_name(&"n".repeat(60)));
    assert!(!is_name("") && !is_name(&"n".repeat(61)));
    assert!(!is_name("a: b") && !is_name("a\nb") && !is_name("\u{e9}"));
}

#[test]
fn damaged_files_are_not_read() {
    let reads = |file: &[u8]| Reader::default().read(file, 0).is_some();
    assert!(reads(&[1, b'x', 3, 1, 15, 0, 0, 0, 0, 0, 0, 0, 0]));
    // No name, a colon in it, cut in the name, cut in a field, field 16.
    assert!(!reads(&[0, 3, 0]));
    assert!(!reads(&[1, b':', 3, 0]));
    assert!(!reads(&[9, b'x', 3, 0]));
    assert!(!reads(&[1, b'x', 3, 1, 15, 0, 0, 0, 0, 0, 0, 0]));
    assert!(!reads(&[1, b'x', 3, 1, 16, 0, 0, 0, 0, 0, 0, 0, 0]));
    // One byte at the arena's end, and one behind it.
    let at = |start: usize| {
        let start = (start as u32).to_be_bytes();
        [&[1, b'x', 3, 1, 0][..], &start, &[0, 0, 0, 1, 1, 0, 0, 0, 1, 7]].concat()
    };
    assert!(reads(&at(ARENA - 1)));
    assert!(!reads(&at(ARENA)) && !reads(&at(ARENA + 1)));
}
