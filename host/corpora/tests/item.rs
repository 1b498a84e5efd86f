//! Items: what is written is read back, and keeps are taken from the buffer.

use corpora::item::{read, write, RECORD};
use reference::random::Random;

/// Writes the items into one buffer after the other and reads them back; the file.
fn round_trip(items: &[Vec<u8>], capacity: usize) -> Vec<u8> {
    let (mut file, mut held) = (Vec::new(), vec![0; capacity]);
    for item in items {
        write(item, &held, &mut file);
        held[..item.len()].copy_from_slice(item);
    }
    let (mut at, mut buffer) = (0, vec![0; capacity]);
    for item in items {
        let (length, next) = read(&file, at, &mut buffer).expect("a whole item");
        assert_eq!(&buffer[..length], item);
        at = next;
    }
    assert_eq!(at, file.len());
    file
}

#[test]
fn runs_keeps_and_literals() {
    let file = round_trip(&[vec![5; 9], vec![], vec![5; 9], b"ab".to_vec()], 16);
    let wanted = [
        &[0, 0, 0, 9, 1, 0, 0, 0, 9, 5][..],
        &[0, 0, 0, 0],
        &[0, 0, 0, 9, 2, 0, 0, 0, 9],
        &[0, 0, 0, 2, 0, 0, 0, 0, 2, b'a', b'b'],
    ];
    assert_eq!(file, wanted.concat());
}

/// The bytes behind a shorter item stay in the buffer, and a buffer starts as zeros.
#[test]
fn buffer_outlasts_shorter_items() {
    let long: Vec<u8> = (0..40).collect();
    let file = round_trip(&[vec![0; 40], long.clone(), long[..3].to_vec(), long], 40);
    assert_eq!(file[..9], [0, 0, 0, 40, 2, 0, 0, 0, 40]);
    assert_eq!(file[file.len() - 9..], [0, 0, 0, 40, 2, 0, 0, 0, 40]);
}

/// Nothing is kept beyond what the writer may keep.
#[test]
fn nothing_to_keep() {
    let mut file = Vec::new();
    write(&[0, 0], &[], &mut file);
    assert_eq!(file, [0, 0, 0, 2, 1, 0, 0, 0, 2, 0]);
}

/// Records by number, most significant byte first.
fn records(count: u32) -> Vec<u8> {
    (0..count).flat_map(|i| [&i.to_be_bytes()[..], &[7; RECORD - 4]].concat()).collect()
}

/// 300 records are one segment, whether the last is whole or cut, and in the midst of other
/// bytes.
#[test]
fn numbered_records() {
    let whole = records(300);
    let file = round_trip(std::slice::from_ref(&whole), 8000);
    let segment = [&[3, 0, 0, 28, 32, 0, 0, 0, 0][..], &[7; RECORD - 4]].concat();
    assert_eq!(file, [&[0, 0, 28, 32], &segment[..]].concat());
    let file = round_trip(&[whole[..whole.len() - 21].to_vec()], 8000);
    assert_eq!(file[..9], [0, 0, 28, 11, 3, 0, 0, 28, 11]);
    let file = round_trip(&[[&[9, 8], &whole[..], &[5; 3]].concat()], 8000);
    assert!(file.len() < 60);
}

/// The template's first four bytes are replaced, and a record may be cut in its number.
#[test]
fn records_as_a_reader_makes_them() {
    let template: Vec<u8> = (100..100 + RECORD as u8).collect();
    let file = [&[0, 0, 0, 51, 3, 0, 0, 0, 51][..], &template].concat();
    let mut buffer = [1; 60];
    assert_eq!(read(&file, 0, &mut buffer), Some((51, file.len())));
    let wanted = [&[0; 4][..], &template[4..], &[0, 0, 0, 1], &template[4..], &[0, 0, 0], &[1; 9]];
    assert_eq!(buffer[..], wanted.concat());
}

#[test]
fn random_items() {
    let mut random = Random::new(77);
    let mut items = vec![vec![0u8; 300]];
    for _ in 0..400 {
        let mut item = items.last().unwrap().clone();
        item.resize(1 + random.below(300) as usize, random.byte());
        let at = random.below(item.len() as u64) as usize;
        let end = (at + random.below(30) as usize).min(item.len());
        let byte = random.byte();
        item[at..end].fill(byte);
        items.push(item);
    }
    round_trip(&items, 300);
}

#[test]
fn damaged_items_are_not_read() {
    let reads = |file: &[u8]| read(file, 0, &mut [0; 8]).is_some();
    assert!(reads(&[0, 0, 0, 1, 0, 0, 0, 0, 1, 7]));
    // Cut, a count of 0, an unknown tag, more than the item, more than the buffer.
    assert!(!reads(&[0, 0, 0, 1, 0, 0, 0, 0, 1]));
    assert!(!reads(&[0, 0, 0, 1, 0, 0, 0, 0, 0, 0, 0, 0, 0, 1, 7]));
    assert!(!reads(&[0, 0, 0, 1, 4, 0, 0, 0, 1, 7]));
    assert!(!reads(&[0, 0, 0, 1, 3, 0, 0, 0, 1, 7]));
    assert!(!reads(&[0, 0, 0, 1, 1, 0, 0, 0, 2, 7]));
    assert!(!reads(&[0, 0, 0, 9, 1, 0, 0, 0, 9, 7]));
}
