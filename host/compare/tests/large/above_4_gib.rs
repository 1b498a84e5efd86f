//! Images about 4 GiB: the last byte that 32 bits can count, and the next one. Run by name,
//! with `cargo test --release -p compare --test above-4-gib -- --nocapture`.

mod scene;

use scene::{little_memory, Scene, EDGE};

/// 2^32 + 1 bytes in pages of 16 KiB: the last page is one byte, and starts at 2^32.
#[test]
fn one_byte_above() {
    let (below, above) = (EDGE - 1, EDGE);
    let mut scene = Scene::new(EDGE + 1, 14, &[0, below, above]);
    assert_eq!(scene.limit(), EDGE + 1);
    assert_eq!(scene.inputs.pages, 262_145);
    assert_eq!(scene.check(), (0, 0));
    across(&mut scene, below, above);
    // The range ends at the code limit, one byte above it, and where 64 bits end.
    assert_eq!(scene.recheck(above, 2), (32, 0));
    assert_eq!(scene.recheck(EDGE + 1, 0), (0, 0));
    assert_eq!(scene.recheck(EDGE + 2, 0), (32, 0));
    assert_eq!(scene.recheck(u64::MAX, 2), (32, 0));
    // Bytes changed on both sides show in a whole check, marks and all.
    scene.turn(below);
    scene.turn(above);
    assert_eq!(scene.check(), (31, 262_143));
    // The image without its last byte, and marks without their last.
    scene.inputs.image.pop();
    assert_eq!(scene.check(), (19, 0));
    scene.inputs.image.push(0);
    scene.inputs.pages -= 1;
    assert_eq!(scene.check(), (20, 0));
    little_memory();
}

/// Rechecks across 2^32 of two bytes on both sides of it, in two pages.
fn across(scene: &mut Scene, below: u64, above: u64) {
    let pages = [scene.page_of(below), scene.page_of(above)];
    assert_eq!(scene.recheck(below, 2), (0, 0));
    scene.turn(below);
    scene.turn(above);
    assert_eq!(scene.recheck(above, 1), (31, pages[1]));
    assert_eq!(scene.recheck(below, 2), (31, pages[0]));
    scene.turn(below);
    assert_eq!(scene.recheck(below, 1), (31, pages[1]));
    scene.turn(above);
    assert_eq!(scene.recheck(above, 1), (0, 0));
    // The bytes of one page in the place of two.
    let (start, page) = (scene.page_of(below) * scene.page, scene.page);
    let part = start as usize..(start + page) as usize;
    assert_eq!(scene.recheck_lent(below, 2, part), (33, 0));
}

/// 2^32 bytes in pages of 4 KiB: as many pages as there may be, and 32 MiB of slots.
#[test]
fn most_pages() {
    let (middle, last) = (EDGE / 2, EDGE - 1);
    let mut scene = Scene::new(EDGE, 12, &[0, middle, last]);
    assert_eq!(scene.limit(), EDGE);
    assert_eq!(scene.inputs.pages, 1_048_576);
    assert_eq!(scene.check(), (0, 0));
    scene.turn(last);
    assert_eq!(scene.recheck(last, 1), (31, 1_048_575));
    scene.turn(middle);
    assert_eq!(scene.recheck(middle - 1, 2), (31, 524_288));
    assert_eq!(scene.recheck(last, 2), (32, 0));
    assert_eq!(scene.check(), (31, 524_288));
    scene.turn(middle);
    scene.turn(last);
    assert_eq!(scene.recheck(middle, EDGE / 2), (0, 0));
    little_memory();
}
