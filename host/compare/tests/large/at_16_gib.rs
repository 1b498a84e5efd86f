//! Images of 2^34 bytes, the most that a code limit may be. Run by name,
//! with `cargo test --release -p compare --test at-16-gib -- --nocapture`.

mod scene;

use scene::{little_memory, Scene, EDGE};

const MOST: u64 = 1 << 34;

/// In pages of 16 KiB: as many pages as there may be.
#[test]
fn most_bytes_in_most_pages() {
    let mut scene = Scene::new(MOST, 14, &[0, EDGE - 1, EDGE, MOST - 1]);
    assert_eq!(scene.limit(), MOST);
    assert_eq!(scene.inputs.pages, 1_048_576);
    assert_eq!(scene.check(), (0, 0));
    scene.turn(EDGE - 1);
    scene.turn(MOST - 1);
    let [below, above, last] = [EDGE - 1, EDGE, MOST - 1].map(|at| scene.page_of(at));
    assert_eq!(scene.recheck(MOST - 1, 1), (31, last));
    assert_eq!(scene.recheck(EDGE - 1, 2), (31, below));
    scene.turn(EDGE - 1);
    assert_eq!(scene.recheck(EDGE - 1, 2), (31, last));
    assert_eq!(scene.recheck(MOST - 1, 2), (32, 0));
    assert_eq!(scene.recheck(MOST, 0), (31, last));
    scene.turn(EDGE);
    assert_eq!(scene.check(), (31, above));
    little_memory();
}

/// As one page.
#[test]
fn most_bytes_in_one_page() {
    let mut scene = Scene::new(MOST, 0, &[0, EDGE, MOST - 1]);
    assert_eq!(scene.limit(), MOST);
    assert_eq!(scene.inputs.pages, 1);
    assert_eq!(scene.check(), (0, 0));
    scene.turn(EDGE);
    assert_eq!(scene.recheck(EDGE - 1, 2), (31, 0));
    assert_eq!(scene.recheck(MOST, 1), (32, 0));
    assert_eq!(scene.recheck_lent(EDGE - 1, 2, 0..MOST as usize - 1), (33, 0));
    little_memory();
}
