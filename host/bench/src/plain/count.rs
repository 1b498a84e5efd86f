//! How many digests a thread has made. It is counted for tests alone: what is built for release
//! does not have this.

use std::cell::Cell;

thread_local! {
    static DIGESTS: Cell<usize> = const { Cell::new(0) };
}

pub(super) fn one() {
    DIGESTS.set(DIGESTS.get() + 1);
}

/// The digests that `work` makes in this thread.
pub fn during(work: impl FnOnce()) -> usize {
    let before = DIGESTS.get();
    work();
    DIGESTS.get() - before
}
