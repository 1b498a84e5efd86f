//! A libFuzzer target: one call of the proved library for each input, with every buffer
//! between pages that cannot be touched, and its answer held to the reference's.
//!
//! `run` beside this package's Cargo.toml builds and starts it.

mod calls;
mod cut;
mod expected;
mod guarded;
mod seeds;

pub use calls::compare;
pub use cut::{Cut, Operation};
pub use seeds::{seeds, Seed, MOST_BYTES};

/// libFuzzer's entry. A difference panics, which aborts here, so that the input is kept.
///
/// # Safety
/// `data` is valid for reads of `size` bytes, as libFuzzer promises.
#[no_mangle]
pub unsafe extern "C" fn LLVMFuzzerTestOneInput(data: *const u8, size: usize) -> i32 {
    // libFuzzer may pass null with size 0.
    let input = if size == 0 { &[] } else { std::slice::from_raw_parts(data, size) };
    compare(&Cut::of(input));
    0
}
