//! Safe functions over the C interface of Trewizlow, the proved admission checker for signed
//! Mach-O images.
//!
//! The proof is of the library in the archive that these functions call. This crate is not
//! part of it: it lends buffers and puts numbers into words, and decides nothing itself.
//!
//! Tests are named by the numbers of their refusals. 46 is made after 14, and 35 after 15: "tests
//! 1 to 18" and "1 to 31" have both among them.
//!
//! ```
//! use trewizlow::{check, read, recheck, Lent};
//!
//! let sample = |name| std::fs::read(format!("../../samples/{name}")).unwrap();
//! let (signature, image, cache) =
//!     (sample("signature.bin"), sample("image.bin"), sample("cache.bin"));
//!
//! // One mark a page; the signature's directory says how many pages there are.
//! let directory = read(&signature);
//! let mut marks = vec![0; directory.code_slots as usize];
//! let verdict = check(&Lent::new(&signature, &image, &cache), &mut marks);
//! assert!(verdict.accepted());
//! assert_eq!(marks, [0, 0, 0]);
//!
//! // A change of bytes 4095 and 4096 meets pages 0 and 1: both are lent again.
//! let mut changed = image.clone();
//! changed[4095] ^= 1;
//! changed[4096] ^= 1;
//! let answer = recheck(&signature, 4095, 2, &changed[..8192], &mut marks);
//! assert_eq!((answer.number, answer.place), (31, 0));
//! assert_eq!(marks, [1, 1, 0]);
//! println!("{answer}");
//! ```

mod answer;
mod interface;
mod layout;
mod rules;
mod signature;

pub use answer::{Answer, Verdict};
pub use interface::{check, recheck, Launch, Lent};
pub use rules::{Rule, RULES};
pub use signature::{cdhash, find, read, Blob, CdHash, Directory};

/// The number of the C interface that this crate declares: `TREWIZLOW_INTERFACE` of the header.
pub const INTERFACE: u32 = 1;
/// The most bytes of a signature (test 1).
pub const MOST_SIGNATURE_BYTES: usize = 67_108_864;
/// The most bytes of a side file that is there (test 1).
pub const MOST_SIDE_FILE_BYTES: usize = 4_194_304;
/// The length of the longest trust cache: 24 bytes and 24 for each of 65,536 entries (test 24).
pub const MOST_CACHE_BYTES: usize = 24 + 24 * 65_536;
/// The most pages, and so the most marks (test 16).
pub const MOST_PAGES: usize = 1_048_576;
/// The largest code limit (test 15).
pub const MOST_CODE_LIMIT: usize = 17_179_869_184;
