//! An independent checker of signed Mach-O images, written from documents 01 and 02 and the
//! source documents that they name.
//!
//! It shares no code with the proved library. Its answers are what the library's
//! answers are compared with. Tests stand in the paper's order under their numbers,
//! and nothing is done for speed.

pub mod answer;
pub mod bytes;
pub mod cache;
pub mod check;
pub mod directory;
pub mod inputs;
pub mod kinds;
pub mod launch;
pub mod make;
mod message;
pub mod pages;
pub mod random;
pub mod recheck;
#[cfg(test)]
mod roots;
pub mod samples;
pub mod sha1;
mod sha2;
pub mod sha256;
pub mod sha384;
pub mod slots;
pub mod small;
pub mod superblob;
mod word;
