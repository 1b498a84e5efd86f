//! The two programs that are compared.

use trewizlow::{Answer, Lent, Verdict};

use crate::checker;

/// Signature, start and length of the range, the bytes of the pages met, marks.
pub type Recheck = fn(&[u8], u64, u64, &[u8], &mut [u8]) -> Answer;

#[derive(Clone, Copy)]
pub struct Program {
    pub check: fn(&Lent, &mut [u8]) -> Verdict,
    pub recheck: Recheck,
}

#[derive(Clone, Copy)]
pub struct Programs {
    /// The proved library.
    pub library: Program,
    /// The straightforward Rust checker.
    pub plain: Program,
}

impl Programs {
    pub const COMPARED: Programs = Programs {
        library: Program { check: trewizlow::check, recheck: trewizlow::recheck },
        plain: Program { check: checker::check, recheck: checker::recheck },
    };
}
