//! The proved library against the independent reference: the same random and damaged inputs
//! lent to both, every answer, mark, field and hash compared.
//!
//! Case n of a seed is the same in every run, so a difference can be looked at again.

mod calls;
mod chain;
mod damage;
mod difference;
mod lookups;
mod plan;
mod run;
mod scene;
mod types;

pub use difference::Difference;
pub use run::{run, run_case, Counts};
pub use types::{facts, fields};
