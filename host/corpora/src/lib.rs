//! The corpora that the Rattle test programs read, and the output that they must print, by
//! the independent reference's answers.
//!
//! `cases` makes the cases, `answers` asks the reference, `file` and `item` are the format
//! of a corpus file, `subjects` puts the files together, `admit` is the same for document
//! 01's small program.

pub mod admit;
pub mod answers;
pub mod case;
pub mod cases;
pub mod file;
pub mod item;
pub mod subjects;
