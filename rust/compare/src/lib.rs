//! Compares the proved library with the second program: the same files, the same questions, the same
//! inputs of the maker, and every output of every answer.
//!
//! [`difference`] asks both about one file. [`all_same`] goes through many cases on all processors and
//! shrinks the first one on which the two differ; a case is a file, an input of the maker, or a file
//! [`Joined`] from frames that are made.
#![forbid(unsafe_code)]

mod making;
mod questions;
mod run;

pub mod damage;

pub use making::{make, Joined};
pub use questions::difference;
pub use run::{all_same, Case, Failure, Outcome, Tally};
